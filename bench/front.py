#!/usr/bin/env python3
"""Measures requests of HTTP at one shard, over wires in memory, and the steps alone that such requests make.

It builds nothing but a shim: it runs the program that the gate left (crates/front_bench/out/front_bench), or the one that the
variable PROGRAM names. Each number is the difference of a run with twice as many requests and one with so many, which leaves
out what each run costs once. The runs go by turns. The first number is the difference of the least of both, and the one in
brackets the median of the differences of two runs one after the other. All are of the processor's time, of one processor. The
share of the core is what the steps alone take, in hundredths of what the request takes, by the first numbers. Allocations are
the calls that ask for memory, counted by bench/allocations.c.
"""
import os
import pathlib
import resource
import statistics
import subprocess
import sys
import tempfile

HERE = pathlib.Path(__file__).resolve().parent
PROGRAM = pathlib.Path(os.environ.get("PROGRAM", HERE.parent / "crates/front_bench/out/front_bench"))
# a kind, the steps that its requests make, and how many requests there are, in whole wires
KINDS = [("direct", "direct", 100_000), ("stored", "stored", 200_000), ("full", "full", 20_000), ("bytes", "stored", 20_000)]
HEADS = ["short", "long"]
ROUNDS = int(os.environ.get("ROUNDS", "15"))
SECONDS = 120


def run(words, count, shim=None):
    """The processor's seconds, and what was said on standard error."""
    before = resource.getrusage(resource.RUSAGE_CHILDREN)
    environment = dict(os.environ, LD_PRELOAD=str(shim)) if shim else None
    all_words = [str(PROGRAM), *words, str(count)]
    done = subprocess.run(all_words, capture_output=True, text=True, timeout=SECONDS, env=environment)
    after = resource.getrusage(resource.RUSAGE_CHILDREN)
    if done.returncode != 0 or done.stdout != f"{count}\n":
        sys.exit(f"{' '.join(all_words)} ended with status {done.returncode} and wrote {done.stdout!r}")
    return after.ru_utime + after.ru_stime - before.ru_utime - before.ru_stime, done.stderr


def allocations(words, count, shim):
    """The allocations of a request."""
    once, twice = (int(run(words, n, shim)[1].split()[-1]) for n in (count, 2 * count))
    return (twice - once) / count


def nanoseconds(runs):
    """The nanoseconds of a request by each list of words, by turns: of the least times, and the median over the pairs."""
    times = {key: ([], []) for key in runs}
    for _ in range(ROUNDS):
        for words, count in runs:
            once, twice = times[words, count]
            once.append(run(words, count)[0])
            twice.append(run(words, 2 * count)[0])
    found = {}
    for (words, count), (once, twice) in times.items():
        middle = statistics.median(more - less for less, more in zip(once, twice))
        found[words, count] = 1e9 * (min(twice) - min(once)) / count, 1e9 * middle / count
    return found


def main():
    if not os.access(PROGRAM, os.X_OK):
        sys.exit("build the program first: cd crates/front_bench && rt run -- direct short 1000")
    with tempfile.TemporaryDirectory() as folder:
        shim = pathlib.Path(folder) / "allocations.so"
        words = ["cc", "-O2", "-shared", "-fPIC", "-o", str(shim), str(HERE / "allocations.c")]
        subprocess.run(words, check=True)
        for kind, steps, count in KINDS:
            core = ("core", steps), count
            served = [((kind, head), count) for head in HEADS]
            times = nanoseconds([core, *served])
            alone, middle = times[core]
            asked = allocations(*core, shim)
            for words, _ in served:
                least, median = times[words, count]
                print(
                    f"{kind:7}{words[1]:6}{1e9 / least:10,.0f} requests/s{least:10,.0f} ns (median {median:,.0f})"
                    f"   core {alone:,.0f} ns (median {middle:,.0f}), {100 * alone / least:.0f}%"
                    f"   allocations {allocations(words, count, shim):.2f}, of the core {asked:.2f}",
                    flush=True,
                )


if __name__ == "__main__":
    main()
