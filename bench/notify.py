#!/usr/bin/env python3
"""Measures notifications from their flights to their acknowledgements, and what an idle session and a user take of memory.

It runs the program that the gate left, or `rt run -- direct 20` in crates/notify_bench built (crates/notify_bench/out/notify_bench).
A notification is the flight of a message of 256 bytes on one shard, from its begin to its end, the text by which a session sends
it, and the client's text by which it is acknowledged. Each kind is run by turns with the same steps on the shard alone; a number
is the least of several runs, without what a run of none takes, with the median behind it. The nanoseconds are of one
processor. The core's share is what the steps alone took of that, in the median pair of runs.

Allocations are counted by bench/allocations.c, which it builds by cc, and which it loads into the program; they are the
difference of a run of N and one of 2N. Bytes are that of the peaks of resident memory.
Usage: notify.py [PROGRAM]
"""
import os
import pathlib
import resource
import statistics
import subprocess
import sys
import tempfile
import threading
import time

HERE = pathlib.Path(__file__).resolve().parent
PROGRAM = pathlib.Path(sys.argv[1] if len(sys.argv) > 1 else HERE.parent / "crates/notify_bench/out/notify_bench")
# what a round does, the kind that does it, the same steps alone, and how many are sent
KINDS = [
    ("ten that the session is given", "direct", "core", 100_000),
    ("ten that are stored", "stored", "core-stored", 100_000),
    ("one that the session is given", "one", "core-one", 100_000),
]
# what is kept, and how many N is
KEPT = [("an idle session, with its user and chat", "idle", 5_000), ("a user with a channel", "cells", 50_000)]
COUNTED = 1_000
ROUNDS = int(os.environ.get("ROUNDS", "9"))
SECONDS = 120


def run(kind, count, preload=None):
    """What a run took of time and of a processor, in nanoseconds, its peak of memory in bytes, and its standard error."""
    words = [str(PROGRAM), kind, str(count)]
    env = dict(os.environ, LD_PRELOAD=str(preload)) if preload else None
    begun = time.perf_counter()
    with subprocess.Popen(words, stdout=subprocess.PIPE, stderr=subprocess.PIPE, text=True, env=env) as child:
        clock = threading.Timer(SECONDS, child.kill)
        clock.start()
        written, messages = child.stdout.read(), child.stderr.read()
        _, status, usage = os.wait4(child.pid, 0)
        clock.cancel()
        child.returncode = os.waitstatus_to_exitcode(status)
    took = 1e9 * (time.perf_counter() - begun)
    if child.returncode != 0 or written != f"{count} {count}\n":
        sys.exit(f"{' '.join(words)} ended with status {child.returncode} and wrote {written!r}")
    return took, 1e9 * (usage.ru_utime + usage.ru_stime), usage.ru_maxrss * 1024, messages


def notified(kind, core, count):
    """What a notification takes of time and of a processor, and its steps alone of a processor, each run in nanoseconds."""
    start = min(run(kind, 0)[1] for _ in range(ROUNDS))
    took, busy, alone = [], [], []
    for _ in range(ROUNDS):
        seen = run(kind, count)
        took.append((seen[0] - start) / count)
        busy.append((seen[1] - start) / count)
        alone.append((run(core, count)[1] - start) / count)
    return took, busy, alone


def allocations(kind, preload):
    """The allocations of one notification."""
    made = []
    for count in (COUNTED, 2 * COUNTED):
        words = run(kind, count, preload)[3].split()
        if len(words) != 2 or words[0] != "allocations":
            sys.exit(f"{kind} {count} counted {words}")
        made.append(int(words[1]))
    return (made[1] - made[0]) / COUNTED


def bytes_of(kind, count):
    """The bytes of memory that one of these takes."""
    # a process begins with the peak of the one that started it
    least = resource.getrusage(resource.RUSAGE_SELF).ru_maxrss * 1024
    peaks = [run(kind, times * count)[2] for times in (1, 2)]
    if peaks[0] <= least:
        sys.exit(f"{kind} {count} took no more memory than {sys.argv[0]} itself")
    return (peaks[1] - peaks[0]) / count


def main():
    if not os.access(PROGRAM, os.X_OK):
        sys.exit("build the program first: cd crates/notify_bench && rt run -- direct 20")
    with tempfile.TemporaryDirectory() as folder:
        preload = pathlib.Path(folder) / "allocations.so"
        source = str(HERE / "allocations.c")
        subprocess.run(["cc", "-O1", "-shared", "-fPIC", "-o", str(preload), source, "-ldl"], check=True)
        print("| A round | notifications a second | ns each (median) | the core's ns (median) | its share | ns of time | allocations each | of the core |")
        print("|---|---|---|---|---|---|---|---|")
        for name, kind, core, count in KINDS:
            took, busy, alone = notified(kind, core, count)
            share = statistics.median(part / whole for part, whole in zip(alone, busy))
            print(
                f"| {name} | {1e9 / min(busy):,.0f} | {min(busy):,.0f} ({statistics.median(busy):,.0f}) | {min(alone):,.0f} ({statistics.median(alone):,.0f})"
                f" | {100 * share:.0f}% | {min(took):,.0f} | {allocations(kind, preload):.2f} | {allocations(core, preload):.2f} |",
                flush=True,
            )
    print("\n| Kept | bytes |")
    print("|---|---|")
    for name, kind, count in KEPT:
        print(f"| {name}, of {count:,} | {bytes_of(kind, count):,.0f} |", flush=True)


if __name__ == "__main__":
    main()
