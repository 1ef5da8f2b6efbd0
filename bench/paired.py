#!/usr/bin/env python3
"""The processor time of `autopush replay` against that of bench/plain_replay.rs, a replay of the same lines in plain Rust.

Both run by turns on each schedule, on one processor where `taskset` is there, with their output thrown away, after it was
compared once. What is printed is the middle of the ratios of the pairs, and of each program's time. It runs the program that
the gate left, or the one that is named, and builds the other by rustc.
Usage: paired.py [PAIRS [PROGRAM]]
"""
import os
import pathlib
import shutil
import statistics
import subprocess
import sys
import tempfile

HERE = pathlib.Path(__file__).resolve().parent
PROGRAM = HERE.parent / "crates/autopush/out/autopush"
OPENING = ["create 1 1 100", "attach 1 1 100", "register 1 1 100 5 1ab"]


def direct(k, payload):
    """One message on the direct path, given, taken and acknowledged."""
    return [f"begin 1 {k} 1ab 60 . normal {payload}", f"direct 1 {k}", f"heard f 1 {k}", "take 1 1 100", f"ack 1 1 100 5 {k}"]


def stored(k, payload):
    """One message on the stored path, fetched and acknowledged."""
    return [
        f"begin 1 {k} 1ab 60 . normal {payload}", f"lost f 1 {k}", f"store 1 {k}", f"reread f 1 {k}", f"nudge f 1 {k}",
        f"heard f 1 {k}", "check 1 1 100", "topics 1 1 100", "plains 1 1 100", f"ack 1 1 100 5 {k}",
    ]


def rounds(kinds, payload, lines):
    """Rounds of these kinds of path, one after the other."""
    schedule, k = list(OPENING), 1
    while len(schedule) < lines:
        for kind in kinds:
            schedule += kind(k, payload)
            k += 1
    return schedule


def over_rows(rows, lines):
    """Rounds of the direct path over a user's rows, which no session takes."""
    schedule = list(OPENING)
    for k in range(1, rows + 1):
        schedule += [f"begin 1 {k} 1ab 60 . normal .", f"lost f 1 {k}", f"store 1 {k}", f"reread f 1 {k}", f"nudge f 1 {k}", f"heard f 1 {k}"]
    k = rows + 1
    while len(schedule) < lines:
        schedule += direct(k, "a7" * 64)
        k += 1
    return schedule


SCHEDULES = {
    "both paths, payloads of 64 bytes": rounds([direct, stored], "a7" * 64, 300_000),
    "the direct path, no payload": rounds([direct], ".", 300_000),
    "the direct path, payloads of 64 bytes": rounds([direct], "a7" * 64, 300_000),
    "the direct path, payloads of 4,096 bytes": rounds([direct], "a7" * 4096, 30_000),
    "the stored path, payloads of 64 bytes": rounds([stored], "a7" * 64, 300_000),
    "the direct path over 1,000 rows": over_rows(1000, 100_000),
}


def times(words, schedule):
    """The seconds of the processor that the program takes for the schedule: its own, and the system's for it."""
    with open(schedule, "rb") as given:
        child = subprocess.Popen(words, stdin=given, stdout=subprocess.DEVNULL)
        _, status, used = os.wait4(child.pid, 0)
    child.returncode = os.waitstatus_to_exitcode(status)
    if child.returncode != 0:
        sys.exit(f"{words} ended with status {child.returncode}")
    return used.ru_utime, used.ru_stime


def main():
    pairs = int(sys.argv[1]) if len(sys.argv) > 1 else 15
    program = pathlib.Path(sys.argv[2]) if len(sys.argv) > 2 else PROGRAM
    if not os.access(program, os.X_OK):
        sys.exit("the program is not there: run .ci/run first")
    one = ["taskset", "-c", str(min(os.sched_getaffinity(0)))] if shutil.which("taskset") else []
    with tempfile.TemporaryDirectory() as room:
        plain = f"{room}/plain"
        subprocess.run(["rustc", "-O", "--edition", "2024", "-C", "panic=abort", "-o", plain, HERE / "plain_replay.rs"], check=True)
        for name, lines in SCHEDULES.items():
            schedule = f"{room}/schedule"
            pathlib.Path(schedule).write_text("\n".join(lines) + "\n")
            said = [subprocess.run([it, *words], stdin=open(schedule, "rb"), capture_output=True).stdout for it, words in ((program, ["replay"]), (plain, []))]
            if said[0] != said[1]:
                sys.exit(f"{name}: the two say otherwise")
            ours, theirs = [], []
            for _ in range(pairs):
                ours.append(times([*one, str(program), "replay"], schedule))
                theirs.append(times([*one, plain], schedule))
            ratio = statistics.median(sum(a) / sum(b) for a, b in zip(ours, theirs))
            own = statistics.median(a[0] / b[0] for a, b in zip(ours, theirs) if b[0])
            each = [statistics.median(map(sum, it)) / len(lines) * 1e9 for it in (ours, theirs)]
            system = [statistics.median(b for _, b in it) / len(lines) * 1e9 for it in (ours, theirs)]
            print(
                f"{name:42} ratio {ratio:5.2f}   {each[0]:6.0f} and {each[1]:6.0f} ns a line, "
                f"the system's part {system[0]:5.0f} and {system[1]:5.0f}; without it {own:5.2f}"
            )


if __name__ == "__main__":
    main()
