#!/usr/bin/env python3
"""Measures `autopush replay`: lines a second, growth with what is held and stored, and memory. Growth with users: growth.py.

It runs the program that the gate left, or the one that is named. Each run has a time limit, and one that takes longer is
told so. Usage: replay.py [PROGRAM]
"""
import os
import pathlib
import resource
import subprocess
import sys
import tempfile
import time

PROGRAM = pathlib.Path(sys.argv[1] if len(sys.argv) > 1 else pathlib.Path(__file__).resolve().parent.parent / "crates/autopush/out/autopush")
OPENING = ["create 1 1 100", "attach 1 1 100", "register 1 1 100 5 1ab"]
PAYLOAD = "a7" * 64
SECONDS = 120


def direct(k):
    """One message on the direct path, given, taken and acknowledged."""
    return [f"begin 1 {k} 1ab 60 . normal {PAYLOAD}", f"direct 1 {k}", f"heard f 1 {k}", "take 1 1 100", f"ack 1 1 100 5 {k}"]


def stored(k):
    """One message on the stored path, fetched and acknowledged."""
    return [
        f"begin 1 {k} 1ab 60 . normal {PAYLOAD}", f"lost f 1 {k}", f"store 1 {k}", f"reread f 1 {k}", f"nudge f 1 {k}",
        f"heard f 1 {k}", "check 1 1 100", "topics 1 1 100", "plains 1 1 100", f"ack 1 1 100 5 {k}",
    ]


def peak_of(child):
    """The greatest memory that the process has had in RAM so far, in KiB."""
    try:
        for line in pathlib.Path(f"/proc/{child.pid}/status").read_text().splitlines():
            if line.startswith("VmHWM:"):
                return int(line.split()[1])
    except OSError:
        pass
    return 0


def run(lines):
    """The seconds of the processor that a replay of the lines takes and the peak of its memory in KiB, or none at the limit."""
    with tempfile.TemporaryFile() as schedule:
        schedule.write(("\n".join(lines) + "\n").encode())
        schedule.seek(0)
        begun = time.perf_counter()
        before = resource.getrusage(resource.RUSAGE_CHILDREN)
        child = subprocess.Popen([str(PROGRAM), "replay"], stdin=schedule, stdout=subprocess.DEVNULL)
        peak = 0
        while child.poll() is None:
            if time.perf_counter() - begun > SECONDS:
                child.kill()
                child.wait()
                return None
            peak = max(peak, peak_of(child))
            time.sleep(0.002)
        after = resource.getrusage(resource.RUSAGE_CHILDREN)
    if child.returncode != 0:
        sys.exit(f"a replay of {len(lines)} lines ended with status {child.returncode}")
    return after.ru_utime + after.ru_stime - before.ru_utime - before.ru_stime, peak


def tell(name, lines):
    """Runs the lines, and tells what they took."""
    ran = run(lines)
    if not ran:
        print(f"{name:44} {len(lines):7} lines took more than {SECONDS} s")
        return
    seconds, peak = ran
    print(f"{name:44} {len(lines):7} lines {seconds:8.2f} s {len(lines) / seconds:10.0f} lines/s   peak {peak:6} KiB", flush=True)


def main():
    if not os.access(PROGRAM, os.X_OK):
        sys.exit("the program is not there: run .ci/run first")
    lines = list(OPENING)
    k = 1
    while len(lines) < 300_000:
        lines += direct(k) + stored(k + 1)
        k += 2
    tell("rounds of both paths", lines)
    for held in (10, 100, 500):
        lines = list(OPENING)
        for k in range(1, held + 1):
            lines += [f"begin 1 {k} 1ab 60 . normal .", f"direct 1 {k}", f"heard f 1 {k}"]
        # held messages fill the direct list in pages; then acknowledgements of an unknown id search it whole
        lines += ["take 1 1 100"] * (held // 10) + ["ack 1 1 100 5 999999"] * 20_000
        tell(f"acks of an unknown id, {held} held", lines)
    for count in (10, 100, 1000):
        lines = list(OPENING)
        for k in range(1, count + 1):
            lines += [f"begin 1 {k} 1ab 60 . normal .", f"lost f 1 {k}", f"store 1 {k}", f"reread f 1 {k}", f"nudge f 1 {k}", f"heard f 1 {k}"]
        lines += ["check 1 1 100", "topics 1 1 100", "plains 1 1 100"] + ["report"] * 2_000
        tell(f"reports over {count} rows", lines)


if __name__ == "__main__":
    main()
