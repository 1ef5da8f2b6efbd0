#!/usr/bin/env python3
"""Makes and drops users one after the other, up to 90,000 in one replay: the peak of memory stays what one user needs.

Each user has a session, two channels with tokens of their own, and a message that the session holds, brought by a flight with a
name of its own; every other one closes the session, and its saver saves the message. One channel is unregistered, and then
the user is dropped. So nothing is kept of a user, a token or a flight that is no more. It runs the program that the gate left (`rt run` builds it too), and
ends with 1 where the last report counts anything, or 90,000 users need over 64 KiB more than 1,000.
"""
import pathlib
import subprocess
import sys
import tempfile
import time

PROGRAM = pathlib.Path(__file__).resolve().parent.parent / "crates/autopush/out/autopush"
SECONDS = 300
PAYLOAD = "a7" * 256
HELD = """create {u} 1 100
attach {u} 1 100
register {u} 1 100 5 {u}
register {u} 1 100 6 {t}
unregister {u} 1 100 6
begin 1 {n} {u} 2592000 . normal {p}
direct 1 {n}
heard f 1 {n}
"""
# What every other user does, before it is dropped.
ENDS = ["check {u} 1 100\ntopics {u} 1 100\ndrop {u}\n", "close {u} 1 100\nsave {u} 1 100\ndrop {u}\n"]
# The first token of the second channels.
SECOND = 1 << 40
NOTHING = "report users 0 stored 0 held 0 flights 0 unsent 0 orphans 0 waiting 0"


def peak_of(child):
    """The greatest memory that the process has had in RAM so far, in KiB."""
    try:
        for line in pathlib.Path(f"/proc/{child.pid}/status").read_text().splitlines():
            if line.startswith("VmHWM:"):
                return int(line.split()[1])
    except OSError:
        pass
    return 0


def run(users):
    """The seconds that a replay takes in which so many users are made and dropped, and the peak of its memory in KiB."""
    with tempfile.TemporaryFile() as schedule, tempfile.TemporaryFile() as replies:
        for number in range(1, users + 1):
            names = {"n": number, "u": f"{number:x}", "t": f"{SECOND + number:x}", "p": PAYLOAD}
            schedule.write((HELD + ENDS[number % 2]).format(**names).encode())
        schedule.write(b"report\n")
        schedule.seek(0)
        begun = time.perf_counter()
        child = subprocess.Popen([str(PROGRAM), "replay"], stdin=schedule, stdout=replies)
        peak = 0
        while child.poll() is None:
            if time.perf_counter() - begun > SECONDS:
                child.kill()
                child.wait()
                sys.exit(f"{users} users took more than {SECONDS} s")
            peak = max(peak, peak_of(child))
            time.sleep(0.002)
        seconds = time.perf_counter() - begun
        replies.seek(0)
        written = replies.read().decode().splitlines()
    if child.returncode != 0 or written[-1] != NOTHING or written.count("dropped") != users:
        sys.exit(f"{users} users: status {child.returncode}, the last reply is {written[-1]}")
    return seconds, peak


def main():
    peaks = []
    for users in (1_000, 10_000, 90_000):
        seconds, peak = run(users)
        peaks.append(peak)
        print(f"{users:7} users made and dropped {seconds:8.2f} s   peak {peak:6} KiB")
    return 1 if peaks[-1] > peaks[0] + 64 else 0


if __name__ == "__main__":
    sys.exit(main())
