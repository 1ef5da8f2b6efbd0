#!/usr/bin/env python3
"""Measures how the steps of `autopush replay` grow with the number of users, and what a user takes of memory.

One replay is fed by a pipe, some lines at a time. What its process had of a processor is read before some lines and again
once all their replies are there, so the users that are made before aren't in the times. Prints tables for docs/GATE.md.
Usage: growth.py [PROGRAM]
"""
import os
import pathlib
import statistics
import subprocess
import sys

ROOT = pathlib.Path(__file__).resolve().parent.parent
PROGRAM = pathlib.Path(sys.argv[1] if len(sys.argv) > 1 else ROOT / "crates/autopush/out/autopush")
COUNTS = (10, 1_000, 100_000)
# in each round so many users get so many messages each
SERVED, EACH = 10, 10
ROUNDS = 200
BATCH = 500


class Replay:
    """A replay that runs, and answers each line as it comes."""

    def __init__(self):
        self.child = subprocess.Popen([str(PROGRAM), "replay"], stdin=subprocess.PIPE, stdout=subprocess.PIPE)

    def feed(self, lines):
        """Has these lines answered, and gives the replies."""
        replies = []
        for start in range(0, len(lines), BATCH):
            some = lines[start:start + BATCH]
            self.child.stdin.write(("\n".join(some) + "\n").encode())
            self.child.stdin.flush()
            for line in some:
                reply = self.child.stdout.readline()
                if not reply.endswith(b"\n") or reply.startswith(b"refused"):
                    sys.exit(f"no reply to {line!r}, but {reply!r}")
                replies.append(reply.decode().rstrip("\n"))
        return replies

    def nanoseconds(self):
        """What the process had of a processor so far."""
        return int(pathlib.Path(f"/proc/{self.child.pid}/schedstat").read_text().split()[0])

    def resident(self):
        """The memory that it has in RAM, in KiB."""
        for line in pathlib.Path(f"/proc/{self.child.pid}/status").read_text().splitlines():
            if line.startswith("VmRSS:"):
                return int(line.split()[1])
        return 0

    def time(self, lines):
        """What these lines take of a processor, in nanoseconds, and the replies."""
        before = self.nanoseconds()
        replies = self.feed(lines)
        return self.nanoseconds() - before, replies

    def end(self):
        self.child.stdin.close()
        self.child.stdout.read()
        if self.child.wait() != 0:
            sys.exit(f"the replay ended with status {self.child.returncode}")


def users(first, last):
    """These users, each with a session and a channel."""
    lines = []
    for u in range(first, last + 1):
        lines += [f"create {u:x} 1 100", f"attach {u:x} 1 100", f"register {u:x} 1 100 5 {u:x}"]
    return lines


def expect(replies, word):
    """All the replies begin so, else what was measured is something else."""
    for reply in replies:
        if not reply.startswith(word):
            sys.exit(f"{reply!r} in the place of {word!r}")


def rounds(replay, count):
    """Messages that are begun, given, heard, taken and acknowledged, and channels that come and go: what a line of each kind
    takes in the median round, in nanoseconds."""
    spent = {name: [] for name in ("begin", "direct", "heard", "take", "ack", "register", "unregister")}
    k = 0
    for turn in range(ROUNDS):
        served = [1 + (turn * 7919 + i * max(1, count // SERVED)) % count for i in range(SERVED)]
        sent = []
        for u in served:
            for _ in range(EACH):
                k += 1
                sent.append((u, k))
        phases = (
            ("begin", [f"begin 1 {k} {u:x} 60 . normal {'a7' * 64}" for u, k in sent], "begun"),
            ("direct", [f"direct 1 {k}" for _, k in sent], "here"),
            ("heard", [f"heard f 1 {k}" for _, k in sent], "end"),
            ("take", [f"take {u:x} 1 100" for u in served], "page"),
            ("ack", [f"ack {u:x} 1 100 5 {k}" for u, k in sent], "acked"),
            ("register", [f"register {u:x} 1 100 6 {2 ** 64 + ROUNDS * u + turn:x}" for u in served], "endpoint"),
            ("unregister", [f"unregister {u:x} 1 100 6" for u in served], "done"),
        )
        for name, lines, word in phases:
            nanoseconds, replies = replay.time(lines)
            expect(replies, word)
            spent[name].append(nanoseconds / len(lines))
    return {name: statistics.median(each) for name, each in spent.items()}


def growth(count):
    """The lines a second of each kind with so many users, as a row of the table; then ticks, and the memory of the users."""
    replay = Replay()
    replay.feed(["report"])
    least = replay.resident()
    made, _ = replay.time(users(1, count))
    memory = (replay.resident() - least) * 1024 / count
    spent = rounds(replay, count)
    rates = [3 * count / made] + [1 / spent[name] for name in ("begin", "direct", "heard", "ack", "register", "unregister")]
    ticks = [replay.time(["tick 0"] * 100)[0] / 100 for _ in range(ROUNDS)]
    rates.append(1 / statistics.median(ticks))
    print(f"| {count:,} | " + " | ".join(f"{rate * 1e9:,.0f}" for rate in rates) + " |", flush=True)
    replay.end()
    return memory


def stored(count, each):
    """What each of so many users takes with so many rows of 256 bytes, in bytes."""
    replay = Replay()
    replay.feed(["report"])
    least = replay.resident()
    replay.feed(users(1, count))
    k = 0
    for u in range(1, count + 1):
        lines = []
        for _ in range(each):
            k += 1
            op = f"1 {k}"
            lines += [f"begin {op} {u:x} 60 . normal {'a7' * 256}", f"lost f {op}", f"store {op}", f"reread f {op}", f"nudge f {op}", f"heard f {op}"]
        replay.feed(lines)
    memory = (replay.resident() - least) * 1024 / count
    replay.end()
    return memory


def main():
    if not os.access(PROGRAM, os.X_OK):
        sys.exit("the program is not there: run .ci/run first, or name one")
    print("Lines a second of one processor, by the users that are there:\n")
    print("| Users | made | begin | direct | heard | ack | register | unregister | tick that moves nothing |")
    print("|---|---|---|---|---|---|---|---|---|")
    memory = 0
    for count in COUNTS:
        memory = growth(count)
    print("\n| One user, in RAM | bytes |")
    print("|---|---|")
    print(f"| with a session, a channel and no message, of {COUNTS[-1]:,} | {memory:,.0f} |")
    print(f"| the same with 10 rows of 256 bytes, of 2,000 | {stored(2_000, 10):,.0f} |")


if __name__ == "__main__":
    main()
