#!/usr/bin/env python3
"""Measures steps on shards that lie on boards, beside the same steps on a bare shard, and beside plain Rust under a lock.

It runs the program that `rt run -- 1 1 1000` in crates/board_bench built (crates/board_bench/out/board_bench), and
bench/mutex.rs, which it builds by rustc. Both are run by turns, and each number is the best of several runs, with the
median behind it. The share is what a call takes beyond the step on a bare shard.
"""
import os
import pathlib
import statistics
import subprocess
import sys
import tempfile
import time

HERE = pathlib.Path(__file__).resolve().parent
BOARD = HERE.parent / "crates/board_bench/out/board_bench"
# callers, the shards that they go round, and the steps that each makes
KINDS = [(0, 1, 2_000_000), (1, 1, 2_000_000), (2, 1, 500_000), (4, 1, 200_000), (4, 16, 320_000)]
ROUNDS = int(os.environ.get("ROUNDS", "5"))
SECONDS = 120


def run(program, callers, shards, steps):
    """The nanoseconds a step."""
    begun = time.perf_counter()
    words = [str(program), str(callers), str(shards), str(steps // shards)]
    done = subprocess.run(words, capture_output=True, text=True, timeout=SECONDS)
    seconds = time.perf_counter() - begun
    count = max(callers, 1) * steps
    if done.returncode != 0 or int(done.stdout) != count:
        sys.exit(f"{' '.join(words)} ended with status {done.returncode} and wrote {done.stdout!r}")
    return 1e9 * seconds / count


def main():
    if not os.access(BOARD, os.X_OK):
        sys.exit("build the program first: cd crates/board_bench && rt run -- 1 1 1000")
    with tempfile.TemporaryDirectory() as folder:
        mutex = pathlib.Path(folder) / "mutex"
        subprocess.run(["rustc", "-O", "-o", str(mutex), str(HERE / "mutex.rs")], check=True)
        bare = None
        for kind in KINDS:
            boards, locks = [], []
            for _ in range(ROUNDS):
                boards.append(run(BOARD, *kind))
                locks.append(run(mutex, *kind))
            board, lock = min(boards), min(locks)
            bare = bare or board
            callers, shards, _ = kind
            name = f"{callers} callers, {shards} boards" if callers else "a bare shard"
            print(
                f"{name:22} {1e9 / board:12.0f} calls/s {board:8.1f} ns (median {statistics.median(boards):8.1f})"
                f"   plain {lock:8.1f} ns (median {statistics.median(locks):8.1f})   {board / lock:6.2f} times"
                f"   the board's share {max(0.0, 100 * (1 - bare / board)):3.0f}%"
            )


if __name__ == "__main__":
    main()
