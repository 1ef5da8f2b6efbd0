#!/usr/bin/env python3
"""Measures a running push service, and by turns the same job done by plain Rust on tokio and hyper (bench/plain_service).

It builds bench/load.rs by rustc and bench/plain_service by cargo, which wants Debian's packages librust-tokio-dev,
librust-hyper-dev, librust-serde-json-dev, librust-base64-dev and librust-sha1-dev and fetches nothing. For each scene it starts a
server afresh, lets the load run over it, tells it to stop, and ends it by its process id where it doesn't within 20 s.
Everything is on 127.0.0.1. Usage: service.py [PROGRAM], where PROGRAM answers `PROGRAM serve CN EN CP EP`, or `-` for the plain
service alone. ROUNDS (1), SECONDS (10), SCENES (all, as 1,5) and PORT (18000) come from the environment.
"""
import os
import pathlib
import resource
import socket
import statistics
import subprocess
import sys
import tempfile
import time

HERE = pathlib.Path(__file__).resolve().parent
PROGRAM = HERE.parent / "crates/autopush/out/autopush"
ROUNDS = int(os.environ.get("ROUNDS", "1"))
SECONDS = int(os.environ.get("SECONDS", "10"))
PORT = int(os.environ.get("PORT", "18000"))
# What is done, on so many connection and endpoint nodes, by these words of the load.
SCENES = [
    ("flat out, 64 sessions, 2 senders", 1, 1, {"sessions": 64, "senders": 2}),
    ("flat out, 64 sessions, 16 senders", 1, 1, {"sessions": 64, "senders": 16}),
    ("flat out, 240 sessions, 16 senders", 1, 1, {"sessions": 240, "senders": 16}),
    ("flat out, 1,000 sessions on 4 nodes, 16 senders", 4, 2, {"sessions": 1000, "senders": 16}),
    ("80 messages/s, 8 sessions", 1, 1, {"sessions": 8, "senders": 4, "rate": 80}),
    ("1,000 messages/s, 64 sessions", 1, 1, {"sessions": 64, "senders": 16, "rate": 1000}),
    ("2,000 messages/s, 240 sessions", 1, 1, {"sessions": 240, "senders": 16, "rate": 2000}),
    ("500 messages/s beside 600 unfinished heads", 1, 1, {"sessions": 64, "senders": 16, "rate": 500, "unfinished": 600, "seconds": 15}),
    ("2,400 messages/s, half to 200 sessions that never read", 1, 1, {"sessions": 40, "senders": 16, "rate": 2400, "deaf": 200, "seconds": 30}),
    ("2,400 messages/s, half to 20 sessions that never read", 1, 1, {"sessions": 40, "senders": 16, "rate": 2400, "deaf": 20, "seconds": 30}),
    ("idle, 240 sessions", 1, 1, {"sessions": 240, "idle": 20}),
    ("idle, 1,000 sessions on 4 nodes", 4, 2, {"sessions": 1000, "idle": 20}),
    ("flat out, 240 sessions on 2 nodes, 2 senders", 2, 1, {"sessions": 240, "senders": 2}),
    ("flat out, 240 sessions on 2 nodes, 16 senders", 2, 1, {"sessions": 240, "senders": 16}),
    ("1,000 messages/s, 240 sessions on 2 nodes", 2, 1, {"sessions": 240, "senders": 16, "rate": 1000}),
]
# What is told of each, where the load said it.
TOLD = [
    "arrived_a_second", "p50_us", "p99_us", "p999_us", "processor_us_a_message", "latest_ms", "missing", "again", "lost_sessions",
    "answered_503", "deaf_201", "deaf_503", "unfinished_ended", "resident_bytes", "resident_bytes_a_session", "idle_processor_percent",
    "idle_sleeps_a_second",
]


def build(folder):
    """The load and the plain service."""
    load = folder / "load"
    subprocess.run(["rustc", "-O", "--edition", "2024", "-o", str(load), str(HERE / "load.rs")], check=True)
    target = pathlib.Path(os.environ.get("CARGO_TARGET_DIR", folder / "target"))
    words = ["cargo", "build", "--release", "--offline", "--quiet"]
    subprocess.run(words, cwd=HERE / "plain_service", env={**os.environ, "CARGO_TARGET_DIR": str(target)}, check=True)
    return load, target / "release/plain_service"


def end(server):
    """Tells the server to stop, and ends it where it doesn't."""
    try:
        server.communicate("stop\n", timeout=20)
    except subprocess.TimeoutExpired:
        server.kill()
        server.wait()
        return "was killed"
    except BrokenPipeError:
        server.wait()
    return f"status {server.returncode}"


def run(program, load, connections, endpoints, words):
    """What the load measured at a new server, by name, and how the server ended."""
    first, second = PORT, PORT + 100
    numbers = [str(number) for number in (connections, endpoints, first, second)]
    with socket.socket() as probe:
        if any(probe.connect_ex(("127.0.0.1", port)) == 0 for port in (first, second)):
            sys.exit(f"something listens at port {first} or {second}: give another PORT")
    server = subprocess.Popen([str(program), "serve", *numbers], stdin=subprocess.PIPE, stdout=subprocess.PIPE, text=True)
    time.sleep(0.5)
    words = {"cp": first, "cn": connections, "ep": second, "en": endpoints, "pid": server.pid, "seconds": SECONDS, **words}
    try:
        said = subprocess.run(
            [str(load), *(f"{name}={value}" for name, value in words.items())], capture_output=True, text=True, timeout=120
        )
        lines = said.stdout if said.returncode == 0 else f"{said.stdout}failed {said.stderr.strip()[-200:]!r}"
    except subprocess.TimeoutExpired:
        lines = "failed after_120_s"
    ended = end(server)
    found = dict(line.split(" ", 1) for line in lines.splitlines())
    return {**found, "server": ended}


def middle(runs, name):
    """The middle of what the runs say of it, or none."""
    values = [one[name] for one in runs if name in one]
    try:
        return f"{statistics.median(float(value) for value in values):g}" if values else None
    except ValueError:
        return values[0]


def main():
    asked = sys.argv[1] if len(sys.argv) > 1 else str(PROGRAM)
    if asked != "-" and not os.access(asked, os.X_OK):
        sys.exit(f"{asked} is not there: build it, or give - for the plain service alone")
    chosen = os.environ.get("SCENES")
    numbers = [int(number) for number in chosen.split(",")] if chosen else range(1, len(SCENES) + 1)
    resource.setrlimit(resource.RLIMIT_NOFILE, (resource.getrlimit(resource.RLIMIT_NOFILE)[1],) * 2)
    with tempfile.TemporaryDirectory() as folder:
        load, plain = build(pathlib.Path(folder))
        programs = {"plain": plain} if asked == "-" else {"ours": pathlib.Path(asked).resolve(), "plain": plain}
        for number in numbers:
            name, connections, endpoints, words = SCENES[number - 1]
            print(f"{number}. {name}", flush=True)
            runs = {program: [] for program in programs}
            for _ in range(ROUNDS):
                for program, path in programs.items():
                    runs[program].append(run(path, load, connections, endpoints, words))
            for program, its in runs.items():
                told = [f"{what} {middle(its, what)}" for what in TOLD if middle(its, what) not in (None, "0")]
                told += [f"FAILED {one['failed']}" for one in its if "failed" in one]
                told += [one["server"] for one in its if one["server"] != "status 0"]
                print(f"   {program:6} {', '.join(told)}", flush=True)


if __name__ == "__main__":
    main()
