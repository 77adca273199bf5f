#!/usr/bin/env python3
"""Measures a map that is spread over colours (`measure kv`, over `mely_actor`) beside the same in plain Rust with locks, and prints a table.

    bench/actors.py [--runs N] [--check]

It wants `measure` built (`rt run` in crates/measure) and rustc. 64 clients send messages to 64 buckets, every other one a put, and the
work of a message is so many rounds of a generator, of about 10 us or 1 us. The peers are one std mutex round one `HashMap`, and 64 such
maps by the key's remainder, each with the work under the lock, as a handler of a colour does it, and beside it. All is by the clock, the
least of so many runs with the programs in turn, so it wants a machine that does nothing else. A program keeps what it received: the
runtime a history and a trail, and the peers nothing. With --check each program runs once on little, and what they print is compared.
"""
import argparse
import os
import subprocess
import sys
import tempfile
import time

TOP = os.path.dirname(os.path.dirname(os.path.abspath(__file__)))
MEASURE = os.path.join(TOP, "crates", "measure", "out", "measure")
PEER = os.path.join(TOP, "bench", "peer", "src", "kv.rs")
CLIENTS = 64

# the rounds of a message of about 10 us and 1 us, and how many messages a client sends
WORK = ((62_000, 2_000), (5_000, 10_000))


def programs(peer):
    """Each program by its name: its words before and behind the three numbers."""
    yield "colours", [MEASURE, "kv"], []
    for how, name in (("one", "one lock"), ("sharded", "64 locks")):
        yield f"{name}, work under it", [peer], [how]
        yield f"{name}, work beside it", [peer], [how, "out"]


def once(head, tail, workers, messages, rounds):
    """Seconds of a run by the clock, and what it printed."""
    words = [*head, str(workers), str(messages), str(rounds), *tail]
    start = time.monotonic()
    done = subprocess.run(words, stdin=subprocess.DEVNULL, capture_output=True, text=True)
    seconds = time.monotonic() - start
    if done.returncode != 0:
        sys.exit(f"actors: {words} ended with {done.returncode}: {done.stderr}")
    return seconds, done.stdout


def check(all_programs):
    """Whether all print the same, for one worker and for four."""
    for workers in (1, 4):
        printed = {once(head, tail, workers, 100, 10)[1] for _, head, tail in all_programs}
        if len(printed) != 1:
            sys.exit(f"actors: the programs don't agree: {sorted(printed)}")
        print(f"{workers} workers: all print {printed.pop().strip()}")


def measure(all_programs, runs):
    """A line for each program and work: how long a message takes with 1, 2 and 4 workers, from what no message takes."""
    print("| work of a message | program | 1 worker | 2 workers | 4 workers |\n|---|---|---:|---:|---:|")
    for rounds, messages in WORK:
        least = {}
        for _ in range(runs):
            for name, head, tail in all_programs:
                for workers in (1, 2, 4):
                    for count in (0, messages):
                        key = name, workers, count
                        least[key] = min(least.get(key, 1e9), once(head, tail, workers, count, rounds)[0])
        for name, _, _ in all_programs:
            cells = []
            for workers in (1, 2, 4):
                spent = least[name, workers, messages] - least[name, workers, 0]
                cells.append(f"{spent / (CLIENTS * messages) * 1e6:.2f} us")
            print(f"| {rounds:,} rounds | {name} | {' | '.join(cells)} |")


def main():
    words = argparse.ArgumentParser(description="Measures a map spread over colours beside maps under locks.")
    words.add_argument("--runs", type=int, default=5, help="runs of each program (default 5)")
    words.add_argument("--check", action="store_true", help="only compare what the programs print")
    given = words.parse_args()
    if not os.access(MEASURE, os.X_OK):
        sys.exit("actors: measure isn't built")
    with tempfile.TemporaryDirectory(prefix="sws-actors-") as folder:
        peer = os.path.join(folder, "kv")
        subprocess.run(["rustc", "--edition", "2021", "-C", "opt-level=3", "-o", peer, PEER], check=True)
        all_programs = list(programs(peer))
        check(all_programs) if given.check else measure(all_programs, given.runs)


if __name__ == "__main__":
    main()
