#!/usr/bin/env python3
"""Measures `example_redis` beside `redis-server` by `redis-benchmark`, and beside memcached, in one run, and prints a table.

    bench/stores.py [--program FILE] [--runs N] [--requests N] [--clients N,..] [--in-flight N,..] [--tests NAME,..] [--workers N,..]
                    [--size BYTES] [--server CPUS] [--client CPUS]

It wants the program (`rt run` in crates/example_redis, or --program) and Debian's `redis-server`, `redis-tools` and `memcached`; a server that isn't there is left
out. Each server is begun anew for each row, on this machine's loopback, and asked by `redis-benchmark`: so many requests over so many connections, so many under
way on each, under keys drawn from 100,000. memcached, which speaks a protocol of its own, is asked for `get` and `set` in the same way by bench/memcached.c, which
wants a C compiler. A row is the median run by processor time of the server for each request (user and system); the requests a second are those of the same run,
and want a machine that does nothing else. Redis keeps nothing on disk here, and has one thread, as it has by default. --server and --client name the processors of
each, as taskset has them.
"""
import argparse
import csv
import io
import os
import shutil
import socket
import subprocess
import sys
import tempfile
import time

TOP = os.path.dirname(os.path.dirname(os.path.abspath(__file__)))
STORE = os.path.join(TOP, "crates", "example_redis", "out", "example_redis")
MEMCACHED = os.path.join(TOP, "bench", "memcached.c")
TICKS = os.sysconf("SC_CLK_TCK")
MOST_SECONDS = 120


def free_port():
    with socket.socket() as asked:
        asked.bind(("127.0.0.1", 0))
        return asked.getsockname()[1]


def listens(port, child):
    """Whether the server takes connections within ten seconds. The one that finds out is closed again."""
    for _ in range(200):
        if child.poll() is not None:
            return False
        with socket.socket() as tried:
            if tried.connect_ex(("127.0.0.1", port)) == 0:
                return True
        time.sleep(0.05)
    return False


def spent(pid):
    """The seconds that a process has spent on processors."""
    with open(f"/proc/{pid}/stat") as file:
        fields = file.read().rpartition(")")[2].split()
    return (int(fields[11]) + int(fields[12])) / TICKS


def asked(port, client, test, order, other):
    """Runs `redis-benchmark`, or the other client, and gives its requests a second, by the name of the test that it prints."""
    if other:
        words = [*client, other, str(port), test, str(order.requests), str(order.clients), str(order.in_flight), str(order.size)]
        said = subprocess.run(words, capture_output=True, text=True, timeout=MOST_SECONDS).stdout.split()
        return [(test, order.requests / float(said[1]))] if len(said) == 2 and int(said[0]) == order.requests else []
    words = [*client, "redis-benchmark", "-p", str(port), "-t", test, "-n", str(order.requests), "-c", str(order.clients), "-P", str(order.in_flight)]
    words += ["-r", "100000", "-d", str(order.size), "--csv"]
    said = subprocess.run(words, capture_output=True, text=True, timeout=MOST_SECONDS).stdout
    rows = [row for row in csv.reader(io.StringIO(said)) if len(row) > 1 and row[0] != "test"]
    return [(row[0], float(row[1])) for row in rows]


def once(words, client, test, order, other):
    """A run of one server: microseconds of a processor and requests a second, or nothing where it can't be had."""
    port = free_port()
    child = subprocess.Popen([word.replace("PORT", str(port)) for word in words], stdin=subprocess.DEVNULL, stdout=subprocess.DEVNULL, stderr=subprocess.DEVNULL)
    try:
        if not listens(port, child):
            return None
        before = spent(child.pid)
        rows = asked(port, client, test, order, other)
        if not rows:
            return None
        return (spent(child.pid) - before) / (order.requests * len(rows)) * 1e6, sum(rate for _, rate in rows) / len(rows)
    finally:
        child.kill()
        child.wait()


def servers(given, pinned):
    """The words that begin each server, by its name."""
    named = {}
    if shutil.which("redis-server"):
        named["redis-server"] = [*pinned, "redis-server", "--port", "PORT", "--bind", "127.0.0.1", "--save", "", "--appendonly", "no"]
    if os.access(given.program, os.X_OK):
        for count in map(int, given.workers.split(",")):
            named[f"example_redis, {count} workers"] = [*pinned, given.program, "PORT", "1024", str(count)]
    if shutil.which("memcached") and shutil.which("cc"):
        user = ["-u", "root"] if os.geteuid() == 0 else []
        for count in map(int, given.workers.split(",")):
            named[f"memcached, {count} threads"] = [*pinned, "memcached", *user, "-l", "127.0.0.1", "-p", "PORT", "-t", str(count), "-m", "256"]
    return named


def rows_of(given, named, client, own):
    """Prints a row for each server and what it is asked. What speaks to memcached is made in this folder."""
    print("| command | clients | under way | server | us a request | requests a second |")
    print("|---|---:|---:|---|---:|---:|")
    for clients in map(int, given.clients.split(",")):
        for in_flight in map(int, given.in_flight.split(",")):
            order = argparse.Namespace(requests=given.requests, clients=clients, in_flight=in_flight, size=given.size)
            for test in given.tests.split(","):
                for name, words in named.items():
                    other = os.path.join(own, "memcached") if name.startswith("memcached") else None
                    if other and test not in ("get", "set"):
                        continue
                    runs = sorted(run for run in (once(words, client, test, order, other) for _ in range(given.runs)) if run)
                    if runs:
                        cost, rate = runs[len(runs) // 2]
                        print(f"| {test} | {clients} | {in_flight} | {name} | {cost:.1f} | {rate:,.0f} |", flush=True)


def main():
    words = argparse.ArgumentParser(usage=__doc__)
    words.add_argument("--program", default=STORE)
    words.add_argument("--runs", type=int, default=3)
    words.add_argument("--requests", type=int, default=200000)
    words.add_argument("--clients", default="50")
    words.add_argument("--in-flight", default="1,16")
    words.add_argument("--tests", default="ping_mbulk,set,get,incr,mset")
    words.add_argument("--workers", default="1,2,4")
    words.add_argument("--size", type=int, default=3)
    words.add_argument("--server", default="")
    words.add_argument("--client", default="")
    given = words.parse_args()
    if not shutil.which("redis-benchmark"):
        sys.exit("stores: redis-benchmark isn't here")
    pinned, client = (["taskset", "-c", cpus] if cpus else [] for cpus in (given.server, given.client))
    named = servers(given, pinned)
    with tempfile.TemporaryDirectory() as own:
        if any(name.startswith("memcached") for name in named):
            subprocess.run(["cc", "-O2", "-o", os.path.join(own, "memcached"), MEMCACHED], check=True)
        rows_of(given, named, client, own)


if __name__ == "__main__":
    main()
