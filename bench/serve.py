#!/usr/bin/env python3
"""Measures `sws serve` and `swsd` beside nginx, lighttpd, h2o and the same sockets without the runtime, in one run, and prints a table.

    bench/serve.py [--runs N] [--connections N] [--requests N] [--at-once N] [--in-flight N,..] [--sizes BYTES,..] [--workers N,..]
                   [--lone N] [--idle N] [--log] [--server CPUS] [--client CPUS] [--only WORD] [--program FILE] [--daemon FILE] [--calls]

It wants the program (`./sws`, or --program) or `swsd` (`./swsd --version`, or --daemon), `measure` (`rt run` in crates/measure), and a C compiler for the
client; a server that isn't there is left out. Each server serves one folder to bench/load.c, which makes so many connections on this machine's loopback, so many
of them at once, each with so many requests, one after another and 16 at a time; of a file of 64 KiB or more it makes fewer. `sws` with several workers is run in
the shape that the documents advise (64 shards, cost 9) and in the default one, `swsd` with so many lanes of one worker that take connections. nginx is run in two
forms, by sendfile and without, each with its file cache, and the row is that of the cheaper one. The same sockets without the runtime, the floor, come first.

Behind these rows come those of a lone client, of so many requests one after another, 64 a connection (--lone, 0 for none), and of one beside so many
connections that stand idle meanwhile (--idle, 0 for none). With --log `swsd` and nginx are run with their logs too.

All servers are run in turn, and so for each run. A row is the median run by processor time of the server for each request (user and system); the requests a second by the
clock, the client's processor time a request and the median of a request's time are those of the same run, and want a machine that does nothing else. --server and --client
name the processors of each, as taskset has them. With --calls the calls of futex a request are counted too, in a run of their own under
strace. Every server and every run of the client ends, and all that was made stands in a new folder below the system's temporary one,
removed at the end.
"""
import argparse
import contextlib
import os
import shutil
import signal
import socket
import subprocess
import sys
import tempfile
import time
from typing import NamedTuple

TOP = os.path.dirname(os.path.dirname(os.path.abspath(__file__)))
SWS = os.path.join(TOP, "crates", "sws_main", "out", "sws_main")
SWSD = os.path.join(TOP, "crates", "swsd", "out", "swsd")
MEASURE = os.path.join(TOP, "crates", "measure", "out", "measure")
LOAD = os.path.join(TOP, "bench", "load.c")

NGINX = """
daemon off; user root; worker_processes {workers}; error_log {folder}/nginx.log; pid {folder}/nginx.pid;
events {{ worker_connections 2048; }}
http {{
  access_log {log}; keepalive_requests 1000000; sendfile {sendfile}; tcp_nopush {sendfile}; open_file_cache max=1000; open_file_cache_valid 60s;
  default_type text/plain;
  client_body_temp_path {folder}/b; proxy_temp_path {folder}/p; fastcgi_temp_path {folder}/f; uwsgi_temp_path {folder}/u; scgi_temp_path {folder}/s;
  server {{ listen 127.0.0.1:{port} backlog=1024; root {site}; }}
}}
"""
LIGHTTPD = """
server.document-root = "{site}"
server.bind = "127.0.0.1"
server.port = {port}
server.max-keep-alive-requests = 1000000
server.max-connections = 2048
mimetype.assign = ( ".txt" => "text/plain" )
"""
H2O = """
user: root
num-threads: {workers}
max-connections: 2048
listen: {{ host: 127.0.0.1, port: {port} }}
error-log: {folder}/h2o.log
pid-file: {folder}/h2o.pid
hosts:
  default:
    paths:
      "/":
        file.dir: {site}
"""


def free_port():
    with socket.socket() as it:
        it.bind(("127.0.0.1", 0))
        return it.getsockname()[1]


def is_listening(port):
    """Whether a socket listens at the port, as the machine says: a look by a connection would be one of the server's."""
    wanted = f":{port:04X}"
    with open("/proc/net/tcp") as table:
        return any(line.split()[1].endswith(wanted) and line.split()[3] == "0A" for line in table.readlines()[1:])


def wait_for(port, child):
    for _ in range(1000):
        if is_listening(port):
            return True
        if child.poll() is not None:
            return False
        time.sleep(0.01)
    return False


def tree(pid):
    """The process and those that it started."""
    found = [pid]
    for task in os.listdir(f"/proc/{pid}/task"):
        with open(f"/proc/{pid}/task/{task}/children") as children:
            for child in children.read().split():
                found += tree(int(child))
    return found


def spent(pid):
    """Seconds on a processor of the process and those that it started, so far."""
    total = 0
    for one in tree(pid):
        for task in os.listdir(f"/proc/{one}/task"):
            with open(f"/proc/{one}/task/{task}/schedstat") as stat:
                total += int(stat.read().split()[0])
    return total / 1e9


class Order(NamedTuple):
    """What the client does, and how many connections stand idle meanwhile."""

    connections: int
    requests: int
    at_once: int
    in_flight: int
    idle: int = 0

    @property
    def all_requests(self):
        return self.connections * self.requests


class Run(NamedTuple):
    """What a run showed: the server's and the client's microseconds of a processor a request, requests a second, the median in microseconds."""

    server: float
    client: float
    rate: float
    median: int


def load(client, port, path, order):
    """Runs the client: its seconds on a processor, seconds by the clock, and the median of a request's time in microseconds."""
    before = os.times()
    words = [*client, str(port), path, *map(str, order[:4]), "2"]
    said = subprocess.run(words, capture_output=True, text=True).stdout.split()
    after = os.times()
    if len(said) != 6 or int(said[0]) != order.all_requests or int(said[1]) != 0:
        print(f"serve: {said} where {order.all_requests} responses were asked for", file=sys.stderr)
    return after.children_user + after.children_system - before.children_user - before.children_system, float(said[3]), int(said[4])


@contextlib.contextmanager
def idle(port, count):
    """So many connections that are made and ask for nothing."""
    with contextlib.ExitStack() as stack:
        for _ in range(count):
            stack.enter_context(socket.create_connection(("127.0.0.1", port)))
        time.sleep(0.5 if count else 0)
        yield


def ending(words, client, path, order, port):
    """A server that ends by itself after so many connections: seconds on a processor in all, and what the client showed."""
    child = subprocess.Popen(words, stdin=subprocess.DEVNULL, stdout=subprocess.DEVNULL, stderr=subprocess.DEVNULL)
    if not wait_for(port, child):
        sys.exit(f"serve: {words} doesn't listen")
    with idle(port, order.idle):
        seen = load(client, port, path, order)
    _, status, usage = os.wait4(child.pid, 0)
    child.returncode = status
    if status != 0:
        print(f"serve: {words} ended with {status}", file=sys.stderr)
    return usage.ru_utime + usage.ru_stime, seen


def shown(seconds, seen, order):
    """A run, by the server's seconds and what the client showed."""
    asked = order.all_requests
    return Run(seconds / asked * 1e6, seen[0] / asked * 1e6, asked / seen[1], seen[2])


def own(words_of, client, path, order):
    """A run of a server that ends by itself."""
    port = free_port()
    little, _ = ending(words_of(port, 1 + order.idle), client, path, Order(1, 1, 1, 1, order.idle), port)
    port = free_port()
    much, seen = ending(words_of(port, order.connections + order.idle), client, path, order, port)
    return shown(much - little, seen, order)


def other(words, client, port, path, order):
    """A run of a server that goes on until it is ended."""
    child = subprocess.Popen(words, stdin=subprocess.DEVNULL, stdout=subprocess.DEVNULL, stderr=subprocess.DEVNULL)
    try:
        if not wait_for(port, child):
            return None
        load(client, port, path, Order(4, 2, 4, 1))
        with idle(port, order.idle):
            before = spent(child.pid)
            seen = load(client, port, path, order)
            return shown(spent(child.pid) - before, seen, order)
    finally:
        child.send_signal(signal.SIGTERM)
        child.wait()


def calls(words_of, client, path, order):
    """Calls of futex a request, or None where strace isn't there."""
    if not shutil.which("strace"):
        return None
    port = free_port()
    words = ["strace", "-f", "-c", "-e", "trace=futex", *words_of(port, order.connections)]
    child = subprocess.Popen(words, stdin=subprocess.DEVNULL, stdout=subprocess.DEVNULL, stderr=subprocess.PIPE, text=True)
    if not wait_for(port, child):
        return None
    load(client, port, path, order)
    said = child.communicate()[1]
    found = [line.split() for line in said.splitlines() if line.endswith(" futex")]
    return int(found[0][3]) / order.all_requests if found else 0.0


def write(path, text):
    with open(path, "w") as file:
        file.write(text)
    return path


class Shape(NamedTuple):
    """How `sws` is run: workers, shards, and the steal cost."""

    workers: int
    shards: int
    cost: int

    @property
    def name(self):
        many = f"{self.workers} workers" if self.workers > 1 else "1 worker"
        return f"sws, {many}, {self.shards} shards, cost {self.cost}" if self.workers > 1 else f"sws, {many}"


def shapes(workers):
    """The advised shape and the default one of several workers, and the one of one."""
    for count in workers:
        if count > 1:
            yield Shape(count, 64, 9)
        yield Shape(count, count, 20)


def sws(program, pinned, site, shape):
    """The words of a run of `sws`, by port and connections."""
    fixed = ["--workers", str(shape.workers), "--shards", str(shape.shards), "--cost", str(shape.cost)]
    return lambda port, connections: [*pinned, program, "serve", site, "--port", str(port), "--connections", str(connections), *fixed]


def servers(folder, site, given, pinned, client, workers):
    """What is measured, by name: for each the forms that it is run in, functions that run it once."""
    def net(path, order):
        return own(lambda port, connections: [*pinned, MEASURE, "net", site, str(port), str(connections)], client, path, order)

    def swsd(count, words):
        def once(path, order):
            port = free_port()
            lanes = ["--lanes", str(2 * count + 2), "--accepting", str(count)]
            return other([*pinned, given.daemon, site, "--listen", f"127.0.0.1:{port}", *lanes, *words], client, port, path, order)
        return once

    def nginx(sendfile, count, log):
        def once(path, order):
            port = free_port()
            text = NGINX.format(workers=count, folder=folder, sendfile=sendfile, log=log, port=port, site=site)
            return other([*pinned, "nginx", "-p", folder, "-c", write(f"{folder}/nginx.conf", text)], client, port, path, order)
        return once

    def lighttpd(path, order):
        port = free_port()
        text = LIGHTTPD.format(port=port, site=site)
        return other([*pinned, "lighttpd", "-D", "-f", write(f"{folder}/lighttpd.conf", text)], client, port, path, order)

    def h2o(count):
        def once(path, order):
            port = free_port()
            text = H2O.format(workers=count, folder=folder, port=port, site=site)
            return other([*pinned, "h2o", "-c", write(f"{folder}/h2o.conf", text)], client, port, path, order)
        return once

    named = {}
    if os.access(MEASURE, os.X_OK):
        named["the same sockets without the runtime"] = [net]
    for shape in shapes(workers) if os.access(given.program, os.X_OK) else []:
        words = sws(given.program, pinned, site, shape)
        named[shape.name] = [lambda path, order, words=words: own(words, client, path, order)]
    for count in workers:
        if os.access(given.daemon, os.X_OK):
            named[f"swsd, {count} lanes at a time"] = [swsd(count, ["--quiet"])]
            if given.log:
                named[f"swsd, {count} lanes at a time, with the log"] = [swsd(count, ["--log"])]
        if shutil.which("nginx"):
            named[f"nginx, {count} workers"] = [nginx(sendfile, count, "off") for sendfile in ("on", "off")]
            if given.log:
                named[f"nginx, {count} workers, with the log"] = [nginx(it, count, f"{folder}/access.log") for it in ("on", "off")]
        if shutil.which("h2o"):
            named[f"h2o, {count} threads"] = [h2o(count)]
    if shutil.which("lighttpd"):
        named["lighttpd"] = [lighttpd]
    return named


def median_run(runs):
    """The run whose cost is the median one."""
    return sorted(runs, key=lambda run: run.server)[len(runs) // 2]


def measure(named, given, path, what, order):
    """Prints a row for each server: its cheaper form, by the median of its runs."""
    seen = {(name, form): [] for name in named if given.only in name for form in range(len(named[name]))}
    for _ in range(given.runs):
        for name, form in seen:
            once = named[name][form](path, order)
            if once is not None:
                seen[name, form].append(once)
    for name in dict.fromkeys(name for name, _ in seen):
        medians = [median_run(runs) for (of, _), runs in seen.items() if of == name and runs]
        if medians:
            run = min(medians, key=lambda run: run.server)
            print(f"| {path} | {what} | {name} | {run.server:.1f} | {run.rate:,.0f} | {run.client:.1f} | {run.median} |", flush=True)


def orders(given, size):
    """What the client does for a file of this size, by name."""
    fewer = 1 if size < 65536 else 8 if size < 1 << 20 else 64
    connections, requests = max(given.connections // fewer, 1), max(given.requests // max(fewer // 8, 1), 1)
    at_once = min(given.at_once, connections)
    for in_flight in map(int, given.in_flight.split(",")):
        yield f"{at_once} clients, {in_flight} under way", Order(connections, requests, at_once, in_flight)
    if size < 65536 and given.lone:
        # (a connection of `sws` has 64 answers at most)
        alone = Order(max(given.lone // 64, 1), 64, 1, 1)
        yield "a lone client", alone
        if given.idle:
            yield f"a lone client beside {given.idle} idle", alone._replace(idle=given.idle)


def main():
    words = argparse.ArgumentParser(description="Measures the server beside others.")
    words.add_argument("--runs", type=int, default=5)
    words.add_argument("--connections", type=int, default=1024)
    words.add_argument("--requests", type=int, default=64)
    words.add_argument("--at-once", type=int, default=64)
    words.add_argument("--in-flight", default="1,16")
    words.add_argument("--sizes", default="64,1024,65536,16777216")
    words.add_argument("--workers", default="1,2,4")
    words.add_argument("--server", default="")
    words.add_argument("--client", default="")
    words.add_argument("--only", default="")
    words.add_argument("--lone", type=int, default=4000)
    words.add_argument("--idle", type=int, default=900)
    words.add_argument("--log", action="store_true")
    words.add_argument("--program", default=SWS)
    words.add_argument("--daemon", default=SWSD)
    words.add_argument("--calls", action="store_true")
    given = words.parse_args()
    os.environ["PATH"] += ":/usr/sbin"
    if not any(os.access(program, os.X_OK) for program in (given.program, given.daemon)):
        sys.exit("serve: neither program is built")
    folder = tempfile.mkdtemp(prefix="sws-serve-")
    os.chmod(folder, 0o755)
    try:
        subprocess.run(["cc", "-O2", "-pthread", LOAD, "-o", f"{folder}/load"], check=True)
        pinned = ["taskset", "-c", given.server] if given.server else []
        client = [*(["taskset", "-c", given.client] if given.client else []), f"{folder}/load"]
        site = os.path.join(folder, "site")
        os.mkdir(site)
        sizes = [int(size) for size in given.sizes.split(",")]
        for size in sizes:
            write(os.path.join(site, f"f{size}.txt"), "x" * size)
        workers = [int(count) for count in given.workers.split(",")]
        named = servers(folder, site, given, pinned, client, workers)
        print("| file | clients | server | us a request | requests a second | client's us | median us |\n|---|---|---|---|---|---|---|")
        for size in sizes:
            for what, order in orders(given, size):
                measure(named, given, f"/f{size}.txt", what, order)
        for shape in shapes(workers) if given.calls else ():
            order = Order(given.connections // 8, given.requests, given.at_once, 1)
            counted = calls(sws(given.program, pinned, site, shape), client, f"/f{sizes[0]}.txt", order)
            print(f"{shape.name}: {counted:.3f} calls of futex a request")
    finally:
        shutil.rmtree(folder)


if __name__ == "__main__":
    main()
