#!/usr/bin/env python3
"""Refuses each request for memory of a run of the program in turn, and says how the runs ended.

    bench/memory.py [--most N] [--jobs N] [--program FILE] [--places]
    bench/memory.py [--most N] --tests FILE --under NAME TEST..

It wants the program built (`./sws`, or the one that is given) and a C compiler. Each command is run with its first request for
memory refused, then with its second, and so on until a run makes fewer requests than that (or N runs were made). Every run must
end with status 0 or 7, and what it writes must be a front of what it writes with ample memory. A run that doesn't end within 20
seconds is ended and told. Runs on threads make their requests in no fixed order, so two sweeps may differ. The server is asked on
this machine's loopback. So many jobs make runs at once, each with ports of its own.

With --places it says where the refused requests lay: in a post, a registration, a take, a steal, in which call of `Fleet::new`, or
in which function of the repository. `callers.py` says how the program must be built for this: in `crates/sws_main` by
`rt run --backend rattle --opt-level 0`.

With --tests each of these tests of a crate's built tests (`crates/NAME/out/NAME_tests`, by `rt test` with the same options) is swept
instead, and must pass wherever the request lay in a call of a function of this name, or of one of them where --under stands more
than once; what a test asks for elsewhere isn't judged.
"""
import argparse
import itertools
import os
import shutil
import socket
import subprocess
import sys
import tempfile
import threading
import time

from callers import Program

TOP = os.path.dirname(os.path.dirname(os.path.abspath(__file__)))
SWS = os.path.join(TOP, "crates", "sws_main", "out", "sws_main")
SITE = os.path.join(TOP, "crates", "sws_main", "data", "site")

HEAD = "GET / HTTP/1.1\r\nHost: localhost:8080\r\nUser-Agent: Mozilla/5.0\r\nAccept: text/html\r\n\r\n"
THREE = "sws-script 1\nconn\nsend GET / HTTP/1.1~Host: x~~\nconn\nsend GET /empty.css HTTP/1.1~Host: x~~\nconn\n"
SCHEDULED = "sws-schedule 1\nstep 0 6\nstep 1 12\nend\nsws-script 1\nconn\n"
LOGGED = SCHEDULED + "send GET / HTTP/1.1~Host: x~~\nconn\nsend GET /empty.css HTTP/1.1~Host: x~~\n"
ASKED = b"GET / HTTP/1.1\r\nHost: x\r\n\r\n"
SECONDS = 20
# Below the ports that this machine gives to clients; each job has a hundred of its own.
FIRST_PORT = 20_000

# The calls of a runtime that ask for memory while it runs, and where else requests are told apart.
CALLS = (
    ("Weave::post", "a post"),
    ("FleetOf::post", "a post"),
    ("Shard::register", "a registration in a turn"),
    ("Shard::take", "a take"),
    ("Shard::steal", "a steal"),
)
MAKERS = ("FleetOf::new", "Weave::new")
OURS = ("mely_", "sws_")


def is_listening(port):
    wanted = f":{port:04X}"
    with open("/proc/net/tcp") as table:
        return any(line.split()[1].endswith(wanted) and line.split()[3] == "0A" for line in table.readlines()[1:])


def free_port(job):
    ports = range(FIRST_PORT + 100 * job, FIRST_PORT + 100 * job + 100)
    return next(port for port in ports if not is_listening(port))


def ask(port):
    """Asks twice, each time on a connection of its own, as far as the server lets itself be asked.

    Where a thread was refused, the others begin to serve only once they have given up waiting for it, which takes seconds on a
    busy machine.
    """
    for _ in range(2):
        try:
            with socket.create_connection(("127.0.0.1", port), timeout=SECONDS) as it:
                it.sendall(ASKED)
                it.shutdown(socket.SHUT_WR)
                while it.recv(4096):
                    pass
        except ConnectionRefusedError:
            return
        except OSError:
            pass


def serve(words, environment, job):
    """Runs a server and asks it: its status and output."""
    port = free_port(job)
    child = subprocess.Popen(words + ["--port", str(port)], stdin=subprocess.DEVNULL, stdout=subprocess.PIPE, stderr=subprocess.DEVNULL, env=environment)
    until = time.monotonic() + SECONDS
    while not is_listening(port) and child.poll() is None and time.monotonic() < until:
        time.sleep(0.002)
    ask(port)
    try:
        written, _ = child.communicate(timeout=SECONDS)
    except subprocess.TimeoutExpired:
        child.kill()
        child.communicate()
        raise
    return child.returncode, written


def run(words, given, environment, job):
    if words[1] == "serve":
        return serve(words, environment, job)
    done = subprocess.run(words, input=given.encode(), stdout=subprocess.PIPE, stderr=subprocess.DEVNULL, env=environment, timeout=SECONDS)
    return done.returncode, done.stdout


def place_of(names):
    """Where a request lay, of the functions that were under way, the innermost one first."""
    for name, place in CALLS:
        if any(it.endswith(name) for it in names):
            return place
    for maker in MAKERS:
        for number, name in enumerate(names):
            if name.endswith(maker) and number > 0:
                return f"{maker}, {names[number - 1].split('::', 1)[-1]}"
    return next((name for name in names if name.startswith(OURS)), "elsewhere")


class Sweep:
    """The runs of one command or test: what was refused, how many runs ended with each status, and what went wrong."""

    def __init__(self, program, library, folder, is_placed):
        self.names = Program(program) if is_placed else None
        self.library, self.folder = library, folder
        self.refused, self.seen, self.places, self.wrong = 0, {}, {}, []
        self.lock = threading.Lock()

    def mark(self, job):
        return os.path.join(self.folder, f"mark-{job}")

    def environment(self, number, job):
        return dict(os.environ, LD_PRELOAD=self.library, REFUSE_AT=str(number), REFUSE_MARK=self.mark(job))

    def callers(self, job):
        """The functions that were under way at the refused request of a job's last run, or none where there was none."""
        mark = self.mark(job)
        if not os.path.exists(mark):
            return None
        with self.lock:
            names = self.names.callers(mark) if self.names else []
        os.remove(mark)
        return names

    def note(self, number, place, status, is_right):
        with self.lock:
            self.refused += 1
            self.seen[status] = self.seen.get(status, 0) + 1
            at = self.places.setdefault(place, {})
            at[status] = at.get(status, 0) + 1
            if not is_right:
                self.wrong.append((number, place, status))

    def show_places(self):
        print("\n| where the request lay | how the runs ended |\n|---|---|")
        for place, ends in sorted(self.places.items()):
            print(f"| {place} | {', '.join(f'{count} with {status}' for status, count in sorted(ends.items(), key=str))} |")
        print(flush=True)


def in_turn(refuse, given):
    """Refuses one request after another, up to the first that a run doesn't make."""
    numbers, is_over = itertools.count(1), threading.Event()

    def work(job):
        while not is_over.is_set():
            number = next(numbers)
            if number > given.most or not refuse(number, job):
                is_over.set()

    workers = [threading.Thread(target=work, args=(job,)) for job in range(given.jobs)]
    for worker in workers:
        worker.start()
    for worker in workers:
        worker.join()


def sweep(words, text, made, given):
    """Refuses one request of a command after another."""
    whole = run(words, text, dict(os.environ), 0)[1]

    def refuse(number, job):
        try:
            status, written = run(words, text, made.environment(number, job), job)
        except subprocess.TimeoutExpired:
            status, written = "no end", b""
        names = made.callers(job)
        if names is None:
            return False
        is_front = whole.startswith(written) or words[1] == "serve" and written == b""
        is_right = status in (0, 7) and is_front and (status != 0 or written == whole)
        made.note(number, place_of(names), status, is_right)
        return True

    in_turn(refuse, given)


def sweep_test(words, made, given):
    """Refuses one request of a test after another."""
    def refuse(number, job):
        try:
            status = run(words, "", made.environment(number, job), job)[0]
        except subprocess.TimeoutExpired:
            status = "no end"
        names = made.callers(job)
        if names is None:
            return False
        is_judged = any(name.endswith(tuple(given.under)) for name in names)
        made.note(number, place_of(names) if is_judged else "outside of it", status, status == 0 or not is_judged)
        return True

    in_turn(refuse, given)


def sweep_commands(program, library, folder, given):
    print("| command | requests refused | ended with 0 | ended with 7 | wrong |\n|---|---|---|---|---|")
    all_made = []
    for name, options, text in (
        ("answer", [SITE], HEAD),
        ("replay", [SITE, "--workers", "2"], THREE),
        ("replay", [SITE, "--workers", "2", "--cost", "5", "--schedule"], SCHEDULED),
        ("replay", [SITE, "--journal", "--log"], THREE),
        ("replay", [SITE, "--workers", "2", "--cost", "5", "--schedule", "--log"], LOGGED),
        ("bench", ["4", "1"], ""),
        ("serve", [SITE, "--connections", "2", "--workers", "2"], ""),
        ("serve", [SITE, "--connections", "2", "--log"], ""),
    ):
        made = Sweep(program, library, folder, given.places)
        sweep([program, name] + options, text, made, given)
        shown = " ".join([name] + [word.replace(SITE, "FOLDER") for word in options])
        all_made.append((shown, made))
        ends = f"{made.seen.get(0, 0)} | {made.seen.get(7, 0)}"
        print(f"| `{shown}` | {made.refused} | {ends} | {made.wrong[:5] if made.wrong else 'none'} |", flush=True)
    if given.places:
        for shown, made in all_made:
            print(f"\n`{shown}`:")
            made.show_places()


def sweep_tests(program, library, folder, given):
    for test in given.test:
        made = Sweep(program, library, folder, True)
        sweep_test([program, test], made, given)
        print(f"\n`{test}`: {made.refused} requests refused, wrong: {made.wrong[:5] if made.wrong else 'none'}")
        made.show_places()


def main():
    words = argparse.ArgumentParser(description="Refuses each request for memory in turn.")
    words.add_argument("--most", type=int, default=20_000)
    words.add_argument("--jobs", type=int, default=1)
    words.add_argument("--program", default=SWS)
    words.add_argument("--places", action="store_true")
    words.add_argument("--tests")
    words.add_argument("--under", action="append", default=[])
    words.add_argument("test", nargs="*")
    given = words.parse_args()
    program = os.path.abspath(given.tests or given.program)
    if not os.access(program, os.X_OK):
        sys.exit("memory: the program isn't built")
    folder = tempfile.mkdtemp(prefix="sws-memory-")
    try:
        library = os.path.join(folder, "refuse.so")
        source = os.path.join(TOP, "bench", "refuse.c")
        subprocess.run(["cc", "-O2", "-fno-omit-frame-pointer", "-shared", "-fPIC", "-o", library, source], check=True)
        (sweep_tests if given.tests else sweep_commands)(program, library, folder, given)
    finally:
        shutil.rmtree(folder)


if __name__ == "__main__":
    main()
