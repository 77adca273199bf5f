#!/usr/bin/env python3
"""Uses `swsd` as its users would, over many generations on this machine's loopback, and says a line a case: what was seen, and whether it is
what is owed.

    bench/staying.py [--only WORD] [--requests N] [--program PATH]

It wants the program built (`./swsd --version`), curl and ab; what isn't there is left out. Each server is stopped by its stop file and has to
end with 0; the whole takes about a minute. The status is 1 where a case went otherwise.
"""
import argparse
import contextlib
import os
import re
import shutil
import socket
import subprocess
import sys
import tempfile
import time

TOP = os.path.dirname(os.path.dirname(os.path.abspath(__file__)))
SWSD = os.path.join(TOP, "crates", "swsd", "out", "swsd")
HEAD = b"GET /a.txt HTTP/1.1\r\nHost: x\r\nConnection: close\r\n\r\n"
LARGE = 32 << 20


class Server:
    """A server of the folder, at a port of the machine's choice where none is given, with these words before the program's; used as a context, it is stopped
    behind it."""

    def __init__(self, folder, *words, address="127.0.0.1", port=0, preexec=None, program=None, output=None, before=()):
        self.room = tempfile.mkdtemp(prefix="swsd-")
        os.chmod(self.room, 0o755)  # a server that runs as somebody else looks for the stop file there too
        self.stop_file = os.path.join(self.room, "stop")
        words = [*before, program or SWSD, folder, "--listen", f"{address}:{port}", "--stop-file", self.stop_file, *words]
        self.said = open(os.path.join(self.room, "said"), "w+")
        self.output = output
        out = open(output, "wb") if output else subprocess.PIPE
        self.child = subprocess.Popen(words, stdin=subprocess.DEVNULL, stdout=out, stderr=self.said, text=True, preexec_fn=preexec)
        if output:
            out.close()
        self.port = None
        until = time.monotonic() + 30
        while self.port is None and self.child.poll() is None and time.monotonic() < until:
            found = re.search(r"listening at .*:(\d+):", self.lines())
            self.port = int(found[1]) if found else None
            time.sleep(0.01)

    def lines(self):
        with open(self.said.name) as said:
            return said.read()

    def __enter__(self):
        return self

    def __exit__(self, *_):
        if self.child.poll() is None:
            self.child.kill()
        self.child.communicate()
        self.said.close()
        shutil.rmtree(self.room)

    def connect(self):
        it = socket.create_connection(("127.0.0.1", self.port), timeout=60)
        it.setsockopt(socket.IPPROTO_TCP, socket.TCP_NODELAY, 1)
        return it

    def ask(self, given=HEAD):
        with self.connect() as it:
            it.sendall(given)
            got = b""
            while piece := it.recv(1 << 16):
                got += piece
        return got

    def resident(self):
        with open(f"/proc/{self.child.pid}/status") as status:
            return int(re.search(r"VmRSS:\s*(\d+)", status.read())[1])

    def generations(self):
        return self.lines().count("] generation ")

    def log(self):
        """The lines of an output that is a file."""
        if not os.path.isfile(self.output):
            return []
        with open(self.output, encoding="latin-1", newline="\n") as output:
            return output.read().split("\n")[:-1]

    def stop(self):
        open(self.stop_file, "w").close()

    def end(self, seconds=60):
        """Stops it: the status, and the totals by name."""
        self.stop()
        out, _ = self.child.communicate(timeout=seconds)
        if self.output:
            out = "\n".join(self.log()[-2:])
        words = out.split()
        return self.child.returncode, {name: int(number) for name, number in zip(words[::2], words[1::2])}


def put(folder, name, text):
    """Puts a file in place at once."""
    made = os.path.join(os.path.dirname(folder), f"made-{name}")
    with open(made, "wb") as file:
        file.write(text)
    os.rename(made, os.path.join(folder, name))


@contextlib.contextmanager
def site():
    with tempfile.TemporaryDirectory(prefix="swsd-site-") as top:
        folder = os.path.join(top, "site")
        os.makedirs(folder)
        put(folder, "a.txt", b"0123456789")
        put(folder, "b.txt", b"b")
        yield folder


def many_requests(count):
    """Requests across generations, while the folder is changed twice."""
    with site() as folder, Server(folder, "--connections", "50", "--age", "1") as server:
        # a request a connection, so that generations change all the time
        words = ["ab", "-q", "-n", str(count), "-c", "32", f"http://127.0.0.1:{server.port}/a.txt"]
        child = subprocess.Popen(words, stdout=subprocess.PIPE, stderr=subprocess.STDOUT, text=True)
        for number in range(2):
            time.sleep(1.5)
            put(folder, "b.txt", b"b" * (number + 2))
        said = child.communicate(timeout=600)[0]
        seen = server.ask(HEAD.replace(b"a.txt", b"b.txt"))
        until = time.monotonic() + 5
        while not seen.endswith(b"\r\n\r\nbbb") and time.monotonic() < until:
            time.sleep(0.1)
            seen = server.ask(HEAD.replace(b"a.txt", b"b.txt"))
        status, told = server.end()
        loads = server.lines().count("was loaded anew")
    failed = re.search(r"Failed requests:\s*(\d+)", said)
    done = re.search(r"Complete requests:\s*(\d+)", said)
    is_right = bool(failed and done) and int(failed[1]) == 0 and int(done[1]) == count and seen.endswith(b"bbb") and status == 0
    yield is_right, f"{done and done[1]} of {count} requests by ab, {failed and failed[1]} failed, over {told.get('generations')} generations and {loads} loads of a changed folder ({told})"


def kept_alive(count):
    """Connections that stay, by wrk."""
    with site() as folder, Server(folder, "--connections", "200", "--age", "1") as server:
        said = subprocess.run(["wrk", "-t2", "-c64", "-d5", f"http://127.0.0.1:{server.port}/a.txt"], capture_output=True, text=True).stdout
        status, told = server.end()
    done = re.search(r"(\d+) requests in", said)
    errors = "Socket errors" in said or "Non-2xx" in said
    yield bool(done) and not errors and status == 0, f"{done and done[1]} requests by wrk, {'some failed' if errors else 'none failed'}, over {told.get('generations')} generations ({told})"


def memory(_):
    with site() as folder, Server(folder, "--connections", "2", "--lanes", "4") as server:
        sizes = []
        for count in (20, 200, 2_000, 4_000):
            while count > 0:
                server.ask()
                count -= 1
            sizes.append(server.resident())
        status, told = server.end()
    yield status == 0 and sizes[-1] < sizes[0] + 8_192, f"resident after some 10, 110, 1,110 and 3,110 generations of two connections: {sizes} kB ({told})"


def slow_clients(_):
    """A client for each lane that says nothing: others are answered at once, and it is cut after the grace."""
    with site() as folder, Server(folder, "--lanes", "3", "--accepting", "1", "--age", "1", "--grace", "2") as server:
        silent = []
        slowest = 0.0
        began = time.monotonic()
        while time.monotonic() - began < 12:
            if len(silent) < 6:
                silent.append(server.connect())
            asked = time.monotonic()
            got = server.ask()
            slowest = max(slowest, time.monotonic() - asked)
            if not got.endswith(b"0123456789"):
                yield False, f"a client got {got!r}"
            time.sleep(0.3)
        for it in silent:
            it.close()
        status, told = server.end()
    yield status == 0 and slowest < 4, f"six silent clients over three lanes: the slowest of the others waited {slowest:.2f} s ({told})"


def stop_within_a_download(_):
    with site() as folder:
        put(folder, "large.bin", bytes(1 << 16) * (LARGE >> 16))
        with Server(folder, "--grace", "20") as server, server.connect() as it:
            it.sendall(HEAD.replace(b"a.txt", b"large.bin"))
            got = len(it.recv(1 << 16))
            server.stop()
            time.sleep(1)
            is_refused = False
            try:
                socket.create_connection(("127.0.0.1", server.port), timeout=2).close()
            except ConnectionRefusedError:
                is_refused = True
            while piece := it.recv(1 << 16):
                got += len(piece)
            status, told = server.end()
    yield status == 0 and got > LARGE and is_refused, f"told to stop within a download of 32 MB: the client got {got} bytes, another was {'refused' if is_refused else 'not refused'} ({told})"


def ports(_):
    with site() as folder, Server(folder) as server:
        taken = subprocess.run([SWSD, folder, "--listen", f"127.0.0.1:{server.port}"], capture_output=True, text=True, timeout=20)
        status, _ = server.end()
    yield taken.returncode == 6 and status == 0, f"a port that is taken: status {taken.returncode}, {taken.stderr.strip()!r}"
    with open("/proc/sys/net/ipv4/ip_unprivileged_port_start") as first:
        least = int(first.read())
    if os.geteuid() == 0 and least > 79:
        with site() as folder:
            program = os.path.join(os.path.dirname(folder), "swsd")
            shutil.copy(SWSD, program)
            for path, mode in ((os.path.dirname(folder), 0o755), (folder, 0o755), (program, 0o755)):
                os.chmod(path, mode)
            done = subprocess.run([program, folder, "--listen", "127.0.0.1:79"], capture_output=True, text=True, timeout=20, preexec_fn=lambda: os.setuid(65_534))
        yield done.returncode == 6, f"no right to the port: status {done.returncode}, {done.stderr.strip()!r}"


def sixth_version(_):
    with site() as folder, Server(folder, address="[::]") as server:
        got = [subprocess.run(["curl", "-s", "-m", "10", *words], capture_output=True).stdout for words in (["-6", f"http://[::1]:{server.port}/a.txt"], ["-4", f"http://127.0.0.1:{server.port}/a.txt"])]
        status, _ = server.end()
    yield got == [b"0123456789"] * 2 and status == 0, f"curl by IPv6 and by IPv4 at [::]: {got}"


CASES = [ports, sixth_version, stop_within_a_download, slow_clients, memory, kept_alive, many_requests]


def main():
    global SWSD
    words = argparse.ArgumentParser(description="Uses the server that stays up, over many generations.")
    words.add_argument("--only", default="")
    words.add_argument("--requests", type=int, default=200_000)
    words.add_argument("--program", default=SWSD)
    given = words.parse_args()
    SWSD = given.program
    if not os.access(SWSD, os.X_OK):
        sys.exit("staying: the program isn't built")
    needs = {many_requests: "ab", kept_alive: "wrk", sixth_version: "curl"}
    all_well = True
    for case in CASES:
        if given.only in case.__name__ and (case not in needs or shutil.which(needs[case])):
            for is_right, seen in case(given.requests):
                all_well &= is_right
                print(f"{'well' if is_right else 'WRONG'}: {case.__name__}: {seen}", flush=True)
    sys.exit(0 if all_well else 1)


if __name__ == "__main__":
    main()
