#!/usr/bin/env python3
"""Uses `sws serve` as badly as it can on this machine's loopback, and says a line a case: what was seen, and whether it is what is owed.

    bench/hostile.py [--only WORD] [--quick] [--program PATH]

It wants the program built (`./sws`). With `--quick`, as the gate calls it, only the cases of a second or two: what the machine refuses
(descriptors, a reset before it is accepted, kinds of files that change), half-closed clients and names that climb; and where `swsd` is built,
the quick ones of `bench/edge.py` behind them. What a connection is owed is what `sws answer` writes for the same bytes, or a front of it where the
client or the server ends it early. Each case has servers of its own, which end by themselves or are ended; the whole takes some minutes,
most of them waiting for connections that are given up after half a minute. The status is 1 where a case went otherwise.
"""
import argparse
import concurrent.futures
import contextlib
import os
import re
import resource
import select
import shutil
import signal
import socket
import struct
import subprocess
import sys
import tempfile
import threading
import time

import edge

TOP = os.path.dirname(os.path.dirname(os.path.abspath(__file__)))
SWS = os.path.join(TOP, "crates", "sws_main", "out", "sws_main")
SWSD = os.path.join(TOP, "crates", "swsd", "out", "swsd")
HEAD = b"GET /a.txt HTTP/1.1\r\nHost: x\r\n\r\n"
LARGE = 32 << 20
MOST = 1024
PORTS = iter(range(21_000, 22_000))
RESET = struct.pack("ii", 1, 0)


def request(target, *fields):
    return b"\r\n".join([b"GET " + target + b" HTTP/1.1", b"Host: x", *fields, b"", b""])


def is_listening(port):
    wanted = f":{port:04X}"
    with open("/proc/net/tcp") as table:
        return any(line.split()[1].endswith(wanted) and line.split()[3] == "0A" for line in table.readlines()[1:])


class Server:
    """A server of some connections; used as a context, it is ended behind it, if it hasn't ended by itself."""

    def __init__(self, folder, connections, *options, files=None):
        self.port = next(port for port in PORTS if not is_listening(port))
        words = [SWS, "serve", folder, "--port", str(self.port), "--connections", str(connections), *options]
        limit = (lambda: resource.setrlimit(resource.RLIMIT_NOFILE, (files, files))) if files else None
        self.child = subprocess.Popen(words, stdin=subprocess.DEVNULL, stdout=subprocess.PIPE, stderr=subprocess.PIPE, text=True, preexec_fn=limit)
        until = time.monotonic() + 60
        while not is_listening(self.port) and self.child.poll() is None and time.monotonic() < until:
            time.sleep(0.01)

    def __enter__(self):
        return self

    def __exit__(self, *_):
        if self.child.poll() is None:
            self.child.kill()
        self.child.communicate()

    def connect(self, room=None):
        it = socket.socket()
        if room:
            it.setsockopt(socket.SOL_SOCKET, socket.SO_RCVBUF, room)
        it.settimeout(60)
        it.connect(("127.0.0.1", self.port))
        it.setsockopt(socket.IPPROTO_TCP, socket.TCP_NODELAY, 1)
        return it

    def end(self, seconds=60):
        """Waits for the end: the status, and the summary's words as numbers by name."""
        try:
            said, complaint = self.child.communicate(timeout=seconds)
        except subprocess.TimeoutExpired:
            return "no end", {}
        words = said.split()
        told = {name: int(number) for name, number in zip(words[::2], words[1::2])}
        complaint = [line for line in complaint.splitlines() if not line.startswith("sws: serving")]
        return (self.child.returncode if not complaint else complaint), told

    def seconds_used(self):
        with open(f"/proc/{self.child.pid}/stat") as stat:
            fields = stat.read().rsplit(")", 1)[1].split()
        return (int(fields[11]) + int(fields[12])) / os.sysconf("SC_CLK_TCK")


def answer(folder, given):
    return subprocess.run([SWS, "answer", folder], input=given, stdout=subprocess.PIPE, check=True).stdout


def read_all(it):
    """What comes until the peer ends, and whether that was by a reset."""
    got = b""
    try:
        while piece := it.recv(1 << 16):
            got += piece
    except ConnectionResetError:
        return got, True
    return got, False


def talk(server, given, half_close=True):
    """Sends it all, and reads to the end: what came, and whether the connection was reset."""
    with server.connect() as it:
        try:
            it.sendall(given)
            if half_close:
                it.shutdown(socket.SHUT_WR)
        except OSError:
            pass
        return read_all(it)


def compare(folder, inputs, *options, half_close=True):
    """Each input on a connection of its own: how many got what is owed, how many a front of it and a reset, and all others."""
    whole, fronts, others = 0, 0, []
    with Server(folder, len(inputs), *options) as server:
        for given in inputs:
            got, was_reset = talk(server, given, half_close)
            owed = answer(folder, given)
            if got == owed:
                whole += 1
            elif was_reset and owed.startswith(got):
                fronts += 1
            else:
                others.append((given[:60], len(given), got[:80], owed[:80]))
        status, told = server.end()
    return whole, fronts, others, status, told


def ask(server, given=HEAD):
    """Asks once: the first bytes of the response, and how long they took."""
    began = time.monotonic()
    with server.connect() as it:
        it.sendall(given)
        it.shutdown(socket.SHUT_WR)
        got, _ = read_all(it)
    return got, time.monotonic() - began


@contextlib.contextmanager
def large_site(site):
    """The site with a large file beside."""
    with tempfile.TemporaryDirectory(prefix="sws-hostile-") as folder:
        shutil.copy(os.path.join(site, "a.txt"), folder)
        with open(os.path.join(folder, "large.bin"), "wb") as file:
            file.write(os.urandom(1 << 16) * (LARGE >> 16))
        yield folder


def slow_heads(site):
    for options in ((), ("--workers", "4", "--shards", "4")):
        with Server(site, MOST, *options) as server:
            began = time.monotonic()
            clients = [server.connect() for _ in range(MOST)]
            for at in range(len(HEAD)):
                for client in clients:
                    client.sendall(HEAD[at:at + 1])
            for client in clients:
                client.shutdown(socket.SHUT_WR)
            got = [read_all(client)[0] for client in clients]
            took = time.monotonic() - began
            for client in clients:
                client.close()
            status, told = server.end()
        owed = answer(site, HEAD)
        right = sum(one == owed for one in got)
        yield right == MOST and status == 0, f"{right} of {MOST} clients at once were answered, a byte of the head at a time, in {took:.1f} s ({told}, {options})"


def header_bombs(site):
    line = b"GET / HTTP/1.1\r\nHost: x\r\n"
    inputs = [
        line + b"a: b\r\n" * 63 + b"\r\n",
        line + b"a: b\r\n" * 64 + b"\r\n",
        line + b"a: b\r\n" * 20_000 + b"\r\n",
        line + b"X: " + b"a" * 8_000 + b"\r\n\r\n",
        line + b"X: " + b"a" * 9_000 + b"\r\n\r\n",
        line + b"X: " + b"a" * 1_000_000 + b"\r\n\r\n",
        b"a" * 1_000_000,
        b"\n" * 65_536,
        b"\r\n" * 65_536,
        b"GET /" + b"%" * 5_000 + b" HTTP/1.1\r\nHost: x\r\n\r\n",
        b"G" * 8_191,
        b"G" * 8_192,
        line + b"X: a\0b\r\n\r\n",
        bytes(range(256)) * 64,
        line + b"Connection: " + b"," * 7_000 + b"close\r\n\r\n",
        line + b"Range: bytes=" + b"0" * 7_000 + b"-\r\n\r\n",
    ]
    for half_close in (True, False):
        # Where nothing ends the connection and the client doesn't either, it is given up after half a minute.
        given = [one for one in inputs if half_close or b"Connection: close" in answer(site, one)]
        whole, fronts, others, status, told = compare(site, given, half_close=half_close)
        yield not others and status == 0, f"{whole} of {len(given)} answered as owed, {fronts} reset within the response, others {others} ({told})"


def pipelined(site):
    inputs = [HEAD * count for count in (1, 63, 64, 65, 100, 1_000, 20_000)]
    whole, fronts, others, status, told = compare(site, inputs)
    yield not others and status == 0, f"{whole} of {len(inputs)} pipelines of 1 to 20,000 heads answered as owed, {fronts} reset within, others {others} ({told})"


def input_limit(site):
    padded = lambda length: b"GET /a.txt HTTP/1.1\r\nHost: x\r\nX: " + b"a" * (length - 37) + b"\r\n\r\n"
    inputs = [padded(2_048) * 32, padded(2_048) * 33, padded(2_048) * 31 + padded(2_047) + HEAD, padded(2_048) * 31 + padded(2_049), padded(8_192) * 9, padded(2_048) * 500]
    assert len(inputs[0]) == 65_536
    whole, fronts, others, status, told = compare(site, inputs)
    yield not others and status == 0, f"{whole} of {len(inputs)} inputs about the 65,536th byte answered as owed, {fronts} reset within, others {others} ({told})"


def half_closed(site):
    inputs = [b"", b"G", HEAD[:-2], HEAD[:-1], HEAD, HEAD + b"GET", HEAD + HEAD[:-1], b"\r\n\r\n"]
    whole, fronts, others, status, told = compare(site, inputs)
    yield not others and status == 0, f"{whole} of {len(inputs)} inputs that end anywhere answered as owed, others {others} ({told})"
    with Server(site, 500) as server:
        for _ in range(500):
            server.connect().close()
        status, told = server.end()
    yield status == 0 and told["done"] == 500, f"500 clients that only connect and close: {told}"


def resets(site):
    with large_site(site) as large, Server(large, 301, "--workers", "2", "--shards", "2") as server:
        for number in range(300):
            with server.connect() as it:
                it.sendall(request(b"/large.bin"))
                if number % 3:
                    it.recv(1_000)
                it.setsockopt(socket.SOL_SOCKET, socket.SO_LINGER, RESET)
        got, took = ask(server)
        status, told = server.end()
    is_right = got == answer(site, HEAD) and status == 0 and told["fault"] + told["done"] == 301
    yield is_right, f"300 clients that reset in the middle of a body of 32 MB: {told}; then another was answered in {took:.2f} s"


def curl(server, target, to):
    words = ["curl", "-s", "-S", "-m", "120", "-o", to, f"http://127.0.0.1:{server.port}{target}"]
    return subprocess.Popen(words, stderr=subprocess.PIPE, text=True)


def stopped_client(site):
    with large_site(site) as large, Server(large, 100) as server, tempfile.TemporaryDirectory() as folder:
        paths = [os.path.join(folder, name) for name in ("long", "short")]
        clients = [curl(server, "/large.bin", path) for path in paths]
        until = time.monotonic() + 20
        while time.monotonic() < until and not all(os.path.exists(path) for path in paths):
            time.sleep(0.001)
        for client in clients:
            client.send_signal(signal.SIGSTOP)
        began = time.monotonic()
        slowest, asked = 0.0, 0
        while time.monotonic() - began < 38:
            slowest, asked = max(slowest, ask(server)[1]), asked + 1
            if clients[1].poll() is None and time.monotonic() - began > 10:
                clients[1].send_signal(signal.SIGCONT)
            time.sleep(1)
        clients[0].send_signal(signal.SIGCONT)
        said = [client.communicate(timeout=60)[1].strip() for client in clients]
        sizes = [os.path.getsize(path) for path in paths]
        for _ in range(98 - asked):
            ask(server)
        status, told = server.end()
    is_right = status == 0 and sizes[1] == LARGE and slowest < 5
    yield is_right, f"a client that was stopped for 38 s got {sizes[0]} of {LARGE} bytes (`{said[0]}`), one for 10 s {sizes[1]}; {asked} others meanwhile, the slowest in {slowest:.2f} s ({told})"


def silent_clients(site):
    for options in ((), ("--workers", "4", "--shards", "4")):
        with Server(site, 200, *options) as server:
            clients = [server.connect() for _ in range(100)]
            for number, client in enumerate(clients):
                client.sendall(HEAD[:number % 10])
            began, used = time.monotonic(), server.seconds_used()
            ends = []
            for client in clients:
                got, _ = read_all(client)
                ends.append(time.monotonic() - began)
                client.close()
                if got:
                    yield False, f"a silent client was sent {got!r}"
            used = server.seconds_used() - used
            for _ in range(100):
                ask(server)
            status, told = server.end()
        is_right = status == 0 and told["idle"] == 100 and 28 < min(ends) and max(ends) < 36
        yield is_right, f"100 clients that say nothing more were given up after {min(ends):.1f} to {max(ends):.1f} s, for which the server used {used:.2f} s of a processor ({told}, {options})"


def dripping_client(site):
    """One byte each ten seconds keeps a connection: a sign of life is one."""
    with Server(site, 1) as server, server.connect() as it:
        began = time.monotonic()
        for at in range(5):
            it.sendall(HEAD[at:at + 1])
            time.sleep(10)
        it.sendall(HEAD[5:])
        it.shutdown(socket.SHUT_WR)
        got, _ = read_all(it)
        status, told = server.end()
    yield got == answer(site, HEAD) and status == 0, f"a client that sends a byte each 10 s was answered after {time.monotonic() - began:.0f} s ({told})"


def takes_nothing(site):
    """Clients that ask for much and read nothing, so that the server stops anywhere within a response: how long others wait meanwhile, and
    when these are given up."""
    count, most = 150, 400
    with large_site(site) as large:
        for options in ((), ("--workers", "4", "--shards", "4")):
            with Server(large, count + most, *options) as server:
                clients = [server.connect(room=1) for _ in range(count)]
                for number, client in enumerate(clients):
                    client.sendall(request(b"/large.bin", b"Range: bytes=0-%d" % (30_000 + 263 * number)) * 64)
                began = time.monotonic()
                slowest, at, asked = 0.0, 0.0, 0
                while time.monotonic() - began < 50 and asked < most:
                    took = ask(server)[1]
                    asked += 1
                    if took > slowest:
                        slowest, at = took, time.monotonic() - began
                    time.sleep(0.1)
                for client in clients:
                    client.close()
                for _ in range(most - asked):
                    ask(server)
                status, told = server.end()
            is_right = status == 0 and slowest < 10
            yield is_right, f"{count} clients that ask for 64 ranges and take nothing: the slowest of {asked} others waited {slowest:.2f} s, {at:.0f} s after ({told}, {options})"


def targets(site):
    named = [
        b"/..%2f..%2fetc/passwd", b"/../../../../etc/passwd", b"/%2e%2e/%2e%2e/etc/passwd", b"/..", b"/../", b"//", b"///", b"//etc/passwd", b"/etc/passwd",
        b"/%00", b"/a.txt%00", b"/a.txt%00.html", b"/%", b"/%%", b"/%4", b"/%zz", b"/%61.txt", b"/a%2etxt", b"/a.txt/", b"/a.txt/..", b"/./a.txt", b"/a.txt?x", b"/a.txt#x",
        b"http://x/a.txt", b"HTTP://evil@x:80/a.txt", b"http://", b"http:///etc/passwd", b"file:///etc/passwd", b"*", b"a.txt", b"\\a.txt", b"/\\..\\a.txt",
        b"/%c0%ae%c0%ae/etc/passwd", b"/%ff", "/\u00fc".encode(), b"/\xff", b"/" + b"a/" * 3_000, b"/" + b"../" * 2_000 + b"etc/passwd", b"/link.txt", b"/linked/b.txt", b"/pipe", b"/.hidden",
        b"/outside/passwd", b"/sub/", b"/sub", b"/sub//", b"/sub/index.html",
    ]
    inputs = [request(target, b"Connection: close") for target in named]
    whole, fronts, others, status, told = compare(site, inputs)
    leaked = [target for target, given in zip(named, inputs) if b"root:" in answer(site, given)]
    served = [target.decode() for target, given in zip(named, inputs) if answer(site, given).startswith(b"HTTP/1.1 200")]
    yield not others and not leaked and status == 0, f"{whole} of {len(inputs)} targets answered as owed; served were {served}; others {others} ({told})"


def changing_folder(_):
    """A folder in which files come, go and change while it is loaded: all of it or a fault."""
    folder = tempfile.mkdtemp(prefix="sws-changing-")
    is_over = threading.Event()

    def write(name, text):
        with open(os.path.join(folder, name), "w") as file:
            file.write(text)

    def change():
        number = 0
        while not is_over.is_set():
            number += 1
            name = os.path.join(folder, f"f{number % 400}")
            with contextlib.suppress(OSError):
                if number % 4 == 0:
                    os.remove(name)
                elif number % 4 == 1:
                    write(f"f{number % 400}", "y" * (number % 5_000))
                elif number % 4 == 2:
                    os.rename(name, name + ".new")
                    os.rename(name + ".new", name)
                else:
                    shutil.rmtree(os.path.join(folder, "d"), ignore_errors=True)
                    os.makedirs(os.path.join(folder, "d", "e"))
                    write("d/e/f", "x")

    try:
        for number in range(400):
            write(f"f{number}", "x" * number)
        write("a.txt", "0123456789")
        changer = threading.Thread(target=change)
        changer.start()
        seen = {}
        owed = b"HTTP/1.1 200 OK\r\nServer: sws\r\nContent-Type: text/plain\r\nContent-Length: 10\r\n\r\n0123456789"
        try:
            for _ in range(300):
                done = subprocess.run([SWS, "answer", folder], input=HEAD, stdout=subprocess.PIPE, stderr=subprocess.PIPE, timeout=60)
                kind = (done.returncode, done.stderr.decode().strip(), "as owed" if done.stdout == owed else f"{len(done.stdout)} bytes")
                seen[kind] = seen.get(kind, 0) + 1
        finally:
            is_over.set()
            changer.join()
        allowed = {(0, "", "as owed"), (4, "sws: reading failed", "0 bytes")}
        yield set(seen) <= allowed, f"300 loads of a folder that changes: {seen}"
    finally:
        shutil.rmtree(folder)


def few_descriptors(site):
    yield from with_few_descriptors(site, 40, 100)


def descriptors_for_all_but_a_few(site):
    yield from with_few_descriptors(site, 1_024, MOST)


def with_few_descriptors(site, files, count):
    with Server(site, count, files=files) as server:
        clients = [server.connect() for _ in range(count)]
        time.sleep(0.3)
        for client in clients:
            client.sendall(HEAD)
            client.shutdown(socket.SHUT_WR)
        got = []
        for client in clients:
            got.append(read_all(client)[0])
            client.close()
        status, told = server.end()
    right = got.count(answer(site, HEAD))
    yield right == count and status == 0, f"{count} clients at once of a server that may open {files} files: {right} answered, status {status} ({told})"


def reset_before_it_is_accepted(site):
    """Clients that come while the server is stopped, and reset before it can accept them; one that stays is answered."""
    count = 20
    with Server(site, count + 1) as server:
        server.child.send_signal(signal.SIGSTOP)
        for number in range(count):
            with server.connect() as it:
                if number % 2:
                    it.sendall(HEAD)
                it.setsockopt(socket.SOL_SOCKET, socket.SO_LINGER, RESET)
        with server.connect() as it:
            it.sendall(HEAD)
            server.child.send_signal(signal.SIGCONT)
            it.shutdown(socket.SHUT_WR)
            got, _ = read_all(it)
        # A machine may count a client that is gone as none at all: then others come in its place.
        while server.child.poll() is None and not wait_for_end(server):
            ask(server)
        status, told = server.end()
    is_right = got == answer(site, HEAD) and status == 0 and sum(told[end] for end in ("done", "idle", "fault")) == count + 1
    yield is_right, f"{count} clients that reset before they were accepted, and one that stayed and was answered: {told}"


def wait_for_end(server, seconds=0.5):
    with contextlib.suppress(subprocess.TimeoutExpired):
        server.child.wait(seconds)
        return True
    return False


def more_than_are_served(site):
    with Server(site, MOST, "--workers", "2", "--shards", "2") as server:
        clients, refused = [], 0
        for _ in range(2_000):
            it = socket.socket()
            it.setblocking(False)
            it.connect_ex(("127.0.0.1", server.port))
            clients.append(it)
        answered, cut = 0, 0
        for client in clients:
            client.settimeout(10)
            try:
                client.sendall(HEAD)
                client.shutdown(socket.SHUT_WR)
                answered, cut = (answered + 1, cut) if read_all(client)[0] == answer_of_head else (answered, cut + 1)
            except OSError:
                refused += 1
            client.close()
        status, told = server.end()
    yield status == 0 and answered == MOST, f"2,000 clients of a server of {MOST} connections: {answered} answered, {refused + cut} not ({told})"


def kinds_that_change(_):
    """Names that are a file, a link out of the folder or a folder by turns while they are loaded: all of it or a fault, and nothing from outside."""
    with tempfile.TemporaryDirectory(prefix="sws-kinds-") as top:
        folder, outside = os.path.join(top, "site"), os.path.join(top, "outside")
        os.makedirs(folder)
        os.makedirs(outside)
        for path in (os.path.join(outside, "secret"), os.path.join(outside, "f0")):
            with open(path, "w") as file:
                file.write("SECRET")
        is_over = threading.Event()

        def put(name, number):
            path, made = os.path.join(folder, name), os.path.join(top, f"made-{name}")
            if number % 3 == 0:
                with open(made, "w") as file:
                    file.write("text")
            elif number % 3 == 1:
                os.symlink(os.path.join(outside, "secret"), made)
            else:
                os.makedirs(made)
            if os.path.isdir(path) and not os.path.islink(path):
                os.rmdir(path)
            elif number % 3 == 2:
                os.remove(path)
            os.rename(made, path)

        def change():
            number = 0
            while not is_over.is_set():
                number += 1
                put(f"f{number % 7}", number // 7)

        for number in range(7):
            put(f"f{number}", 0)
        changer = threading.Thread(target=change)
        changer.start()
        seen = {}
        heads = b"".join(request(b"/f%d" % number) for number in range(7))
        try:
            for _ in range(200):
                done = subprocess.run([SWS, "answer", folder], input=heads, stdout=subprocess.PIPE, stderr=subprocess.PIPE, timeout=60)
                said = "a secret" if b"SECRET" in done.stdout else "none"
                kind = (done.returncode, done.stderr.decode().strip(), said)
                seen[kind] = seen.get(kind, 0) + 1
        finally:
            is_over.set()
            changer.join()
        yield set(seen) <= {(0, "", "none"), (4, "sws: reading failed", "none")}, f"200 loads of names that change their kind: {seen}"


def urgent_bytes(site):
    with Server(site, 1) as server, server.connect() as it:
        it.sendall(HEAD[:10])
        it.send(b"!", socket.MSG_OOB)
        it.sendall(HEAD[10:])
        it.shutdown(socket.SHUT_WR)
        got, _ = read_all(it)
        status, told = server.end()
    yield got == answer(site, HEAD) and status == 0, f"a byte out of band within a head is no part of it ({told})"


def sends_on_behind_the_end(site):
    """A client that goes on sending behind an answer that closes."""
    given = request(b"/a.txt", b"Connection: close")
    owed = answer(site, given)
    seen = {}
    with Server(site, 50) as server:
        for _ in range(50):
            with server.connect() as it:
                try:
                    it.sendall(given + b"x" * 200_000)
                except OSError:
                    pass
                got, was_reset = read_all(it)
            kind = ("all of it" if got == owed else f"{len(got)} bytes") + (", then a reset" if was_reset else "")
            seen[kind] = seen.get(kind, 0) + 1
        status, told = server.end()
    yield status == 0, f"50 clients that send 200,000 bytes more behind a request that closes got {seen} ({told})"


def reads_slowly(site):
    """A client that takes a large body in small pieces with pauses."""
    given = request(b"/large.bin", b"Connection: close")
    with large_site(site) as large, Server(large, 1) as server:
        owed = answer(large, given)
        with server.connect(room=1 << 16) as it:
            it.sendall(given)
            got = bytearray()
            while piece := it.recv(1 << 16):
                got += piece
                time.sleep(0.002)
        status, told = server.end()
        yield bytes(got) == owed and status == 0, f"a client that takes {LARGE >> 20} MB in small pieces got {len(got)} of {len(owed)} bytes ({told})"


def sends_while_it_reads_nothing(site):
    """A client that asks for much, reads nothing for a moment and sends small segments meanwhile."""
    given = request(b"/large.bin")
    with large_site(site) as large, Server(large, 1) as server:
        owed = answer(large, given)
        with server.connect() as it:
            it.sendall(given)
            time.sleep(0.3)
            for _ in range(40):
                it.sendall(b"G")
                time.sleep(0.02)
            time.sleep(1)
            it.shutdown(socket.SHUT_WR)
            got, was_reset = read_all(it)
        status, told = server.end()
        yield got.startswith(owed) and not was_reset and status == 0, f"a client that sent 40 segments while it read nothing got {len(got)} of {len(owed)} bytes ({told})"


def posts_much(site):
    """Clients that are refused while they send a megabyte, and end their side behind it."""
    given = b"POST /a.txt HTTP/1.1\r\nHost: x\r\nContent-Length: 1048576\r\n\r\n"
    owed, count = answer(site, given), 50
    with Server(site, count) as server:
        whole = 0
        for _ in range(count):
            got, was_reset = talk(server, given + b"x" * (1 << 20))
            whole += got == owed and not was_reset
        status, told = server.end()
    yield whole == count and status == 0, f"{whole} of {count} clients whose POST of a megabyte was refused got the whole answer ({told})"


def no_folder(site):
    """A FIFO, a socket and a device in the place of the folder."""
    for name in (os.path.join(site, "pipe"), os.path.join(site, "socket"), "/dev/null", "/dev/tty"):
        try:
            status = subprocess.run([SWS, "answer", name], input=HEAD, capture_output=True, timeout=10).returncode
        except subprocess.TimeoutExpired:
            status = "none in ten seconds"
        yield status == 4, f"{os.path.basename(name)} as the folder: status {status}"


def most_threads(words, given=b""):
    """The status of a command, and the most threads that were seen in it at once."""
    with tempfile.TemporaryFile() as source:
        source.write(given)
        source.seek(0)
        child = subprocess.Popen([SWS, *words], stdin=source, stdout=subprocess.DEVNULL, stderr=subprocess.DEVNULL)
    seen, until = 0, time.monotonic() + 60
    while child.poll() is None and time.monotonic() < until:
        with contextlib.suppress(OSError):
            seen = max(seen, len(os.listdir(f"/proc/{child.pid}/task")))
    if child.poll() is None:
        child.kill()
    return child.wait(), seen


def threads_are_started(site):
    """A bench and a replay of several workers run on as many threads, and those of one worker on one."""
    script = b"sws-script 1\n" + b"conn\nsend GET / HTTP/1.1~Host: x~~\n" * 1024
    for command, given in ((["bench", "1024", "7"], b""), (["replay", site], script)):
        for workers in (1, 4):
            # a run of some hundredths of a second may end between two looks
            for _ in range(3):
                status, seen = most_threads([*command, "--workers", str(workers)], given)
                if seen == workers:
                    break
            yield status == 0 and seen == workers, f"{command[0]} on {workers} workers: {seen} threads at once, status {status}"


def thread_refuser(folder):
    """The library of late.c, built; nothing where there is no compiler."""
    made = os.path.join(folder, "late.so")
    with contextlib.suppress(OSError):
        if subprocess.run(["gcc", "-O2", "-shared", "-fPIC", "-o", made, os.path.join(TOP, "bench", "late.c"), "-ldl"]).returncode == 0:
            return made
    return None


def undated(response):
    """A response of `swsd` as `sws` makes it, which has no date and doesn't say that a connection stays."""
    return re.sub(rb"\r\nLast-Modified: [^\r]*", b"", response.replace(b"\r\nConnection: keep-alive", b"", 1), count=1)


def answered_in(port, count, seconds, owed):
    """How many of so many clients at once got what is owed before the time was over, and how long that took."""
    began = time.monotonic()
    clients = [socket.create_connection(("127.0.0.1", port), timeout=seconds) for _ in range(count)]
    right = 0
    with contextlib.suppress(OSError):
        for client in clients:
            client.sendall(HEAD)
            client.shutdown(socket.SHUT_WR)
    for client in clients:
        client.settimeout(max(0.01, began + seconds - time.monotonic()))
        with contextlib.suppress(OSError), client:
            right += undated(read_all(client)[0]) == owed
    return right, time.monotonic() - began


def without_threads(words, port, threads, library, owed):
    """A server on this port whose threads are refused or late: whether each of two crowds was answered within some seconds, and what was seen."""
    environment = {**os.environ, "LD_PRELOAD": library, **threads}
    child = subprocess.Popen(words, stdin=subprocess.DEVNULL, stdout=subprocess.DEVNULL, stderr=subprocess.PIPE, env=environment)
    try:
        until = time.monotonic() + 20
        while not is_listening(port) and child.poll() is None and time.monotonic() < until:
            time.sleep(0.01)
        crowds = [answered_in(port, LATE_CROWD, LATE_SECONDS, owed) for _ in range(2)]
    finally:
        # `sws` ends by itself once all were answered.
        with contextlib.suppress(subprocess.TimeoutExpired):
            child.wait(0 if "--lanes" in words else 2)
        if child.poll() is None:
            child.kill()
        said = child.communicate()[1].decode().strip().splitlines()
    right = sum(crowd[0] for crowd in crowds)
    took = max(crowd[1] for crowd in crowds)
    return right == 2 * LATE_CROWD, f"{right} of {2 * LATE_CROWD} answered, in {took:.2f} s" + ("" if right == 2 * LATE_CROWD else f" ({said[-2:]})")


LATE_CROWD = 12
LATE_SECONDS = 6


def late_threads(site):
    """Servers of several workers whose threads the machine refuses or starts late: each connection is answered all the same."""
    with tempfile.TemporaryDirectory(prefix="sws-late-") as folder:
        library = thread_refuser(folder)
        if not library:
            yield True, "not tried, as there is no compiler"
            return
        ways = {
            "no thread granted": {"THREADS_GRANTED": "0"},
            "one granted": {"THREADS_GRANTED": "1"},
            "two granted": {"THREADS_GRANTED": "2"},
            "all 0.25 s late": {"THREADS_LATE": "250"},
            "all 1 s late": {"THREADS_LATE": "1000"},
        }
        owed, runs = answer(site, HEAD), []
        for name, threads in ways.items():
            for workers in ("2", "4", "5"):
                if int(workers) <= int(threads.get("THREADS_GRANTED", "0")) + 1 and "THREADS_LATE" not in threads:
                    continue
                for cost in ("9", "20"):
                    port = next(port for port in PORTS if not is_listening(port))
                    words = [SWS, "serve", site, "--port", str(port), "--connections", str(2 * LATE_CROWD), "--workers", workers, "--shards", "64", "--cost", cost]
                    runs.append((f"sws, {workers} workers, cost {cost}, {name}", words, port, threads))
                if os.access(SWSD, os.X_OK):
                    port = next(port for port in PORTS if not is_listening(port))
                    words = [SWSD, site, "--listen", f"127.0.0.1:{port}", "--lanes", "1", "--accepting", "1", "--workers", workers]
                    runs.append((f"swsd, {workers} workers, {name}", words, port, threads))
        with concurrent.futures.ThreadPoolExecutor(4) as pool:
            results = list(pool.map(lambda run: without_threads(*run[1:], library, owed), runs))
        for (name, *_), (is_right, seen) in zip(runs, results):
            if not is_right:
                yield False, f"{name}: {seen}"
        yield all(result[0] for result in results), f"{sum(result[0] for result in results)} of {len(runs)} servers without their threads answered everybody"


CASES = [
    late_threads, threads_are_started, targets, no_folder, reads_slowly, sends_while_it_reads_nothing, posts_much, header_bombs, pipelined, input_limit, half_closed, slow_heads, resets, urgent_bytes, sends_on_behind_the_end, few_descriptors, descriptors_for_all_but_a_few,
    reset_before_it_is_accepted, kinds_that_change, more_than_are_served, changing_folder, silent_clients, dripping_client, stopped_client, takes_nothing,
]

QUICK = [late_threads, threads_are_started, targets, no_folder, posts_much, half_closed, urgent_bytes, few_descriptors, reset_before_it_is_accepted, kinds_that_change]


def make_site():
    folder = tempfile.mkdtemp(prefix="sws-hostile-")
    for name, body in (("a.txt", b"0123456789"), ("index.html", b"hi\n"), ("sub/index.html", b"sub\n"), (".hidden", b"h")):
        path = os.path.join(folder, name)
        os.makedirs(os.path.dirname(path), exist_ok=True)
        with open(path, "wb") as file:
            file.write(body)
    os.symlink("a.txt", os.path.join(folder, "link.txt"))
    os.symlink("/etc", os.path.join(folder, "outside"))
    os.symlink("sub", os.path.join(folder, "linked"))
    os.mkfifo(os.path.join(folder, "pipe"))
    with contextlib.closing(socket.socket(socket.AF_UNIX)) as it:
        it.bind(os.path.join(folder, "socket"))
    return folder


def main():
    global SWS, SWSD, answer_of_head
    words = argparse.ArgumentParser(description="Uses the server as badly as it can.")
    words.add_argument("--only", default="")
    words.add_argument("--quick", action="store_true")
    words.add_argument("--program", default=SWS)
    words.add_argument("--daemon", default=SWSD)
    given = words.parse_args()
    SWS, SWSD = given.program, given.daemon
    if not os.access(SWS, os.X_OK):
        sys.exit("hostile: the program isn't built")
    hard = resource.getrlimit(resource.RLIMIT_NOFILE)[1]
    resource.setrlimit(resource.RLIMIT_NOFILE, (min(hard, 8_192), hard))
    site, all_well = make_site(), True
    try:
        answer_of_head = answer(site, HEAD)
        for case in QUICK if given.quick else CASES:
            if given.only in case.__name__:
                for is_right, seen in case(site):
                    all_well &= is_right
                    print(f"{'well' if is_right else 'WRONG'}: {case.__name__}: {seen}", flush=True)
    finally:
        shutil.rmtree(site)
    if given.quick and not given.only and os.access(edge.staying.SWSD, os.X_OK):
        all_well &= edge.run(is_quick=True)
    sys.exit(0 if all_well else 1)


if __name__ == "__main__":
    main()
