#!/usr/bin/env python3
"""Uses `swsd` by many clients at once, some of whom behave badly, on this machine's loopback, and says a line a case: what the others saw, and
whether it is what is owed.

    bench/edge.py [--only WORD] [--quick] [--program PATH]

It wants the program built (`./swsd --version`). With `--quick`, as `bench/hostile.py` calls it, only the cases of a few seconds; the whole
takes some three minutes. The status is 1 where a case went otherwise.
"""
import argparse
import calendar
import contextlib
import errno
import os
import re
import resource
import select
import shutil
import socket
import subprocess
import sys
import tempfile
import threading
import time

import staying
from staying import HEAD, Server, put, site

MEGABYTE = 1 << 20
RATE = 1_000_000


def slowest_of(server, seconds):
    """Asks again and again for so long: how many answers came, and how long the slowest took."""
    count, slowest, until = 0, 0.0, time.monotonic() + seconds
    while (asked := time.monotonic()) < until:
        if not server.ask().endswith(b"0123456789"):
            return count, float("inf")
        count, slowest = count + 1, max(slowest, time.monotonic() - asked)
    return count, slowest


def trickle(server, count, is_over):
    """So many clients that are answered, and then send a byte each half second, each with another behind it once it is closed."""
    clients = []
    while not is_over.wait(0.5):
        while len(clients) < count:
            it = server.connect()
            it.sendall(HEAD)
            clients.append(it)
        for it in list(clients):
            try:
                it.sendall(b"x")
            except OSError:
                it.close()
                clients.remove(it)
    for it in clients:
        it.close()


def tricklers(is_quick):
    """Clients that go on sending behind their last answer, beside others whose generations are short."""
    for accepting in (1,) if is_quick else (1, 4):
        with site() as folder, Server(folder, "--connections", "50", "--lanes", "8", "--accepting", str(accepting)) as server:
            is_over = threading.Event()
            beside = threading.Thread(target=trickle, args=(server, 16, is_over))
            beside.start()
            count, slowest = slowest_of(server, 4 if is_quick else 20)
            is_over.set()
            beside.join()
            status, told = server.end()
        yield status == 0 and count > 100 and slowest < 1, f"16 tricklers, {accepting} lanes that accept: of {count} others the slowest waited {slowest:.2f} s ({told})"


def download(server, name, size, rate, seen):
    """Takes a file at this many bytes a second, and puts down how many came."""
    it = socket.socket()
    it.setsockopt(socket.SOL_SOCKET, socket.SO_RCVBUF, 1 << 16)
    it.settimeout(60)
    it.connect(("127.0.0.1", server.port))
    it.sendall(HEAD.replace(b"a.txt", name))
    began, got = time.monotonic(), 0
    with contextlib.suppress(OSError):
        while piece := it.recv(1 << 16):
            got += len(piece)
            time.sleep(max(0.0, began + got / rate - time.monotonic()))
    it.close()
    seen.append(got - size)


def moving_downloads(is_quick):
    """Downloads that move, for longer than age and grace together, while generations change beside them; one that stands still is cut."""
    megabytes, connections = (8, 300) if is_quick else (64, 6_144)
    words = ["--age", "1", "--grace", "2"] if is_quick else ["--grace", "10"]
    with site() as folder:
        put(folder, "large.bin", bytes(megabytes * MEGABYTE))
        with Server(folder, "--lanes", "8", "--accepting", "2", "--connections", "100" if is_quick else "1024", *words) as server:
            seen = []
            mover = threading.Thread(target=download, args=(server, b"large.bin", megabytes * MEGABYTE, RATE, seen))
            mover.start()
            stuck = server.connect()
            stuck.sendall(HEAD.replace(b"a.txt", b"large.bin"))
            for _ in range(connections):
                server.ask()
            mover.join()
            taken = 0
            with contextlib.suppress(OSError):
                while piece := stuck.recv(1 << 20):
                    taken += len(piece)
            status, told = server.end()
    is_right = status == 0 and seen[0] > 0 and taken < megabytes * MEGABYTE
    yield is_right, f"{megabytes} MB at 1 MB/s beside {connections} connections: {seen[0]} bytes more than the file came; one that took nothing got {taken} bytes ({told})"


def held_lanes(_):
    """Slow downloads for more lanes than there are: others are served all the same."""
    with site() as folder:
        put(folder, "large.bin", bytes(64 * MEGABYTE))
        with Server(folder, "--lanes", "4", "--accepting", "2", "--connections", "8", "--age", "1", "--grace", "2") as server:
            seen = []
            movers = [threading.Thread(target=download, args=(server, b"large.bin", 64 * MEGABYTE, 4 * RATE, seen)) for _ in range(24)]
            for mover in movers:
                mover.start()
                time.sleep(0.2)
            count, slowest = slowest_of(server, 10)
            for mover in movers:
                mover.join()
            status, told = server.end()
    whole = sum(more > 0 for more in seen)
    yield status == 0 and slowest < 6, f"24 downloads over 4 lanes: {whole} came whole, of {count} others the slowest waited {slowest:.2f} s ({told})"


def burst(port, count):
    """So many connections at once: how long the slowest took to stand."""
    watch, begun, slowest = select.epoll(), {}, 0.0
    for _ in range(count):
        it = socket.socket()
        it.setblocking(False)
        begun[it.fileno()] = (it, time.monotonic())
        if it.connect_ex(("127.0.0.1", port)) not in (0, errno.EINPROGRESS):
            return float("inf")
        watch.register(it, select.EPOLLOUT)
    left, until = set(begun), time.monotonic() + 20
    while left and time.monotonic() < until:
        for place, _ in watch.poll(1):
            if place in left:
                left.remove(place)
                watch.unregister(place)
                slowest = max(slowest, time.monotonic() - begun[place][1])
    for it, _ in begun.values():
        it.close()
    watch.close()
    return float("inf") if left else slowest


def bursts(_):
    """A thousand clients at once, three times."""
    with open("/proc/sys/net/core/somaxconn") as most:
        if int(most.read()) < 1_000:
            return
    with site() as folder, Server(folder, "--lanes", "8") as server:
        times = []
        for _ in range(3):
            times.append(burst(server.port, 1_000))
            time.sleep(0.5)
        status, told = server.end()
    yield status == 0 and max(times) < 0.3, f"three bursts of 1,000 connections: the slowest stood after {', '.join(f'{it:.3f}' for it in times)} s ({told})"


def after_the_stop(_):
    """Who comes after the stop file is refused at once, while a download goes on to its end."""
    with site() as folder:
        put(folder, "large.bin", bytes(32 * MEGABYTE))
        with Server(folder, "--grace", "20") as server, server.connect() as it:
            it.sendall(HEAD.replace(b"a.txt", b"large.bin"))
            got = len(it.recv(1 << 16))
            server.stop()
            time.sleep(0.7)
            refused, slowest = 0, 0.0
            for _ in range(10):
                asked = time.monotonic()
                try:
                    socket.create_connection(("127.0.0.1", server.port), timeout=15).close()
                except ConnectionRefusedError:
                    refused += 1
                slowest = max(slowest, time.monotonic() - asked)
            while piece := it.recv(1 << 16):
                got += len(piece)
            status, told = server.end()
    is_right = status == 0 and refused == 10 and slowest < 0.1 and got > 32 * MEGABYTE
    yield is_right, f"0.7 s after the stop file {refused} of 10 were refused, the slowest after {slowest:.3f} s; a download went on to {got} bytes ({told})"


KEPT = HEAD.replace(b"Connection: close\r\n", b"")


def answer_on(it, seconds=10):
    """One answer with a body of ten bytes on a connection that stays; nothing where it ends in place of one, and what came of one that it broke off."""
    it.settimeout(seconds)
    got = b""
    with contextlib.suppress(ConnectionResetError, BrokenPipeError):
        while not (got.partition(b"\r\n\r\n")[1] and len(got.partition(b"\r\n\r\n")[2]) >= 10):
            piece = it.recv(1 << 16)
            if not piece:
                break
            got += piece
    return got


def asks_on(it, gap, seconds):
    """Asks again and again on a connection that stays, with this gap: when it ended, where it did, and whether each answer before that was whole."""
    until = time.monotonic() + seconds
    while time.monotonic() < until:
        try:
            it.sendall(KEPT)
            got = answer_on(it)
        except OSError:
            got = b""
        if not got:
            return time.monotonic(), True
        if len(got.partition(b"\r\n\r\n")[2]) != 10:
            return time.monotonic(), False
        time.sleep(gap)
    return None, True


def ends_within(it, seconds):
    """After how many seconds the other side ends a connection on which nothing is asked, and whether it sends nothing before."""
    it.settimeout(seconds)
    began = time.monotonic()
    try:
        return time.monotonic() - began if it.recv(1) == b"" else None
    except OSError:
        return None


def kept_connections(_):
    """Connections that are kept, as the folder changes and as the server stops: those that wait between two requests are ended at once and none in the middle
    of a request or an answer, and each answer that comes is whole."""
    with site() as folder:
        put(folder, "large.bin", bytes(32 * MEGABYTE))
        with Server(folder, "--grace", "10") as server:
            quiet, half, whole, behind = (server.connect() for _ in range(4))
            quiet.sendall(KEPT)
            first = answer_on(quiet)
            half.sendall(KEPT[:20])
            behind.sendall(KEPT + KEPT[:20])
            answer_on(behind)
            whole.sendall(HEAD.replace(b"a.txt", b"large.bin"))
            got = len(whole.recv(1 << 16))
            seen = []
            askers = [threading.Thread(target=lambda gap=gap: seen.append((gap, *asks_on(server.connect(), gap, 30)))) for gap in (0.05, 0.6)]
            for asker in askers:
                asker.start()
            time.sleep(0.5)
            put(folder, "a.txt", b"9876543210")
            until = time.monotonic() + 10
            while not server.ask().endswith(b"9876543210") and time.monotonic() < until:
                time.sleep(0.05)
            changed = time.monotonic()
            ended = [ends_within(quiet, 2)]
            for it in (half, behind):
                it.sendall(KEPT[20:])
                ended.append(answer_on(it).endswith(b"0123456789"))
            while piece := whole.recv(1 << 16):
                got += len(piece)
            for asker in askers:
                asker.join()
            idle, unused = server.connect(), server.connect()
            idle.sendall(KEPT)
            newer = answer_on(idle)
            began = time.monotonic()
            server.stop()
            ended += [ends_within(idle, 3), ends_within(unused, 9)]
            status, told = server.end()
            lasted = time.monotonic() - began
    lasted_by = {gap: at and at - changed for gap, at, _ in seen}
    is_right = first.endswith(b"0123456789") and newer.endswith(b"9876543210") and None not in ended and False not in ended and got > 32 * MEGABYTE
    is_right &= all(is_whole for _, _, is_whole in seen) and None not in lasted_by.values() and lasted_by[0.6] < 3 and lasted_by[0.05] < 9
    yield is_right and status == 0 and lasted < 9 and told["fault"] == 0, (
        f"after others had the new page one that was idle lasted {ended[0]} s, one that asked each 0.6 s {lasted_by[0.6]} s, each 0.05 s {lasted_by[0.05]} s; half "
        f"requests were answered: {ended[1:3]}, a download had {got} bytes; after a stop an idle one lasted {ended[3]} s, an unused one {ended[4]} s, the server {lasted:.2f} s ({told})")


def bytes_in_turn(_):
    """Two thousand clients that send a byte each in turn: the memory of the server is bounded."""
    with site() as folder, Server(folder, "--lanes", "4", "--accepting", "2") as server:
        first, most, count, until = server.resident(), 0, 0, time.monotonic() + 60
        clients, text = [], b"GET /a.txt HTTP/1.1\r\nHost: x\r\nX: " + b"y" * 4_000
        while time.monotonic() < until:
            while len(clients) < 2_000:
                clients.append([server.connect(), 0])
            for client in clients:
                try:
                    client[0].send(text[client[1] : client[1] + 1])
                    client[1] = (client[1] + 1) % len(text)
                    count += 1
                except OSError:
                    client[0].close()
                    client[0] = None
            clients = [client for client in clients if client[0]]
            most = max(most, server.resident())
        for it, _ in clients:
            it.close()
        status, told = server.end()
    yield status == 0 and most - first < 300_000, f"2,000 clients of a byte each in turn, {count} bytes in a minute: resident {first} kB, {most} kB at most ({told})"


def unread_files(_):
    """A folder with a file and a folder to which the server has no right, and names that aren't UTF-8: the others are served."""
    if os.geteuid() != 0:
        return
    with site() as folder:
        put(folder, "secret.txt", b"secret")
        os.chmod(os.path.join(folder, "secret.txt"), 0o600)
        os.makedirs(os.path.join(folder, "closed", "below"), mode=0o700)
        os.chmod(os.path.join(folder, "closed"), 0o700)
        for name in (b"\xff.txt", b".\xfe"):
            with open(os.path.join(os.fsencode(folder), name), "wb") as file:
                file.write(b"x")
        program = os.path.join(os.path.dirname(folder), "swsd")
        shutil.copy(staying.SWSD, program)
        for path in (os.path.dirname(folder), folder, program):
            os.chmod(path, 0o755)
        with Server(folder, program=program, preexec=lambda: os.setuid(65_534)) as server:
            seen = server.ask() if server.port else b""
            missing = server.ask(HEAD.replace(b"a.txt", b"secret.txt")) if server.port else b""
            status, told = server.end()
            said = server.lines()
    is_right = seen.endswith(b"0123456789") and missing.startswith(b"HTTP/1.1 404") and status == 0
    named = [name for name in ("secret.txt", "closed/", "UTF-8") if name in said]
    yield is_right, f"beside what can't be read the others are served; said of it: {', '.join(named) or 'nothing'} (status {status}, {told})"


def without_proc(_):
    """A machine that has no /proc, as a bare chroot: what can't be read is named with its cause, and the status is 4."""
    words = ["unshare", "-m", "sh", "-c", 'umount -l /proc && exec "$@"', "sh"]
    if os.geteuid() != 0 or not shutil.which("unshare") or subprocess.run([*words, "true"], capture_output=True, check=False).returncode != 0:
        return
    with site() as folder:
        done = subprocess.run([*words, staying.SWSD, folder, "--listen", "127.0.0.1:0"], capture_output=True, text=True, timeout=30, check=False)
    named = re.search(r"/proc/self/fd/\d+, by which it is listed: No such file or directory", done.stderr)
    yield done.returncode == 4 and bool(named), f"without /proc: status {done.returncode}, said: {done.stderr.strip()[:200]!r}"


def per_address(_):
    """Connections of one address, as many as it may have and more: those beyond are closed as they come, one that ends makes room, another address and a front
    aren't held up, and what was refused is in the totals; and words that are no number or no address are named."""
    wrong = []

    def is_served(server, source):
        it = socket.create_connection(("127.0.0.1", server.port), timeout=10, source_address=(source, 0))
        with contextlib.suppress(OSError):
            it.sendall(KEPT)
            if answer_on(it).endswith(b"0123456789"):
                return it
        it.close()
        return None

    with site() as folder:
        with Server(folder, "--per-address", "3", "--front", "127.0.0.7") as server:
            here = [is_served(server, "127.0.0.2") for _ in range(5)]
            if [it is not None for it in here] != [True, True, True, False, False]:
                wrong.append([it is not None for it in here])
            beside = [is_served(server, source) for source in ["127.0.0.3"] * 2 + ["127.0.0.7"] * 5]
            if None in beside:
                wrong.append("others are refused")
            here[0].close()
            if not is_soon(lambda: is_served(server, "127.0.0.2") is not None, 5):
                wrong.append("no room after an end")
            status, told = server.end()
            if status != 0 or told.get("refused", 0) < 2:
                wrong.append((status, told))
        for words, cause in ((["--per-address", "0"], "0 is not in 1..="), (["--front", "here"], "invalid value 'here' for '--front <ADDRESS>'")):
            done = subprocess.run([staying.SWSD, folder, "--listen", "127.0.0.1:0", *words], capture_output=True, text=True, timeout=30, check=False)
            if done.returncode != 2 or cause not in done.stderr:
                wrong.append((words, done.returncode, done.stderr))
    yield not wrong, f"three connections an address, a fourth, another address and a front, otherwise: {wrong[:3]} ({told})"


def library(folder, name):
    """A library that stands before the machine's, built of bench/NAME.c; nothing where there is no compiler."""
    made = os.path.join(folder, f"{name}.so")
    with contextlib.suppress(OSError):
        if subprocess.run(["gcc", "-O2", "-shared", "-fPIC", "-o", made, os.path.join(staying.TOP, "bench", f"{name}.c"), "-ldl"], check=False).returncode == 0:
            return made
    return None


def unwatched(_):
    """A connection that the machine has no memory to watch is closed without an answer, and another one of its generation, in the middle of a request, stays
    until it is answered, though the generation takes no further one by then."""
    with tempfile.TemporaryDirectory(prefix="swsd-unwatched-") as room, site() as folder:
        made = library(room, "unwatched")
        if not made:
            yield True, "not tried, as there is no compiler"
            return
        words = ["env", f"LD_PRELOAD={made}"]
        with Server(folder, "--lanes", "2", "--accepting", "1", "--age", "1", before=words) as server, server.connect() as first:
            first.sendall(HEAD[:20])
            time.sleep(0.3)
            closed = None
            with server.connect() as second, contextlib.suppress(ConnectionResetError):
                second.sendall(HEAD)
                closed = b""
                closed = second.recv(1)
            until = time.monotonic() + 10
            while not server.ask().endswith(b"0123456789") and time.monotonic() < until:
                time.sleep(0.1)
            time.sleep(2)
            got = b""
            with contextlib.suppress(OSError):
                first.sendall(HEAD[20:])
                got = answer_on(first)
            status, told = server.end()
    is_right = status == 0 and closed == b"" and got.endswith(b"0123456789")
    yield is_right, f"the second connection, unwatched, got {len(closed)} bytes, and the first one, two seconds later, {len(got)} ({told})"


SIGNATURE = b"\r\n\r\n\0\r\nQUIT\n"
FROM_4 = bytes([198, 51, 100, 9, 127, 0, 0, 1, 19, 136, 0, 80])
FROM_6 = bytes.fromhex("20010db8") + bytes(11) + b"\x05" + bytes(15) + b"\x01" + bytes([19, 136, 0, 80])


def block(command, family, text, size=None):
    """A header of version 2 of the PROXY protocol."""
    return SIGNATURE + bytes([command, family]) + (len(text) if size is None else size).to_bytes(2, "big") + text


# Headers of a proxy, and the client that the log is to name.
PROXIED = [
    (b"PROXY TCP4 192.0.2.7 127.0.0.1 5000 80\r\n", "192.0.2.7"),
    (b"PROXY TCP6 2001:db8::7 ::1 5000 80\r\n", "2001:db8::7"),
    (b"PROXY TCP6 ::ffff:192.0.2.8 ::1 65535 0\r\n", "192.0.2.8"),
    (b"PROXY UNKNOWN\r\n", "127.0.0.2"),
    (b"PROXY UNKNOWN ffff::1 whatever\r\n", "127.0.0.2"),
    (block(0x21, 0x11, FROM_4), "198.51.100.9"),
    (block(0x21, 0x21, FROM_6), "2001:db8::5"),
    (block(0x21, 0x11, FROM_4 + b"\x04\0\x02ab" + bytes(200)), "198.51.100.9"),
    (block(0x21, 0x11, FROM_4 + bytes(508)), "198.51.100.9"),
    (block(0x20, 0x11, FROM_4), "127.0.0.2"),
    (block(0x21, 0, b""), "127.0.0.2"),
]

# What is none.
UNPROXIED = [
    b"",
    b"PROXY TCP4 192.0.2.256 127.0.0.1 5000 80\r\n",
    b"PROXY TCP4 ::1 ::1 5000 80\r\n",
    b"PROXY TCP4  192.0.2.7 127.0.0.1 5000 80\r\n",
    b"PROXY TCP4 192.0.2.7 127.0.0.1 65536 80\r\n",
    b"PROXY TCP4 192.0.2.7 127.0.0.1 5000 80\n",
    b"PROXY TCP4 192.0.2.7 127.0.0.1 5000 80 \r\n",
    b"PROXY UNKNOWN " + b"x" * 92 + b"\r\n",
    block(0x22, 0x11, FROM_4),
    block(0x31, 0x11, FROM_4),
    block(0x21, 0x11, FROM_4[:8]),
    block(0x21, 0x11, FROM_4 + bytes(509)),
]


def sent_from(server, source, *pieces, is_cut=False, is_kept=False):
    """What comes of these pieces, a tenth of a second apart, on a connection from this address."""
    it = socket.create_connection(("127.0.0.1", server.port), timeout=30, source_address=(source, 0))
    got = b""
    with contextlib.suppress(ConnectionResetError, BrokenPipeError):
        it.setsockopt(socket.IPPROTO_TCP, socket.TCP_NODELAY, 1)
        for number, piece in enumerate(pieces):
            time.sleep(0.1 if number else 0)
            it.sendall(piece)
        if is_cut:
            it.shutdown(socket.SHUT_WR)
        if is_kept:
            return answer_on(it), it
        while piece := it.recv(1 << 16):
            got += piece
    it.close()
    return got, None


def proxied(is_quick):
    """Connections of a proxy: the log names the client of its header, whole or in pieces; one without a header, with a bad one or one that is cut off is closed
    without an answer, as is one that stops within it; `--per-address` counts the clients; from another address a header is a bad request; and a word that is no
    address is named."""
    wrong, proxy = [], "127.0.0.2"
    with site() as folder, tempfile.NamedTemporaryFile() as output:
        with Server(folder, "--log", "--proxy", "127.0.0.9", "--proxy", proxy, output=output.name) as server:
            for number, (header, client) in enumerate(PROXIED, 1):
                for pieces in ([header + HEAD], [header[:5], header[5:15], header[15:] + HEAD[:9], HEAD[9:]]):
                    got, _ = sent_from(server, proxy, *pieces)
                    if not got.endswith(b"\r\n\r\n0123456789"):
                        wrong.append((header, len(pieces), got))
                if not is_soon(lambda: len(server.log()) >= 2 * number) or [line.split()[0] for line in server.log()[-2:]] != [client] * 2:
                    wrong.append((header, server.log()[-2:]))
            for text in UNPROXIED:
                began = time.monotonic()
                if sent_from(server, proxy, text + HEAD)[0] or time.monotonic() - began > 2:
                    wrong.append((text, "answered"))
            for header, _ in PROXIED[0], PROXIED[5]:
                for size in (0, 3, 14, len(header) - 1):
                    began = time.monotonic()
                    if sent_from(server, proxy, header[:size], is_cut=True)[0] or time.monotonic() - began > 2:
                        wrong.append((header[:size], "not closed"))
            began = time.monotonic()
            if not is_quick and (sent_from(server, proxy, PROXIED[0][0][:20])[0] or not 20 < time.monotonic() - began < 45):
                wrong.append(("a slow one", time.monotonic() - began))
            if not sent_from(server, "127.0.0.1", PROXIED[0][0] + HEAD)[0].startswith(b"HTTP/1.1 400 "):
                wrong.append("a header of somebody else isn't refused")
            status, told = server.end()
        if status != 0 or told.get("fault") != len(UNPROXIED):
            wrong.append((status, told))
        with Server(folder, "--per-address", "2", "--proxy", proxy) as server:
            held = [sent_from(server, proxy, PROXIED[place][0] + KEPT, is_kept=True) for place in (0, 0, 0, 5, 3)]
            if [got.endswith(b"0123456789") for got, _ in held] != [True, True, False, True, True]:
                wrong.append([got for got, _ in held])
            held[0][1].close()
            if not is_soon(lambda: sent_from(server, proxy, PROXIED[0][0] + HEAD)[0] != b"", 5):
                wrong.append("no room after an end")
            status, more = server.end()
            if status != 0 or more.get("refused", 0) < 1:
                wrong.append((status, more))
        done = subprocess.run([staying.SWSD, folder, "--listen", "127.0.0.1:0", "--proxy", "here"], capture_output=True, text=True, timeout=30, check=False)
        if done.returncode != 2 or "invalid value 'here' for '--proxy <ADDRESS>'" not in done.stderr:
            wrong.append((done.returncode, done.stderr))
    yield not wrong, f"{len(PROXIED)} headers of a proxy, whole and in pieces, {len(UNPROXIED)} that are none, 8 that are cut, otherwise: {wrong[:3]} ({told})"


def dates(is_quick):
    """A page that changes several times a second while it is loaded anew as often as somebody asks: no date is that of two states of it, none goes
    back or is to come, and who has the newest is told so."""
    seen, faults, unchanged = {}, [], 0
    with site() as folder, tempfile.TemporaryDirectory() as room:
        reload_file = os.path.join(room, "reload")
        with Server(folder, "--connections", "50", "--look", "0", "--reload-file", reload_file) as server:
            last, until, number = 0, time.monotonic() + (8 if is_quick else 40), 0
            while time.monotonic() < until:
                number += 1
                put(folder, "a.txt", b"%010d" % number)
                open(reload_file, "w").close()
                time.sleep(0.15)
                answer = server.ask()
                named = re.search(rb"\r\nLast-Modified: ([^\r]*)", answer)
                if not named:
                    faults.append(f"no date: {answer[:60]}")
                    continue
                date = calendar.timegm(time.strptime(named[1].decode(), "%a, %d %b %Y %H:%M:%S GMT"))
                body = answer[-10:]
                if seen.setdefault(date, body) != body or date < last or date > time.time():
                    faults.append(f"{date} behind {last}: {body} and {seen[date]}")
                last = date
                again = server.ask(HEAD[:-2] + b"If-Modified-Since: " + named[1] + b"\r\n\r\n")
                unchanged += again.startswith(b"HTTP/1.1 304 ")
                if not again.startswith(b"HTTP/1.1 304 ") and again[-10:] == body:
                    faults.append("the same page was sent again")
            status, told = server.end()
    yield status == 0 and not faults and unchanged > 0 and len(seen) > 3, f"{number} states of a page: {len(seen)} dates, {unchanged} times unchanged, faults {faults[:3]} ({told})"


# A target, and what its answer's status line and location are to be where the site has docs/, with an index, bare/, without, and 404.html.
REDIRECTS = [
    (b"/docs", b"301", b"/docs/"), (b"/docs?//evil.example", b"301", b"/docs/"), (b"http://evil.example/docs", b"301", b"/docs/"),
    (b"/a%20b", b"301", b"/a%20b/"), (b"/%2e%2e/docs", b"301", b"/docs/"), (b"/docs/", b"200", None), (b"/bare", b"404", None),
    (b"//docs", b"404", None), (b"/.//docs", b"404", None), (b"/%2fdocs", b"404", None), (b"/%5cdocs", b"404", None),
    (b"/docs%0d%0aX:1", b"404", None), (b"http://evil.example//docs", b"404", None), (b"/.hidden", b"404", None), (b"/404.html", b"200", None),
]


def redirects(_):
    """Targets that name folders, some of them made so that a redirect to the target would lead to another host: the location is a folder's own path or
    none, and what isn't there is told by the site's page."""
    wrong = []
    with site() as folder:
        for name in ("docs", "a b", "bare", ".hidden"):
            os.makedirs(os.path.join(folder, name))
        for name in ("docs/index.html", "a b/index.html", ".hidden/index.html", "bare/x.txt"):
            with open(os.path.join(folder, name), "wb") as file:
                file.write(b"here")
        put(folder, "404.html", b"gone")
        with Server(folder) as server:
            for target, status, location in REDIRECTS:
                answer = server.ask(HEAD.replace(b"/a.txt", target))
                named = re.search(rb"\r\nLocation: ([^\r]*)", answer)
                is_told = answer.startswith(b"HTTP/1.1 " + status) and (named[1] if named else None) == location
                if not is_told or (status == b"404" and not answer.endswith(b"\r\n\r\ngone")):
                    wrong.append((target, answer[:60]))
            status, told = server.end()
    yield status == 0 and not wrong, f"{len(REDIRECTS)} targets, otherwise answered: {wrong[:3]} ({told})"


# Words that add to responses; and what of each answer: a target, more lines of the request, its status, its type, and for how long it may be kept.
ADDED = ["--header", "X-Frame-Options: DENY", "--header", "Content-Security-Policy: default-src 'self'; img-src *", "--header", "Vary: Accept", "--header",
         "vary: Origin", "--cache", ".css=86400", "--cache", "3600", "--cache", "ss=5", "--cache", "log=0", "--type", "txt=text/plain; charset=utf-8", "--type", "log=text/x-log", "--type", "TXT=text/html"]
ADDED_LINES = [b"X-Frame-Options: DENY", b"Content-Security-Policy: default-src 'self'; img-src *", b"Vary: Accept", b"vary: Origin"]
ADDED_TO = [
    (b"/a.txt", b"", b"200", b"text/plain; charset=utf-8", 3600), (b"/a.txt", b"Range: bytes=1-2\r\n", b"206", b"text/plain; charset=utf-8", 3600),
    (b"/a.txt", b"If-Modified-Since: Fri, 31 Dec 9999 23:59:59 GMT\r\n", b"304", None, 3600), (b"/a.txt", b"Range: bytes=10-\r\n", b"416", b"text/plain", None),
    (b"/docs", b"", b"301", b"text/plain", None), (b"/none", b"", b"404", b"text/plain", None), (b"/b.log", b"", b"200", b"text/x-log", 0),
    (b"/c.css", b"", b"200", b"text/css", 86400), (b"/c.css", b"Range: bytes=1-2\r\n", b"206", b"text/css", 86400),
    (b"/c.css", b"If-Modified-Since: Fri, 31 Dec 9999 23:59:59 GMT\r\n", b"304", None, 86400), (b"/none.css", b"", b"404", b"text/plain", None),
    (b"/docs/", b"", b"200", b"text/html", 3600), (b"/a.txt", b"Host: twice\r\n", b"400", b"text/plain", None),
]

# Words that are refused, and how what is said of them ends.
REFUSED = [
    (["--header", "X"], "expected a name, a colon, a space and a value"), (["--header", "X:y"], "expected a name, a colon, a space and a value"),
    (["--header", "X y: z"], "its name is no token"), (["--header", ": z"], "its name is no token"),
    (["--header", "X: y\r\nZ: z"], "a byte that isn't visible ASCII"), (["--header", "X: y\rz"], "a byte that isn't visible ASCII"),
    (["--header", "X:  y"], "a byte that isn't visible ASCII"), (["--header", "X: \u00e9"], "a byte that isn't visible ASCII"),
    (["--header", "content-length: 1"], "the server itself sends or leaves out this field"),
    (["--header", "Date: today"], "the server itself sends or leaves out this field"),
    (["--header", "X: " + "y" * 1020], "more than 1,024 bytes"), (["--header", "X: " + "y" * 500, "--header", "X: " + "y" * 520], "more than 1,024 bytes"),
    (["--type", "txt"], "expected an extension, '=' and a media type"), (["--type", ".txt=text/plain"], "its extension has more than letters and digits"),
    (["--type", "txt=text"], "with one parameter at most"), (["--type", "txt=text/plain\r\nX: y"], "with one parameter at most"),
    (["--type", "txt=text/" + "x" * 76], "with one parameter at most"), (["--cache=-1"], "expected seconds, 0 to 2147483647"),
    (["--cache", "2147483648"], "expected seconds, 0 to 2147483647"), (["--cache", ".css=2147483648"], "expected seconds, 0 to 2147483647"),
    (["--cache", ".css="], "expected seconds, 0 to 2147483647"), (["--cache", "=5"], "no name of a file has this end"),
    (["--cache", "css/a=5"], "no name of a file has this end"), (["--cache", "a=5", "--cache", "a=5"], "have an age already"),
    (["--cache", "5", "--cache", "5"], "have an age already"), ([word for n in range(65) for word in ("--cache", f".{n}=5")], "more than 64 ends"),
]


def additions(_):
    """Lines, types and an age of the owner's: they stand in the answers that they are meant for, in order, also in those with a part of a file and those that
    refuse; and words that are no such line, type or age are named, with the cause."""
    wrong = []
    with site() as folder:
        os.makedirs(os.path.join(folder, "docs"))
        for name in ("docs/index.html", "b.log", "c.css"):
            with open(os.path.join(folder, name), "wb") as file:
                file.write(b"here")
        with Server(folder, *ADDED) as server:
            for target, lines, code, media_type, age in ADDED_TO:
                answer = server.ask(HEAD.replace(b"/a.txt", target).replace(b"\r\n\r\n", b"\r\n" + lines + b"\r\n"))
                head = answer.partition(b"\r\n\r\n")[0].split(b"\r\n")
                named = [line[14:] for line in head if line.startswith(b"Content-Type: ")]
                kept = [line for line in head if line.startswith(b"Cache-Control:")] == ([] if age is None else [b"Cache-Control: max-age=%d" % age])
                if not (head[0].startswith(b"HTTP/1.1 " + code) and head[-4:] == ADDED_LINES and kept and named == ([media_type] if media_type else [])):
                    wrong.append((target, lines, answer[:200]))
            status, told = server.end()
        for words, cause in REFUSED:
            done = subprocess.run([staying.SWSD, folder, "--listen", "127.0.0.1:0", *words], capture_output=True, text=True, timeout=30)
            if done.returncode != 2 or cause not in done.stderr or words[0].partition("=")[0] not in done.stderr:
                wrong.append((words, done.returncode, done.stderr[:200]))
    yield status == 0 and not wrong, f"{len(ADDED_TO)} answers, {len(REFUSED)} words that are refused, otherwise: {wrong[:3]} ({told})"


# Lines of a request in place of its Host, and the status of its answer: what another server may read otherwise is refused.
READ_TWICE = [
    (b"Host: x", b"200"), (b"Host: [::1]:8080", b"200"), (b"Host:", b"200"), (b"Host: a b", b"400"), (b"Host: a/b", b"400"), (b"Host: a@b", b"400"),
    (b"Host: x\r\nContent-Length: 0", b"200"), (b"Host: x\r\nContent-Length: 0\r\nContent-Length: 0", b"400"),
    (b"Host: x\r\nContent-Length: 1, 1", b"400"), (b"Host: x\r\nContent-Length: -1", b"400"), (b"Host: x\r\nTransfer-Encoding: chunked", b"200"),
    (b"Host: x\r\nTransfer-Encoding: chunked\r\nContent-Length: 1", b"400"),
]


def read_twice(_):
    """Requests that another server may read otherwise: each is refused, and no byte behind it is answered."""
    wrong = []
    with site() as folder, Server(folder) as server:
        for lines, status in READ_TWICE:
            answer = server.ask(HEAD.replace(b"Host: x", lines) + HEAD)
            if not answer.startswith(b"HTTP/1.1 " + status) or answer.count(b"HTTP/1.1 ") != 1:
                wrong.append((lines, answer[:60]))
        status, told = server.end()
    yield status == 0 and not wrong, f"{len(READ_TWICE)} requests, otherwise answered: {wrong[:3]} ({told})"


def many_answers(_):
    """One connection that is asked without a pause: as many requests are answered as the words say, and the last answer closes."""
    wrong, asked = [], HEAD.replace(b"Connection: close\r\n", b"")
    with site() as folder:
        for words, most in (([], 1000), (["--answers", "7"], 7), (["--input", str(5 * len(asked))], 5)):
            with Server(folder, *words) as server:
                answers = server.ask(asked * 1100).split(b"HTTP/1.1 ")[1:]
                closing = [number for number, one in enumerate(answers, 1) if b"\r\nConnection: close\r\n" in one]
                if len(answers) != most or (closing != [most] and "--input" not in words):
                    wrong.append((words, len(answers), closing))
                status, told = server.end()
                if status != 0:
                    wrong.append((words, status, told))
    yield not wrong, f"three limits of a connection, otherwise answered: {wrong[:3]}"


OLD = b"GET /a.txt HTTP/1.0\r\n"

# Requests of HTTP/1.0 on one connection, and what the answer to each says of it; behind one that ends it none is answered.
OLD_CLIENTS = [
    ([OLD + b"Connection: keep-alive\r\n\r\n"] * 3 + [OLD + b"\r\n"] * 2, [b"keep-alive"] * 3 + [b"close"]),
    ([OLD + b"Connection: Keep-Alive\r\nConnection: close\r\n\r\n"] * 2, [b"close"]),
    ([OLD + b"connection: te , KEEP-ALIVE\r\n\r\n", OLD + b"Connection: keep-alive-not\r\n\r\n"], [b"keep-alive", b"close"]),
    ([OLD.replace(b"1.0", b"1.1") + b"Host: x\r\n\r\n", OLD + b"Connection: keep-alive\r\nContent-Length: 1\r\n\r\nx"], [b"keep-alive", b"close"]),
]


def old_clients(_):
    """Clients of HTTP/1.0: the connection of one that asks for it stays, and each answer says whether it does."""
    wrong = []
    with site() as folder, Server(folder) as server:
        for requests, owed in OLD_CLIENTS:
            answers = server.ask(b"".join(requests))
            said = re.findall(rb"HTTP/1.1 200 OK\r\nServer: sws\r\nConnection: ([a-z-]*)\r\n", answers)
            if said != owed or answers.count(b"\r\n\r\n0123456789") != len(owed):
                wrong.append((requests[-1], said))
        status, told = server.end()
    yield status == 0 and not wrong, f"{len(OLD_CLIENTS)} connections of HTTP/1.0, otherwise kept or closed: {wrong[:3]} ({told})"


def gone_on(_):
    """Downloads that were broken off: one goes on where it names the date of the page (If-Range), and gets the whole page on any other condition and once
    the page is another."""
    with site() as folder, Server(folder) as server:
        date = re.search(rb"\r\nLast-Modified: ([^\r]*)", server.ask())[1]
        at = time.strptime(date.decode(), "%a, %d %b %Y %H:%M:%S GMT")

        def behind(value):
            return server.ask(HEAD[:-2] + b"Range: bytes=4-\r\nIf-Range: " + value + b"\r\n\r\n")

        part = behind(date)
        others = [time.strftime("%a, %d %b %Y %H:%M:%S GMT", time.gmtime(calendar.timegm(at) + more)).encode() for more in (-1, 1)]
        others += [time.strftime("%A, %d-%b-%y %H:%M:%S GMT", at).encode(), b'"' + date + b'"', b'W/"x"', date[:-1], date + b"\r\nIf-Range: " + date]
        wrong = [value for value in others if not re.match(rb"HTTP/1.1 200 .*\r\n\r\n0123456789$", behind(value), re.S)]
        put(folder, "a.txt", b"abcdefghij")
        is_new = is_soon(lambda: behind(date).startswith(b"HTTP/1.1 200 "), 10)
        status, told = server.end()
    is_right = part.startswith(b"HTTP/1.1 206 ") and part.endswith(b"\r\n\r\n456789") and is_new and not wrong
    yield status == 0 and is_right, f"a half on the page's own date, the whole of another page: {part[:12]}, {is_new}; {len(others)} other conditions, otherwise: {wrong[:3]} ({told})"


# Limits of a site of four files of ten bytes, and what is said where it has more.
SITES = [(["--files", "4", "--bytes", "40"], None), (["--files", "3"], "4 files or more, and --files"), (["--bytes", "39"], "file 4 the folder has more bytes than --bytes")]


def site_limits(_):
    """A folder of four files: it is served where the limits allow it, refused by 8 and the option's name where they don't, also where a file comes later; and
    limits that are none are named."""
    wrong = []
    with site() as folder:
        for name in ("b.txt", "c.txt", "d.txt"):
            put(folder, name, b"0123456789")
        for words, cause in SITES:
            with Server(folder, *words) as server:
                if cause is None:
                    if not server.ask().endswith(b"\r\n\r\n0123456789"):
                        wrong.append((words, "isn't served"))
                    put(folder, "e.txt", b"e")
                    until = time.monotonic() + 5
                    while "5 files or more" not in server.lines() and time.monotonic() < until:
                        time.sleep(0.1)
                    if "the old files stay" not in server.lines() or not server.ask().endswith(b"\r\n\r\n0123456789") or server.end()[0] != 0:
                        wrong.append((words, server.lines()))
                    os.remove(os.path.join(folder, "e.txt"))
                elif server.child.wait(timeout=30) != 8 or cause not in server.lines():
                    wrong.append((words, server.child.returncode, server.lines()))
        for words in (["--files", "0"], ["--files", "1048577"], ["--bytes", "0"], ["--bytes", "8589934593"]):
            done = subprocess.run([staying.SWSD, folder, "--listen", "127.0.0.1:0", *words], capture_output=True, text=True, timeout=30)
            if done.returncode != 2 or f"{words[1]} is not in 1..=" not in done.stderr:
                wrong.append((words, done.returncode, done.stderr))
    yield not wrong, f"{len(SITES)} limits of a site, a file too many later, and 4 words that are refused, otherwise: {wrong[:2]}"


def answer_at(address, port):
    with socket.create_connection((address, port), timeout=30) as it:
        it.sendall(HEAD)
        got = b""
        while piece := it.recv(1 << 16):
            got += piece
    return got


def addresses(_):
    """Several addresses: each is served, beside one whose clients never end; all are ended by the stop; one that somebody has is named, and too many are."""
    wrong = []
    with site() as folder, Server(folder, "--listen", "127.0.0.2:0", "--listen", "127.0.0.3:0", "--lanes", "2", "--accepting", "1", "--connections", "20") as server:
        is_over = threading.Event()
        beside = threading.Thread(target=trickle, args=(server, 4, is_over))
        beside.start()
        until = time.monotonic() + 10
        while len(places := re.findall(r"listening at ([\d.]+):(\d+):", server.lines())) < 3 and time.monotonic() < until:
            time.sleep(0.05)
        for _ in range(100):
            for address, port in places:
                if not answer_at(address, int(port)).endswith(b"\r\n\r\n0123456789"):
                    wrong.append((address, port))
        is_over.set()
        beside.join()
        taken = ":".join(places[1])
        done = subprocess.run([staying.SWSD, folder, "--listen", "127.0.0.1:0", "--listen", taken], capture_output=True, text=True, timeout=30)
        if done.returncode != 6 or f"can't listen at {taken}:" not in done.stderr:
            wrong.append((done.returncode, done.stderr))
        status, told = server.end()
        for address, port in places:
            with contextlib.suppress(ConnectionRefusedError):
                socket.create_connection((address, int(port)), timeout=5).close()
                wrong.append((address, port, "still listens"))
        many = [word for number in range(17) for word in ("--listen", f"127.0.0.{number + 1}:0")]
        done = subprocess.run([staying.SWSD, folder, *many], capture_output=True, text=True, timeout=30)
        if done.returncode != 2 or "127.0.0.17:0" not in done.stderr:
            wrong.append((done.returncode, done.stderr))
    yield len(places) == 3 and status == 0 and not wrong, f"{len(places)} addresses, 100 requests each, otherwise: {wrong[:3]} ({told})"


LINE = re.compile(r'127\.0\.0\.1 - - \[(\d\d/[A-Z][a-z]{2}/\d{4}:\d\d:\d\d:\d\d \+0000)\] "([^"]*)" (\d{3}) (\d+) "([^"]*)" "([^"]*)"')

END = b"\r\nHost: x\r\nConnection: close\r\n"

# what a client sends, and of its line the request, the code, the length of the body (none: it isn't looked at), the referer and the agent
LOGGED = [
    (b"GET /a.txt HTTP/1.1" + END + b"\r\n", ("GET /a.txt HTTP/1.1", "200", "10", "-", "-")),
    (b"HEAD /a.txt HTTP/1.1" + END + b"\r\n", ("HEAD /a.txt HTTP/1.1", "200", "0", "-", "-")),
    (b"GET /a.txt?q=1 HTTP/1.0\r\n\r\n", ("GET /a.txt?q=1 HTTP/1.0", "200", "10", "-", "-")),
    (b"GET /none HTTP/1.1" + END + b"Referer: http://x/\r\nUser-Agent: me/1 (x; y)\r\n\r\n", ("GET /none HTTP/1.1", "404", None, "http://x/", "me/1 (x; y)")),
    (b"GET /a.txt HTTP/1.1" + END + b"Range: bytes=2-4\r\n\r\n", ("GET /a.txt HTTP/1.1", "206", "3", "-", "-")),
    (b'GET /a"b HTTP/1.1' + END + b'User-Agent: "\\\xff\t.\r\nREFERER: a" 200 1\r\n\r\n', (r"GET /a\x22b HTTP/1.1", "404", None, r"a\x22 200 1", r"\x22\x5C\xFF\x09.")),
    (b"\r\n\r\nGET /a.txt HTTP/1.1" + END + b"\r\n", ("GET /a.txt HTTP/1.1", "200", "10", "-", "-")),
    (b"\x16\x03\x01 no\x00thing\r\n\r\n", (r"\x16\x03\x01 no\x00thing", "400", None, "-", "-")),
    (b"GET /" + b"a" * 8000 + b" HTTP/1.1" + END + b"\r\n", ("GET /" + "a" * 8000 + " HTTP/1.1", "404", None, "-", "-")),
    (b"GET /" + b"a" * 9000 + b" HTTP/1.1" + END + b"\r\n", ("GET /" + "a" * 8187, "431", None, "-", "-")),
]


def is_soon(is_so, seconds=1.0):
    """Whether it is so within so many seconds."""
    until = time.monotonic() + seconds
    while not is_so():
        if time.monotonic() > until:
            return False
        time.sleep(0.02)
    return True


def log_lines(_):
    """Requests of all kinds, one after another: each has its line within a second of its answer, and no bytes of a client make another."""
    wrong = []
    with site() as folder, tempfile.NamedTemporaryFile() as output, Server(folder, "--log", output=output.name) as server:
        for number, (request, owed) in enumerate(LOGGED, 1):
            server.ask(request)
            if not is_soon(lambda: len(server.log()) >= number):
                wrong.append((number, "no line after a second"))
                break
            line = LINE.fullmatch(server.log()[number - 1])
            seen = line.groups()[1:] if line else server.log()[number - 1]
            if not line or len(server.log()) != number or any(part is not None and part != it for part, it in zip(owed, seen)):
                wrong.append((number, seen))
            elif abs(calendar.timegm(time.strptime(line[1], "%d/%b/%Y:%H:%M:%S +0000")) - time.time()) > 2:
                wrong.append((number, line[1]))
        status, told = server.end()
    yield status == 0 and not wrong, f"{len(LOGGED)} requests, otherwise logged: {str(wrong[:3])[:300]} ({told})"


def log_under_load(is_quick):
    """Connections that are asked again and again beside each other: as many lines as answers, before any generation ends."""
    count = 500 if is_quick else 5_000
    with site() as folder, tempfile.NamedTemporaryFile() as output, Server(folder, "--log", "--answers", "65535", output=output.name) as server:
        answered, first = [], server.resident()

        def ask(path):
            request = HEAD.replace(b"a.txt", path).replace(b"Connection: close\r\n", b"")
            got = server.ask(request * (count - 1) + HEAD.replace(b"a.txt", path))
            answered.append(got.count(b"HTTP/1.1 200 OK"))

        clients = [threading.Thread(target=ask, args=(path,)) for path in (b"a.txt", b"b.txt") * 2]
        for client in clients:
            client.start()
        for client in clients:
            client.join()
        is_there = is_soon(lambda: len(server.log()) == 4 * count)
        paths = [line.split(" ")[6] for line in server.log()]
        ended, most = server.generations(), server.resident()
        status, told = server.end()
    is_right = status == 0 and answered == [count] * 4 and is_there and ended == 0 and paths.count("/a.txt") == paths.count("/b.txt") == 2 * count
    yield is_right, f"4 connections of {count} requests: {answered} answered, {len(paths)} lines, {ended} generations had ended, resident {first} kB and {most} kB ({told})"


def log_unwritten(_):
    """A disk without room: that the log can't be written is said once, and the server goes on or stops, as it is told."""
    for fault, owed in (("go", 0), ("stop", 5)):
        with site() as folder, Server(folder, "--log", "--log-fault", fault, "--connections", "16", output="/dev/full") as server:
            answered = sum(server.ask().endswith(b"0123456789") for _ in range(3))
            is_said = is_soon(lambda: server.lines().count("standard output can't be written") == 1)
            has_ended = is_soon(lambda: server.child.poll() is not None, 10 if fault == "stop" else 1)
            if not has_ended:
                answered += sum(server.ask().endswith(b"0123456789") for _ in range(3))
                server.stop()
            status, said = server.child.wait(timeout=60), server.lines()
        lost = re.findall(r"[0-9]+ lines of the log were dropped", said)
        is_right = is_said and said.count("can't be written") == 1 and status == owed and (answered, has_ended) == ((6, False) if fault == "go" else (3, True))
        yield is_right, f"--log-fault {fault}: {answered} answered, status {status}, {'it ended by itself' if has_ended else 'it went on'}; {', '.join(lost)}"


CASES = [bursts, after_the_stop, kept_connections, without_proc, per_address, unwatched, proxied, dates, tricklers, moving_downloads, held_lanes, unread_files,
         bytes_in_turn, redirects, additions, read_twice, many_answers, old_clients, gone_on, site_limits, addresses, log_lines, log_under_load,
         log_unwritten]

QUICK = [bursts, after_the_stop, without_proc, per_address, unwatched, proxied, dates, tricklers, unread_files, redirects, additions, read_twice, many_answers,
         old_clients, gone_on, site_limits, addresses, log_lines, log_under_load, log_unwritten]



def run(only="", is_quick=False):
    """Runs the cases, and answers whether all went well."""
    hard = resource.getrlimit(resource.RLIMIT_NOFILE)[1]
    resource.setrlimit(resource.RLIMIT_NOFILE, (min(hard, 16_384), hard))
    all_well = True
    for case in QUICK if is_quick else CASES:
        if only in case.__name__:
            for is_right, seen in case(is_quick):
                all_well &= is_right
                print(f"{'well' if is_right else 'WRONG'}: {case.__name__}: {seen}", flush=True)
    return all_well


def main():
    words = argparse.ArgumentParser(description="Uses the server that stays up by many clients at once, some of them bad.")
    words.add_argument("--only", default="")
    words.add_argument("--quick", action="store_true")
    words.add_argument("--program", default=staying.SWSD)
    given = words.parse_args()
    staying.SWSD = given.program
    if not os.access(staying.SWSD, os.X_OK):
        sys.exit("edge: the program isn't built")
    sys.exit(0 if run(given.only, given.quick) else 1)


if __name__ == "__main__":
    main()
