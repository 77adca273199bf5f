#!/usr/bin/env python3
"""What `swsd` owes where a site changes under load, where the machine has too few descriptors, and where nobody reads what it says. A line a
case: what was seen, and whether it is what is owed.

    bench/lasting.py [--only WORD] [--seconds N] [--program PATH]

It wants the program built (`./swsd --version`) and uses this machine's loopback alone. `--seconds` is how long the server has too few
descriptors, 20 by default. The status is 1 where a case went otherwise.
"""
import argparse
import contextlib
import fcntl
import os
import re
import resource
import socket
import subprocess
import sys
import tempfile
import threading
import time

import staying
from staying import Server, site

PAGE = b"GET /page.html HTTP/1.1\r\nHost: x\r\n\r\n"
STYLE = b"GET /style.css HTTP/1.1\r\nHost: x\r\nConnection: close\r\n\r\n"


# ---- a site that changes

def make_version(top, number):
    """A folder whose page and style have this number, beside those of before."""
    folder = os.path.join(top, f"v{number}")
    os.makedirs(folder)
    for name in ("page.html", "style.css"):
        with open(os.path.join(folder, name), "wb") as file:
            file.write(b"<%04d>" % number)
    return folder


def deploy(top, number):
    """Puts a version in place at once, by the rename of a link."""
    link = os.path.join(top, "next")
    os.symlink(make_version(top, number), link)
    os.rename(link, os.path.join(top, "site"))


def load_page(port):
    """The numbers of the page and of the style, over one connection."""
    with socket.create_connection(("127.0.0.1", port), timeout=20) as it:
        it.sendall(PAGE + STYLE)
        got = b""
        while piece := it.recv(1 << 16):
            got += piece
    bodies = [part[:6] for part in got.split(b"\r\n\r\n")[1:]]
    return [int(body[1:5]) for body in bodies]


def load_pages(port, until, seen, faults):
    """Loads the page again and again: when the connection was opened, when the answers were there, and their number."""
    while time.monotonic() < until:
        opened = time.monotonic()
        try:
            numbers = load_page(port)
        except (OSError, ValueError) as error:
            faults.append(repr(error))
            continue
        if len(numbers) != 2 or numbers[0] != numbers[1]:
            faults.append(f"the parts of two sites on one connection: {numbers}")
        else:
            seen.append((opened, time.monotonic(), numbers[0]))


def goes_back(seen):
    """How many connections were opened after another one had got a newer site than they got."""
    events = sorted([(answered, 1, number) for _, answered, number in seen] + [(opened, 0, number) for opened, _, number in seen])
    newest, count = 0, 0
    for _, is_answer, number in events:
        if is_answer:
            newest = max(newest, number)
        elif number < newest:
            count += 1
    return count


def deploy_under_load(_):
    with tempfile.TemporaryDirectory(prefix="swsd-deploy-") as top:
        deploy(top, 1)
        with Server(os.path.join(top, "site")) as server:
            seen, faults, changes = [], [], []
            until = time.monotonic() + 14
            clients = [threading.Thread(target=load_pages, args=(server.port, until, seen, faults)) for _ in range(8)]
            for client in clients:
                client.start()
            for number in range(2, 6):
                time.sleep(2.7)
                deploy(top, number)
                changes.append((time.monotonic(), number))
            for client in clients:
                client.join()
            status, told = server.end()
    late = [max((opened - changed for opened, _, got in seen if got < number), default=0) for changed, number in changes]
    back = goes_back(seen)
    is_right = status == 0 and not faults and back == 0 and max(late) < 2 and seen[-1][2] == 5
    yield is_right, f"{len(seen)} pages over five states of a site: {len(faults)} faults {faults[:2]}, {back} of an older state than one seen before, a change last missed {max(late):.2f} s behind it ({told})"


# ---- too few descriptors

def few_descriptors(seconds):
    """Connections that are held until the machine has no descriptor left, again and again, while generations change."""
    limit = lambda: resource.setrlimit(resource.RLIMIT_NOFILE, (128, 128))
    with site() as folder, Server(folder, "--lanes", "8", "--accepting", "4", "--age", "1", "--grace", "1", preexec=limit) as server:
        threads = len(os.listdir(f"/proc/{server.child.pid}/task"))
        until = time.monotonic() + seconds
        while time.monotonic() < until:
            held = []
            for _ in range(150):
                with contextlib.suppress(OSError):
                    it = socket.create_connection(("127.0.0.1", server.port), timeout=1)
                    held.append(it)
            time.sleep(3)
            for it in held:
                it.close()
        time.sleep(5)
        alive = len(os.listdir(f"/proc/{server.child.pid}/task"))
        failures = server.lines().count("] lane ")
        answered = sum(server.ask().endswith(b"0123456789") for _ in range(60))
        status, told = server.end()
    is_right = status == 0 and alive == threads and answered == 60
    yield is_right, f"128 descriptors for {seconds} s: {failures} generations failed, {alive} of {threads} threads are left, {answered} of 60 answered afterwards ({told})"


# ---- outputs that nobody reads

def full_pipe():
    """Both ends of a pipe that takes nothing more."""
    reader, writer = os.pipe()
    fcntl.fcntl(writer, fcntl.F_SETFL, os.O_NONBLOCK)
    with contextlib.suppress(BlockingIOError):
        while True:
            os.write(writer, bytes(4096))
    fcntl.fcntl(writer, fcntl.F_SETFL, 0)
    return reader, writer


def free_port():
    with socket.socket() as it:
        it.bind(("127.0.0.1", 0))
        return it.getsockname()[1]


def ask_sixty(port):
    """How many of sixty requests are answered, with a generation for each few of them."""
    answered = 0
    until = time.monotonic() + 20
    while answered < 60 and time.monotonic() < until:
        with contextlib.suppress(OSError):
            with socket.create_connection(("127.0.0.1", port), timeout=5) as it:
                it.sendall(staying.HEAD)
                got = b""
                while piece := it.recv(1 << 16):
                    got += piece
            answered += got.endswith(b"0123456789")
    return answered


def unread(output, messages):
    """A server with these outputs: how many of sixty were answered, its status, and how long it took to end."""
    with tempfile.TemporaryDirectory(prefix="swsd-unread-") as top, site() as folder:
        port, stop = free_port(), os.path.join(top, "stop")
        words = [staying.SWSD, folder, "--listen", f"127.0.0.1:{port}", "--stop-file", stop, "--log", "--connections", "4", "--grace", "2"]
        child = subprocess.Popen(words, stdin=subprocess.DEVNULL, stdout=output, stderr=messages)
        try:
            answered = ask_sixty(port)
            open(stop, "w").close()
            began = time.monotonic()
            status = child.wait(timeout=30)
        except subprocess.TimeoutExpired:
            status = None
        finally:
            child.kill()
            child.wait()
    return answered, status, time.monotonic() - began


def unread_outputs(_):
    for name, is_output_full, is_messages_full in (("standard error", False, True), ("standard output", True, False), ("both", True, True)):
        with tempfile.TemporaryFile() as output, tempfile.TemporaryFile() as messages:
            pipes = [full_pipe(), full_pipe()]
            answered, status, took = unread(pipes[0][1] if is_output_full else output, pipes[1][1] if is_messages_full else messages)
            for ends in pipes:
                for end in ends:
                    os.close(end)
            output.seek(0)
            messages.seek(0)
            logged, said = output.read().count(b'" 200 10 "-" "-"\n'), messages.read()
        # the two lines of the totals are dropped too
        dropped = sum(int(count) for count in re.findall(rb"\] (\d+) lines of the log were dropped", said))
        is_told = is_messages_full or dropped == (62 if is_output_full else 0)
        is_logged = is_output_full or logged == 60
        is_right = answered == 60 and status == 0 and took < 12 and is_told and is_logged
        yield is_right, f"{name} a full pipe: {answered} of 60 answered, {logged} lines of the log, status {status} {took:.1f} s after the stop file, what was dropped is {'told' if is_told else 'not told'}"


def closed_pipe():
    """The end to write of a pipe that nobody reads any more."""
    read, write = os.pipe()
    os.close(read)
    return write


def closed_outputs(_):
    """Outputs whose readers have gone: who serves goes on, takes no processor for them, and ends when it is told to."""
    for name, is_output, is_messages in (("standard error", False, True), ("standard output", True, False), ("both", True, True)):
        with tempfile.TemporaryFile() as output, tempfile.TemporaryFile() as messages:
            ends = [closed_pipe(), closed_pipe()]
            answered, status, took = unread(ends[0] if is_output else output, ends[1] if is_messages else messages)
            for end in ends:
                os.close(end)
        yield answered == 60 and status == 0 and took < 12, f"{name} a pipe whose reader has gone: {answered} of 60 answered, status {status} {took:.1f} s after the stop file"


CASES = [deploy_under_load, few_descriptors, unread_outputs, closed_outputs]


def main():
    words = argparse.ArgumentParser(description="Uses the server that stays up where it is not easy to.")
    words.add_argument("--only", default="")
    words.add_argument("--seconds", type=int, default=20)
    words.add_argument("--program", default=staying.SWSD)
    given = words.parse_args()
    staying.SWSD = given.program
    if not os.access(staying.SWSD, os.X_OK):
        sys.exit("lasting: the program isn't built")
    all_well = True
    for case in CASES:
        if given.only in case.__name__:
            for is_right, seen in case(given.seconds):
                all_well &= is_right
                print(f"{'well' if is_right else 'WRONG'}: {case.__name__}: {seen}", flush=True)
    sys.exit(0 if all_well else 1)


if __name__ == "__main__":
    main()
