#!/usr/bin/env python3
"""Sends random inputs in random pieces to `swsd` over this machine's loopback, and compares what comes back with what `sws answer` writes for
the same bytes.

    bench/pieces.py [--inputs N] [--seed N] [--program PATH] [--daemon PATH]

An input is up to twenty heads, some of them wrong or long, and may end anywhere. `swsd` dates its pages and says that connections stay, and
`sws answer` doesn't, so these lines are left out, and no input asks for what `swsd` alone does. Of each input that is answered otherwise the
seed and the number are said, and the status is 1. It wants both programs built (`./sws --version`, `./swsd --version`); the server ends with
the script, and all that was made stands below the system's temporary folder and is removed.
"""
import argparse
import os
import random
import re
import socket
import subprocess
import sys
import tempfile
import time

TOP = os.path.dirname(os.path.dirname(os.path.abspath(__file__)))
SWS = os.path.join(TOP, "crates", "sws_main", "out", "sws_main")
SWSD = os.path.join(TOP, "crates", "swsd", "out", "swsd")
FILES = {"index.html": b"<p>hello", "a.txt": b"a" * 64, "sub/index.html": b"sub" * 500, "large.txt": bytes(range(256)) * 120}
METHODS = ["GET"] * 6 + ["HEAD", "POST", "get"]
TARGETS = ["/", "/a.txt", "/sub/", "/sub/index.html", "/large.txt", "/none", "/a.txt?x=1", "/%61.txt", "*", "/a b", "http://x/a.txt"]
VERSIONS = ["HTTP/1.1"] * 6 + ["HTTP/1.0", "HTTP/2.0"]
RANGES = ["0-9", "5-", "-7", "9-3", "0-0,2-3", "x"]


def make_folder(folder):
    for name, contents in FILES.items():
        path = os.path.join(folder, name)
        os.makedirs(os.path.dirname(path), exist_ok=True)
        with open(path, "wb") as file:
            file.write(contents)


def head(draw):
    version = draw.choice(VERSIONS)
    lines = [f"{draw.choice(METHODS)} {draw.choice(TARGETS)} {version}"]
    if draw.random() < 0.95:
        lines.append("Host: x")
    if draw.random() < 0.2:
        lines.append(f"Range: bytes={draw.choice(RANGES)}")
    if draw.random() < 0.15:
        lines.append(f"Connection: {draw.choice(['close', 'te' if version == 'HTTP/1.0' else 'keep-alive'])}")
    if draw.random() < 0.05:
        lines.append(f"Content-Length: {draw.choice(['0', '3'])}")
    if draw.random() < 0.05:
        lines.append("X: " + "y" * draw.randrange(4000))
    end = "\n" if draw.random() < 0.03 else "\r\n"
    return (end.join(lines) + end + end).encode()


def draw_input(draw):
    data = b"".join(head(draw) for _ in range(draw.randrange(1, 20)))
    return data[: draw.randrange(len(data))] if draw.random() < 0.1 else data


def send_in_pieces(draw, link, data):
    sent = 0
    try:
        while sent < len(data):
            piece = draw.choice([1, 7, 100, 1000, len(data)])
            link.sendall(data[sent : sent + piece])
            sent += piece
            if draw.random() < 0.05:
                time.sleep(0.001)
        link.shutdown(socket.SHUT_WR)
    except OSError:
        pass  # the server has ended the connection


def receive_all(link):
    back = []
    try:
        while piece := link.recv(65536):
            back.append(piece)
    except ConnectionResetError:
        pass
    return b"".join(back)


def undated(text):
    return re.sub(rb"Last-Modified: [^\r]*\r\n|Connection: keep-alive\r\n", b"", text)


def is_alike(draw, port, program, folder):
    data = draw_input(draw)
    owed = subprocess.run([program, "answer", folder], input=data, capture_output=True).stdout
    with socket.create_connection(("127.0.0.1", port), timeout=20) as link:
        send_in_pieces(draw, link, data)
        return undated(receive_all(link)) == undated(owed)


def start(daemon, folder):
    with socket.socket() as probe:
        probe.bind(("127.0.0.1", 0))
        port = probe.getsockname()[1]
    server = subprocess.Popen([daemon, folder, "--listen", f"127.0.0.1:{port}", "--quiet"], stdout=subprocess.DEVNULL)
    for _ in range(100):
        try:
            socket.create_connection(("127.0.0.1", port), timeout=1).close()
            return server, port
        except OSError:
            time.sleep(0.05)
    server.terminate()
    sys.exit("pieces: the server didn't come up")


def main():
    words = argparse.ArgumentParser(description="Compares swsd over sockets with sws answer.")
    words.add_argument("--inputs", type=int, default=2000)
    words.add_argument("--seed", type=int, default=1)
    words.add_argument("--program", default=SWS)
    words.add_argument("--daemon", default=SWSD)
    words = words.parse_args()
    others = []
    with tempfile.TemporaryDirectory() as folder:
        make_folder(folder)
        server, port = start(words.daemon, folder)
        try:
            for number in range(words.inputs):
                draw = random.Random(f"{words.seed} {number}")
                if not is_alike(draw, port, words.program, folder):
                    others.append(number)
        finally:
            server.terminate()
            server.wait()
    print(f"{words.inputs} inputs of seed {words.seed}: {len(others)} answered otherwise {others[:20]}")
    sys.exit(1 if others else 0)


main()
