#!/usr/bin/env python3
"""Talks in rooms of `example_chat_server` on this machine's loopback, and says a line a case: whether all saw what they are owed.

    bench/chat.py [--program PATH] [--only WORD]

It wants the program built (`rt run` in `crates/example_chat_server`, or `--program`). With 1, 2 and 4 workers and 2, 16 and 100 clients, each client says some
lines, at once with the others. Each is to be shown each line of the others once and none of its own, each whole, those of one client in the order in
which it said them, and all lines in one order that all see. Then come clients that hang up in mid-line, that say a line that is too long, and that take
nothing of what they are shown. Each case has a server of its own, which ends by itself or is ended; each wait is bounded. The status is 1 where a case
went otherwise.
"""
import argparse
import os
import select
import socket
import subprocess
import sys
import threading
import time

TOP = os.path.dirname(os.path.dirname(os.path.abspath(__file__)))
PROGRAM = os.path.join(TOP, "crates", "example_chat_server", "out", "example_chat_server")
PATIENCE = 60


class Room:
    """A server for so many clients, of so many workers; behind it, it is ended, if it hasn't ended by itself."""

    def __init__(self, program, clients, workers):
        words = [program, "0", str(clients), str(workers)]
        self.child = subprocess.Popen(words, stdin=subprocess.DEVNULL, stdout=subprocess.PIPE, stderr=subprocess.PIPE, text=True)
        ready, _, _ = select.select([self.child.stdout], [], [], PATIENCE)
        line = self.child.stdout.readline() if ready else ""
        if not line.startswith("listening on "):
            self.child.kill()
            raise SystemExit(f"it said {line!r} in place of where it listens")
        self.port = int(line.rsplit(":", 1)[1])

    def enter(self):
        client = socket.create_connection(("127.0.0.1", self.port), timeout=PATIENCE)
        client.setsockopt(socket.IPPROTO_TCP, socket.TCP_NODELAY, 1)
        return client

    def end(self):
        """What the server wrote and how it ended, once all have left."""
        try:
            out, err = self.child.communicate(timeout=PATIENCE)
        except subprocess.TimeoutExpired:
            self.child.kill()
            out, err = self.child.communicate()
            return out, err, None
        return out, err, self.child.returncode

    def __enter__(self):
        return self

    def __exit__(self, *_):
        if self.child.poll() is None:
            self.child.kill()
            self.child.wait()


def take_lines(client, count, into):
    """Takes so many whole lines, or as many as come."""
    rest = b""
    while len(into) < count:
        try:
            piece = client.recv(65536)
        except OSError:
            return
        if not piece:
            return
        *lines, rest = (rest + piece).split(b"\n")
        into.extend(line.decode() for line in lines)


def is_everybody_there(clients):
    """Each says a line in turn, and waits until all others have it. The last goes first: when the server hears it, it has taken the connections of
    all others. Answers the number by which each is shown."""
    names = {}
    for place, client in reversed(list(enumerate(clients))):
        client.sendall(b"here %d\n" % place)
        for other in clients:
            if other is not client:
                got = []
                take_one(other, got)
                if not got or not got[0].endswith(f": here {place}"):
                    return None
                names[place] = got[0].split(":")[0]
    return names


def take_one(client, into):
    """Takes one line, byte by byte, so that nothing behind it is taken."""
    line = b""
    while not line.endswith(b"\n"):
        try:
            piece = client.recv(1)
        except OSError:
            return
        if not piece:
            return
        line += piece
    into.append(line[:-1].decode())


def merged(views, names, said):
    """The one order of all lines that the views show, each of which lacks the viewer's own; None where there is none."""
    tails = [list(view) for view in views]
    own = [[f"{names[place]}: {text}" for text in said[place]] for place in range(len(views))]
    order = []
    total = sum(len(lines) for lines in said)
    while len(order) < total:
        for place in range(len(views)):
            # the next line of `place`, if it is the next one for everybody else
            if not own[place]:
                continue
            line = own[place][0]
            if all(other == place or (tails[other] and tails[other][0] == line) for other in range(len(views))):
                order.append(line)
                own[place].pop(0)
                for other in range(len(views)):
                    if other != place:
                        tails[other].pop(0)
                break
        else:
            return None
    return order if not any(tails) else None


def talk(program, count, workers, lines):
    """So many clients say so many lines each, all at once."""
    with Room(program, count, workers) as room:
        clients = [room.enter() for _ in range(count)]
        names = is_everybody_there(clients)
        if names is None or len(set(names.values())) != count:
            return "not everybody came, or two have one number"
        said = [[f"{place} says {number}" for number in range(lines)] for place in range(count)]
        views = [[] for _ in clients]
        takers = [threading.Thread(target=take_lines, args=(client, lines * (count - 1), view), daemon=True) for client, view in zip(clients, views)]
        for taker in takers:
            taker.start()
        begun = time.monotonic()
        tellers = [threading.Thread(target=lambda c=client, t=texts: c.sendall("".join(f"{x}\n" for x in t).encode()), daemon=True) for client, texts in zip(clients, said)]
        for teller in tellers:
            teller.start()
        for thread in tellers + takers:
            thread.join(PATIENCE)
        took = time.monotonic() - begun
        if any(len(view) != lines * (count - 1) for view in views):
            return f"{sum(len(view) for view in views)} lines came of {lines * count * (count - 1)}"
        if merged(views, names, said) is None:
            return "there is no one order of what was seen"
        for client in clients:
            client.close()
        out, err, status = room.end()
        left = sum(line.endswith(" left") for line in out.splitlines())
        if status != 0 or err or left != count:
            return f"status {status}, {left} left, {err.strip()!r}"
        return f"ok {lines * count} lines, each shown {count - 1} times, {took:.2f} s"


def say_and_end(room, clients):
    """The first says a line, which all others see next; then all leave. Answers what went otherwise, and what the server wrote."""
    clients[0].sendall(b"still here\n")
    for other in clients[1:]:
        got = []
        take_one(other, got)
        if not got or not got[0].endswith(": still here"):
            return f"{got} was seen in place of the line", "", ""
    for client in clients:
        client.close()
    out, err, status = room.end()
    return (None if status == 0 else f"status {status}"), out, err


def hang_up(program, workers):
    """One hangs up in mid-line: its whole line is seen, and its piece isn't."""
    with Room(program, 3, workers) as room:
        clients = [room.enter() for _ in range(3)]
        if is_everybody_there(clients) is None:
            return "not everybody came"
        clients[0].sendall(b"whole\nhalf a li")
        clients[0].close()
        for other in clients[1:]:
            got = []
            take_one(other, got)
            if not got or not got[0].endswith(": whole"):
                return f"{got} was seen in place of the whole line"
        fault, out, err = say_and_end(room, clients[1:])
        if fault or err or out.count(" left") != 3:
            return fault or f"{out!r} {err!r}"
        return "ok the piece was shown to nobody"


def long_line(program, workers):
    """One says a line that is too long: it is dropped and named, and nobody sees the line."""
    with Room(program, 3, workers) as room:
        clients = [room.enter() for _ in range(3)]
        if is_everybody_there(clients) is None:
            return "not everybody came"
        clients[0].sendall(b"x" * 513 + b"\n")
        try:
            if clients[0].recv(1):
                return "it was shown something"
        except ConnectionResetError:
            pass
        fault, out, err = say_and_end(room, clients[1:])
        clients[0].close()
        if fault or err.count("too long") != 1 or out.count(" left") != 2:
            return fault or f"{out!r} {err!r}"
        return "ok it was dropped and named"


def slow(program, workers):
    """One takes nothing: it is dropped and named, and the third is shown all that the second says."""
    lines = 16_000
    with Room(program, 3, workers) as room:
        clients = [room.enter() for _ in range(3)]
        clients[0].setsockopt(socket.SOL_SOCKET, socket.SO_RCVBUF, 4096)
        if is_everybody_there(clients) is None:
            return "not everybody came"
        view = []
        taker = threading.Thread(target=take_lines, args=(clients[2], lines, view), daemon=True)
        taker.start()
        clients[1].sendall(b"".join(b"%0500d\n" % number for number in range(lines)))
        taker.join(PATIENCE)
        if [int(line.split(": ")[1]) for line in view] != list(range(lines)):
            return f"{len(view)} lines came of {lines}, or in another order"
        fault, out, err = say_and_end(room, clients[1:])
        clients[0].close()
        if fault or err.count("didn't take") != 1 or out.count(" left") != 2:
            return fault or f"{out!r} {err!r}"
        return "ok it was dropped and named"


def refusals(program):
    """Wrong words, and a port that is taken."""
    for words in ([], ["x", "2"], ["0", "0"], ["0", "1025"], ["0", "2", "65"], ["70000", "2"], ["0", "2", "1", "1"]):
        ran = subprocess.run([program, *words], capture_output=True, text=True, timeout=PATIENCE)
        if ran.returncode != 2 or not ran.stderr.startswith("usage:") or ran.stdout:
            return f"{words} ended with {ran.returncode}"
    with socket.socket() as taken:
        taken.bind(("127.0.0.1", 0))
        taken.listen()
        ran = subprocess.run([program, str(taken.getsockname()[1]), "2"], capture_output=True, text=True, timeout=PATIENCE)
        if ran.returncode != 6 or "can't listen" not in ran.stderr:
            return f"a port that is taken ended with {ran.returncode}, {ran.stderr!r}"
    return "ok"


def cases(program):
    for workers in (1, 2, 4):
        for count, lines in ((2, 50), (16, 20), (100, 2)):
            yield f"{count} clients on {workers} workers", lambda c=count, w=workers, k=lines: talk(program, c, w, k)
        yield f"a hang-up in mid-line on {workers} workers", lambda w=workers: hang_up(program, w)
        yield f"a line that is too long on {workers} workers", lambda w=workers: long_line(program, w)
        yield f"a client that takes nothing on {workers} workers", lambda w=workers: slow(program, w)
    yield "refusals", lambda: refusals(program)


def main():
    words = argparse.ArgumentParser(description=__doc__, formatter_class=argparse.RawDescriptionHelpFormatter)
    words.add_argument("--program", default=PROGRAM)
    words.add_argument("--only", default="", help="the cases whose name has this word")
    order = words.parse_args()
    if not os.path.exists(order.program):
        raise SystemExit(f"{order.program} isn't built: rt run in crates/example_chat_server")
    is_well = True
    for name, case in cases(order.program):
        if order.only in name:
            told = case()
            is_well = is_well and told.startswith("ok")
            print(f"{name}: {told}", flush=True)
    sys.exit(0 if is_well else 1)


if __name__ == "__main__":
    main()
