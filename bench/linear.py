#!/usr/bin/env python3
"""Whether the commands of each key of `example_redis` stand in one order, as concurrent clients see it from outside.

    linear.py PROGRAM [HISTORIES]     starts the built program at a free port of this machine, on four workers
    linear.py --port PORT [HISTORIES] asks one that listens already, which takes eight more connections

Eight clients at once send random commands for two keys and note of each when it was sent, when its reply was there, and the reply: a
history. Of each key a search looks for an order of all its commands in which none stands before one whose reply was there before it
was sent, and in which a plain dictionary gives just these replies (J. Wing and C. Gong, Testing and Verifying Concurrent Objects, 1993).
A command of both keys is one of each, which began and ended together, as each key stands in an order of its own. Where there is no order, the history is printed, and the
status is 1. By default there are 1,000 histories, each with two keys of its own.
"""
import random
import re
import socket
import subprocess
import sys
import threading
import time

CLIENTS, COMMANDS, WORKERS = 8, 4, 4


def encoded(words):
    return b"*%d\r\n" % len(words) + b"".join(b"$%d\r\n%s\r\n" % (len(word), word) for word in words)


class Client:
    def __init__(self, port):
        self.socket = socket.create_connection(("127.0.0.1", port), timeout=10)
        self.socket.setsockopt(socket.IPPROTO_TCP, socket.TCP_NODELAY, 1)
        self.file = self.socket.makefile("rb")

    def ask(self, words):
        """Returns when the command was sent, when its reply was there, and the reply."""
        began = time.monotonic_ns()
        self.socket.sendall(encoded(words))
        line = self.file.readline()
        if not line:
            raise EOFError("the connection ended")
        if line.startswith(b"*"):
            reply = [self.bulk(self.file.readline()) for _ in range(int(line[1:]))]
        else:
            reply = self.bulk(line)
        return began, time.monotonic_ns(), reply

    def bulk(self, line):
        """Returns the reply that begins with this line."""
        if line.startswith(b"$") and line != b"$-1\r\n":
            return line + self.file.read(int(line[1:]) + 2)
        return line


def bulk(value):
    return b"$-1\r\n" if value is None else b"$%d\r\n%s\r\n" % (len(value), value)


def number_of(value):
    """Returns the number of 64 bits that a value is, if it is one as Redis reads it."""
    if value is None:
        return 0
    if not re.fullmatch(rb"0|-?[1-9][0-9]*", value):
        return None
    number = int(value)
    return number if -(2**63) <= number < 2**63 else None


def step(value, words):
    """Returns the value of the key and the reply after a command."""
    name, rest = words[0], words[2:]
    if name == b"GET":
        return value, bulk(value)
    if name == b"SET":
        return rest[0], b"+OK\r\n"
    if name == b"GETSET":
        return rest[0], bulk(value)
    if name == b"SETNX":
        return (value, b":0\r\n") if value is not None else (rest[0], b":1\r\n")
    if name == b"DEL":
        return None, b":%d\r\n" % (value is not None)
    if name == b"APPEND":
        longer = (value or b"") + rest[0]
        return longer, b":%d\r\n" % len(longer)
    if name == b"STRLEN":
        return value, b":%d\r\n" % len(value or b"")
    number = number_of(value)
    if number is None:
        return value, b"-ERR value is not an integer or out of range\r\n"
    if not -(2**63) <= number + 1 < 2**63:
        return value, b"-ERR increment or decrement would overflow\r\n"
    return b"%d" % (number + 1), b":%d\r\n" % (number + 1)


def parts(words, reply):
    """Returns the commands of one key each that a command is, with their replies."""
    if words[0] == b"MGET":
        return [((b"GET", key), one) for key, one in zip(words[1:], reply)]
    if words[0] == b"MSET":
        return [((b"SET", key, value), reply) for key, value in zip(words[1::2], words[2::2])]
    return [(words, reply)]


def drawn(rng, key, other):
    value = rng.choice([b"%d" % rng.randrange(100), b"text", b""])
    return rng.choice([
        (b"GET", key), (b"SET", key, value), (b"GETSET", key, value), (b"SETNX", key, value), (b"DEL", key),
        (b"APPEND", key, b"%d" % rng.randrange(10)), (b"STRLEN", key), (b"INCR", key), (b"INCR", key), (b"INCR", key),
        (b"MGET", key, other), (b"MSET", key, value, other, b"%d" % rng.randrange(100)),
    ])


def has_order(calls):
    """Whether the calls of one key, of (sent, there, words, reply), have such an order."""
    everything, seen = frozenset(range(len(calls))), set()
    todo = [(everything, None)]
    while todo:
        left, value = todo.pop()
        if not left:
            return True
        if (left, value) in seen:
            continue
        seen.add((left, value))
        first_there = min(calls[i][1] for i in left)
        for i in left:
            sent, _, words, reply = calls[i]
            if sent <= first_there:
                after, expected = step(value, words)
                if expected == reply:
                    todo.append((left - {i}, after))
    return False


def one_history(clients, number, rng):
    keys = [b"%d:%d" % (number, i) for i in range(2)]
    plans = [[drawn(rng, *rng.sample(keys, 2)) for _ in range(COMMANDS)] for _ in clients]
    calls, faults = [], []
    start = threading.Barrier(len(clients))

    def go(client, plan):
        try:
            start.wait()
            for words in plan:
                sent, there, reply = client.ask(words)
                calls.extend((sent, there, one, answer) for one, answer in parts(words, reply))
        except (OSError, EOFError, ValueError) as fault:
            faults.append(fault)

    threads = [threading.Thread(target=go, args=pair) for pair in zip(clients, plans)]
    for thread in threads:
        thread.start()
    for thread in threads:
        thread.join()
    if faults:
        sys.exit(f"linear.py: {faults[0]}")
    overlaps = sum(a[0] < b[1] and b[0] < a[1] for i, a in enumerate(calls) for b in calls[:i])
    for key in keys:
        of_key = sorted(call for call in calls if call[2][1] == key)
        if not has_order(of_key):
            print(f"history {number}: the commands of {key.decode()} stand in no order:")
            for sent, there, words, reply in of_key:
                print(f"  {sent - of_key[0][0]:>9} to {there - of_key[0][0]:>9} ns: {b' '.join(words).decode()} replied {reply!r}")
            return False, overlaps
    return True, overlaps


def main():
    words = sys.argv[1:]
    if not words:
        sys.exit(__doc__)
    program = None
    if words[0] == "--port":
        port, words = int(words[1]), words[2:]
    else:
        # One connection more is to come until the end, so that none is cut for being slow.
        program = subprocess.Popen([words[0], "0", str(CLIENTS + 1), str(WORKERS)], stdout=subprocess.PIPE, text=True)
        port, words = int(program.stdout.readline().rsplit(":", 1)[1]), words[1:]
    count, rng, wrong, overlapping = int(words[0]) if words else 1000, random.Random(1), 0, 0
    clients = [Client(port) for _ in range(CLIENTS)]
    for number in range(count):
        well, overlaps = one_history(clients, number, rng)
        wrong += not well
        overlapping += overlaps
    if program:
        clients.append(Client(port))
    for client in clients:
        client.file.close()
        client.socket.close()
    if program and program.wait(timeout=30) != 0:
        sys.exit(f"linear.py: the program ended with status {program.returncode}")
    print(f"{count} histories of {CLIENTS * COMMANDS} commands, {overlapping / count:.1f} pairs of them at once; {wrong} in no order")
    sys.exit(1 if wrong else 0)


if __name__ == "__main__":
    main()
