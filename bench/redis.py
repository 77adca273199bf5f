#!/usr/bin/env python3
"""Tries `example_redis` over sockets, as its clients see it: commands, requests in one piece and byte by byte, faults, clients beside each other,
and how it stops.

    redis.py PROGRAM        starts the built program at free ports of this machine, and says what went wrong; status 1 where anything did

What is expected is what Redis answers (https://redis.io/docs/latest/commands/), but for the limits, which are the program's own. Where `redis-server` is
installed it is asked what can be compared too, and what both answer is compared byte by byte.
"""
import itertools
import os
import random
import shutil
import socket
import subprocess
import sys
import tempfile
import threading
import time

FAULTS = []
CONNECTIONS = 11


def command(*words):
    words = [word if isinstance(word, bytes) else str(word).encode() for word in words]
    return b"*%d\r\n" % len(words) + b"".join(b"$%d\r\n%s\r\n" % (len(word), word) for word in words)


class Client:
    def __init__(self, port):
        self.socket = socket.create_connection(("127.0.0.1", port), timeout=10)
        self.bytes = b""

    def take(self, count):
        while len(self.bytes) < count:
            more = self.socket.recv(65536)
            if not more:
                raise EOFError
            self.bytes += more
        taken, self.bytes = self.bytes[:count], self.bytes[count:]
        return taken

    def line(self):
        line = b""
        while not line.endswith(b"\r\n"):
            line += self.take(1)
        return line[:-2]

    def reply(self):
        line = self.line()
        kind, rest = line[:1], line[1:]
        if kind == b":":
            return int(rest)
        if kind == b"$":
            return None if rest == b"-1" else self.take(int(rest) + 2)[:-2]
        if kind == b"*":
            return [self.reply() for _ in range(int(rest))]
        return line.decode("latin1")

    def ask(self, *words):
        self.socket.sendall(command(*words))
        return self.reply()

    def ends(self):
        try:
            return self.socket.recv(1) == b"" and not self.bytes
        except ConnectionResetError:
            return True


def expect(what, got, want, within=0):
    if got != want and not (within and abs(got - want) <= within):
        FAULTS.append(f"{what}: {str(got)[:90]}, and not {str(want)[:90]}")


NO_NUMBER = "-ERR value is not an integer or out of range"
TOO_LONG = "-ERR string exceeds maximum allowed size (proto-max-bulk-len)"
ROWS = [
    ("PING", "+PONG"), ("ping hi", b"hi"), ("ECHO x", b"x"), ("GET k", None), ("SET k v", "+OK"), ("GET k", b"v"), ("SET k w NX", None), ("GET k", b"v"),
    ("SET k w XX", "+OK"), ("GET k", b"w"), ("SET k z get", b"w"), ("SET new 1 NX GET", None), ("GET new", b"1"), ("SET none 1 XX", None),
    ("SET k 1 NX XX", "-ERR syntax error"), ("SET k 1 EX", "-ERR syntax error"), ("SET k 1 EX 5 PX 5", "-ERR syntax error"), ("SETNX k q", 0), ("SETNX fresh q", 1), ("GETSET fresh p", b"q"),
    ("GETSET fresher p", None), ("EXISTS k", 1), ("DEL k", 1), ("DEL k", 0), ("EXISTS k", 0), ("INCR n", 1), ("INCRBY n 41", 42), ("DECR n", 41),
    ("DECRBY n 50", -9), ("INCRBY n -1", -10), ("GET n", b"-10"), (f"SET n {2**63 - 1}", "+OK"), ("INCR n", "-ERR increment or decrement would overflow"),
    (f"DECRBY n {-2**63}", "-ERR decrement would overflow"), ("GET n", b"%d" % (2**63 - 1)), (f"SET n {-2**63}", "+OK"),
    ("DECR n", "-ERR increment or decrement would overflow"), ("INCR n", 1 - 2**63), ("INCR fresh", NO_NUMBER), ("SET n 007", "+OK"), ("INCR n", NO_NUMBER),
    ("SET n +7", "+OK"), ("INCR n", NO_NUMBER), ("SET n -0", "+OK"), ("INCR n", NO_NUMBER), ("INCRBY n x", NO_NUMBER), ("APPEND t ab", 2), ("APPEND t cd", 4),
    ("STRLEN t", 4), ("GET t", b"abcd"), ("STRLEN no", 0), ("COMMAND", []), ("COMMAND DOCS", []),
    ("CLIENT SETINFO x", "-ERR unknown command 'CLIENT', with args beginning with: 'SETINFO' 'x' "), ("GET", "-ERR wrong number of arguments for 'get' command"),
    ("get a b", "-ERR wrong number of arguments for 'get' command"), ("SET a", "-ERR wrong number of arguments for 'set' command"),
    (f"MGET k {'x' * 1025}", "-ERR key exceeds maximum allowed size"), (f"MSET k 1 {'x' * 1025} 1", "-ERR key exceeds maximum allowed size"), ("GET k", None),
    (f"SET {'x' * 1025} 1", "-ERR key exceeds maximum allowed size"), (f"SET big {'y' * 65536}", "+OK"), ("APPEND big z", TOO_LONG), ("STRLEN big", 65536),
]
# What is compared with Redis byte by byte, from an empty store on.
SAME = """
SET k v|GET k|SET k w NX|SET k w XX GET|SET k z NX XX|SETNX k q|GETSET k p|GETSET fresh p|STRLEN k|APPEND k more|INCR k|INCR n|DECRBY n 7|INCRBY n x
MSET a 1 b two c 3|MGET a x b k|MGET a a|EXISTS a b b x|DEL a x c|DEL b|DEL b b|EXISTS a|EXISTS|DBSIZE|DBSIZE a|MSET a|MSET a 1 b|MSET|MGET|DEL
MSET d 1 d 2|mget d d n|FLUSHALL now|FLUSHALL sync async|DBSIZE|FLUSHALL SYNC|DBSIZE|MGET d k|flushall async|FLUSHALL|SHUTDOWN soon
SET e v EX 100|TTL e|SET e w|TTL e|SET e x PX 100000 NX|SET e x KEEPTTL|EXPIRE e 100|TTL e|SET e 5 KEEPTTL GET|INCR e|APPEND e 0|TTL e|PERSIST e|PERSIST e|TTL e
GETSET e z|EXPIRE e 0|TTL e|PTTL e|EXPIRE e 5|PERSIST e|SETEX e 10 v|TTL e|SETEX e 0 v|SETEX e x v|PSETEX e -1 v|SETEX e 10|PSETEX e 100000 w|GET e|TTL e
SET e v EX 0|SET e v PX -1|SET e v EX|SET e v EX x|SET e v EX 1 PX 1|SET e v KEEPTTL EX 1|SET e v EX 9223372036854775807|SET e v PX 9223372036854775807
EXPIRE e 9223372036854775807|PEXPIRE none 9223372036854775807|EXPIRE e -9223372036854775808|PEXPIRE e x|PEXPIRE none 5|EXPIRE|EXPIRE e|TTL|TTL a b|PTTL
SET e v PXAT 1|GET e|EXISTS e|SET e v EXAT 4000000000|PEXPIREAT e 1|GET e|SET e v|EXPIREAT e 1|EXISTS e|SET e v PX 100000 XX|SET e v EXAT x|SHUTDOWN SAVE soon
ECHO|ECHO a b|GET a b|SET a|KEYS|KEYS a b|KEYS none*|QUIT
"""
# Patterns of KEYS, whose lists are compared with Redis's as sets; and what further ones are made of, and the keys that they are tried at.
PATTERNS = ["*", "**", "h?llo", "h*llo", "h[ae]llo", "h[^e]llo", "h[a-b]llo", "h[b-a]llo", "h\\?llo", "h\\*", "h[", "h[a", "h[a-", "h[^", "h[^]*", "h[]*",
            "h[\\]a]*", "h[a-]llo", "h[--9]llo", "*l*o", "*a*a*a*b", "a" * 1024, "*[", "\\", "h\\", "?", "", "?*?*?"]
SIGNS = "ab*?[]^-\\"
BAD = [
    (b"*x\r\n", "invalid multibulk length"), (b"*1\r\n+PING\r\n", "expected '$', got '+'"), (b"*1\r\n$x\r\n", "invalid bulk length"),
    (b"*1\r\n$65537\r\n", "invalid bulk length"), (b"a" * 65537, "too big inline request"),
]


def try_commands(port):
    client = Client(port)
    for words, want in ROWS:
        expect(words[:40], client.ask(*words.split(" ")), want)
    client.socket.sendall(b"\r\nPING\r\n  SET in line \nGET in\r\n*0\r\n")
    for want in ("+PONG", "+OK", b"line"):
        expect("inline", client.reply(), want)
    client.socket.sendall(b"".join(command("INCR", f"p{i % 50}") for i in range(2000)))
    expect("many at once", [client.reply() for _ in range(2000)], [i // 50 + 1 for i in range(2000)])
    for byte in command("SET", "piece", "two\r\nlines") + command("GET", "piece"):
        client.socket.sendall(bytes([byte]))
    expect("byte by byte", (client.reply(), client.reply()), ("+OK", b"two\r\nlines"))
    client.socket.sendall(command("QUIT") + command("PING"))
    expect("QUIT", (client.reply(), client.ends()), ("+OK", True))


def try_faults(port):
    for sent, words in BAD:
        client = Client(port)
        client.socket.sendall(command("SET", "kept", "yes") + sent)
        expect(repr(sent[:20]), (client.reply(), client.reply(), client.ends()), ("+OK", "-ERR Protocol error: " + words, True))


def try_beside(port):
    still = Client(port)
    still.socket.sendall(b"*2\r\n$3\r\nGET\r\n$1")
    sums = []

    def add():
        client = Client(port)
        sums.extend(client.ask("INCR", "both") for _ in range(1000))
        client.socket.close()

    threads = [threading.Thread(target=add) for _ in range(2)]
    for one in threads:
        one.start()
    for one in threads:
        one.join(timeout=60)
    expect("two clients beside each other", sorted(sums), list(range(1, 2001)))
    still.socket.close()


def try_times(port):
    """Values that go: not before their time, and at once then, for each command."""
    client, began = Client(port), time.monotonic()
    expect("a short time", [client.ask("SET", f"gone{i}", i, "PX", 400) for i in range(64)], ["+OK"] * 64)
    expect("a long time", (client.ask("SETEX", "stays", 100, 1), client.ask("TTL", "stays"), client.ask("INCR", "stays")), ("+OK", 100, 2))
    here, took = client.ask("EXISTS", *[f"gone{i}" for i in range(64)]), time.monotonic() - began
    expect("values before their time", here == 64 or took >= 0.4, True)
    count = client.ask("DBSIZE")
    time.sleep(0.5)
    expect("values behind their time", client.ask("MGET", *[f"gone{i}" for i in range(64)]), [None] * 64)
    expect("the keys that are counted", count - client.ask("DBSIZE") if took < 0.3 else 64, 64)
    expect("a key that is set again", (client.ask("SET", "gone1", 5, "NX"), client.ask("INCR", "gone2"), client.ask("APPEND", "gone3", "x")), ("+OK", 1, 1))
    expect("no time again", (client.ask("TTL", "gone1"), client.ask("PTTL", "gone2"), client.ask("DEL", "gone4"), client.ask("TTL", "gone5")), (-1, -1, 0, -2))
    left = client.ask("PTTL", "stays")
    expect("the time that is left", 90000 < left < 99600, True)
    client.socket.close()


def told(port, sent):
    """Returns all that is told to a client that sends this and then waits for the end."""
    with socket.create_connection(("127.0.0.1", port), timeout=10) as client:
        client.sendall(sent)
        return b"".join(iter(lambda: client.recv(65536), b""))


def try_patterns(port, other):
    """KEYS, as Redis answers it but for the order."""
    ours, theirs, chance = Client(port), Client(other), random.Random(7)
    words = lambda most: "".join(chance.choice(SIGNS) for _ in range(chance.randint(1, most)))
    keys = ["hello", "hallo", "hbllo", "hllo", "heello", "h?llo", "h*", "h]llo", "h-llo", "h5llo", "h", "h\\", "hla", "a" * 30 + "b"] + [words(4) for _ in range(300)]
    for client in (ours, theirs):
        expect("keys for patterns", client.ask("MSET", *[word for key in keys for word in (key, 1)]), "+OK")
        expect("a key that goes", (client.ask("SET", "hgone", 1, "PX", 1), time.sleep(0.05))[0], "+OK")
    for pattern in PATTERNS + [words(7) for _ in range(3000)]:
        got, want = ours.ask("KEYS", pattern), theirs.ask("KEYS", pattern)
        expect(f"KEYS {pattern[:40]}", sorted(got), sorted(want))
    began = time.monotonic()
    ours.ask("SET", "a" * 1024, 1)
    expect("a pattern of many stars", ours.ask("KEYS", "*a" * 300 + "b"), [])
    expect("its time", time.monotonic() - began < 1, True)
    expect("a pattern that is too long", ours.ask("KEYS", "x" * 1025), "-ERR key exceeds maximum allowed size")


def try_beside_redis(program):
    if not shutil.which("redis-server"):
        return print("redis-server isn't here: nothing is compared with it")
    with socket.socket() as free, tempfile.TemporaryDirectory() as folder:
        free.bind(("127.0.0.1", 0))
        port = free.getsockname()[1]
        free.close()
        words = ["redis-server", "--port", str(port), "--bind", "127.0.0.1", "--save", "", "--appendonly", "no", "--dir", folder]
        redis = subprocess.Popen(words, stdout=subprocess.DEVNULL, stderr=subprocess.DEVNULL)
        ours = subprocess.Popen([program, "0", "2", "4"], stdout=subprocess.PIPE, text=True)
        try:
            for _ in range(200):
                with socket.socket() as tried:
                    if tried.connect_ex(("127.0.0.1", port)) == 0:
                        break
                time.sleep(0.05)
            requests = [line.split(" ") for line in SAME.strip().replace("\n", "|").split("|")]
            sent = b"".join(command(*request) for request in requests)
            own = int(ours.stdout.readline().rsplit(":", 1)[1])
            got, want = told(own, sent), told(port, sent)
            for number, (one, other) in enumerate(zip(got.split(b"\r\n"), want.split(b"\r\n"))):
                expect(f"line {number} of what Redis answers", one, other)
            expect("how many bytes Redis answers", len(got), len(want))
            try_patterns(own, port)
        finally:
            redis.kill()
            ours.kill()


def try_to_stop(program):
    """A stop file, and SHUTDOWN: nobody is taken any more, who is there is cut, and the file is written."""
    with tempfile.TemporaryDirectory() as folder:
        kept, stop = os.path.join(folder, "kept"), os.path.join(folder, "stop")
        words = [program, "0", "1024", "4", "--stop-file", stop, "--file", kept]
        for way in ("the stop file", "SHUTDOWN"):
            one = subprocess.Popen(words, stdout=subprocess.PIPE, text=True)
            try:
                port = int(one.stdout.readline().rsplit(":", 1)[1])
                idle, client = Client(port), Client(port)
                expect(f"{way}: the value before", client.ask("GET", "kept"), None if way == "the stop file" else b"1")
                expect(f"{way}: a number", client.ask("INCR", "kept"), 1 if way == "the stop file" else 2)
                if way == "SHUTDOWN":
                    expect(f"{way}: the time that was kept", client.ask("TTL", "goes"), 4000000000 - round(time.time()), 1)
                    expect(f"{way}: what wasn't kept", client.ask("EXISTS", "went"), 0)
                    client.socket.sendall(command("SHUTDOWN", "SAVE"))
                    expect(f"{way}: the end", client.ends(), True)
                else:
                    expect(f"{way}: times", (client.ask("SET", "goes", "late", "EXAT", 4000000000), client.ask("SET", "went", 1, "PX", 100)), ("+OK", "+OK"))
                    time.sleep(0.2)
                    open(stop, "w").close()
                began = time.monotonic()
                said = one.communicate(timeout=20)[0]
                expect(f"{way}: within its grace", time.monotonic() - began < 8, True)
                expect(f"{way}: its last line", said.startswith(("0 ", "1 ", "2 ")) and " connections were served, and " in said, True)
                expect(f"{way}: its status", one.returncode, 0)
                expect(f"{way}: who is there", idle.ends(), True)
            finally:
                one.kill()
            if os.path.exists(stop):
                os.remove(stop)
        with open(kept, "rb") as file:
            both = {command("SET", "kept", "2"), command("SET", "goes", "late", "PXAT", 4000000000000)}
            expect("what is kept", file.read() in {b"".join(order) + command("QUIT") for order in itertools.permutations(both)}, True)


def main():
    if len(sys.argv) != 2:
        sys.exit(__doc__)
    program = subprocess.Popen([sys.argv[1], "0", str(CONNECTIONS), "4"], stdout=subprocess.PIPE, text=True)
    try:
        port = int(program.stdout.readline().rsplit(":", 1)[1])
        try_commands(port)
        try_faults(port)
        try_beside(port)
        try_times(port)
        # The last one comes now, as none is cut for being slow before.
        Client(port).socket.close()
        expect("its last line", program.communicate(timeout=20)[0], f"{CONNECTIONS} connections were served, and 0 failed\n")
        expect("its status", program.returncode, 0)
    finally:
        program.kill()
    try_beside_redis(sys.argv[1])
    try_to_stop(sys.argv[1])
    print("\n".join(FAULTS) if FAULTS else "all as expected")
    sys.exit(1 if FAULTS else 0)


main()
