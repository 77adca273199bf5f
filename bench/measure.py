#!/usr/bin/env python3
"""Measures `sws answer`, a shard, a lock, a chain, a fleet, scripts and transcripts beside their peers, and a weave and a connection,
in one run, and prints a table.

    bench/measure.py [--runs N]

It wants both programs built (`./sws` builds the server, `rt run` in crates/measure the other) and cargo with Debian's
librust-httparse-dev, librust-httpdate-dev, librust-memchr-dev and librust-percent-encoding-dev. All that it makes stands in a new
folder below the system's temporary one, about 400 MB, and is removed at the end. No traffic leaves the machine: both programs read a file and
write to a file or to nothing. Times are seconds on a processor (user and system), the least of all runs, so that they say
little of what else the machine does; but how much faster several workers are is by the clock, so it wants a machine
that does nothing else, and the calls of the system that wake and sleep are counted where strace is there.
"""
import argparse
import itertools
import os
import random
import shutil
import subprocess
import sys
import tempfile
import time

TOP = os.path.dirname(os.path.dirname(os.path.abspath(__file__)))
SWS = os.path.join(TOP, "crates", "sws_main", "out", "sws_main")
MEASURE = os.path.join(TOP, "crates", "measure", "out", "measure")
PEER = os.path.join(TOP, "bench", "peer")

BROWSER_HEAD = "\r\n".join([
    "GET / HTTP/1.1", "Host: localhost:8080",
    "User-Agent: Mozilla/5.0 (X11; Linux x86_64; rv:128.0) Gecko/20100101 Firefox/128.0",
    "Accept: text/html,application/xhtml+xml,application/xml;q=0.9,*/*;q=0.8",
    "Accept-Language: en-US,en;q=0.5", "Accept-Encoding: gzip, deflate, br",
    "Connection: keep-alive", "Upgrade-Insecure-Requests: 1",
    "Sec-Fetch-Dest: document", "Sec-Fetch-Mode: navigate", "", "",
]).encode()


def run(words, given, out):
    """Runs a program once: its seconds on a processor, and its largest resident size in bytes."""
    child = subprocess.Popen(words, stdin=given, stdout=out)
    _, status, usage = os.wait4(child.pid, 0)
    if status != 0:
        sys.exit(f"measure: {words} ended with {status}")
    return usage.ru_utime + usage.ru_stime, usage.ru_maxrss * 1024


def alternate(programs, runs):
    """The least of each program's seconds and sizes, with the runs of all in turn."""
    seen = {name: [] for name in programs}
    for _ in range(runs):
        for name, (words, given) in programs.items():
            with open(given, "rb") as source:
                seen[name].append(run(words, source, subprocess.DEVNULL))
    return {name: tuple(min(column) for column in zip(*rows)) for name, rows in seen.items()}


def put(path, content):
    os.makedirs(os.path.dirname(path), exist_ok=True)
    with open(path, "wb") as file:
        file.write(content)
    return path


def heads(folder, runs, peer):
    """Microseconds a request: what 64 pipelined heads take beyond what no head takes."""
    site = os.path.join(folder, "small")
    put(os.path.join(site, "index.html"), b"hi\n")
    none = put(os.path.join(folder, "none"), b"")
    many = put(os.path.join(folder, "many"), BROWSER_HEAD * 64)
    programs = {}
    for name, words in (("sws", [SWS, "answer", site]), ("peer", [peer, site])):
        programs[name, 0] = (words, none)
        programs[name, 64] = (words, many)
    seen = alternate(programs, runs)
    for name in ("sws", "peer"):
        micros = (seen[name, 64][0] - seen[name, 0][0]) / 64 * 1e6
        print(f"| a browser's head, 64 in a row | {name} | {micros:.2f} us a request |")


def loading(folder):
    """Seconds and bytes of loading 4,096 files of 200 MB in all, beside `cat` of the same files."""
    site = os.path.join(folder, "large")
    some = random.Random(1).randbytes(65_536)
    left = 200_000_000
    for number in range(4096):
        size = left // (4096 - number)
        left -= size
        put(os.path.join(site, f"d{number % 16}", f"f{number}.bin"), some[:size])
    none = put(os.path.join(folder, "none"), b"")
    everything = ["find", site, "-type", "f", "-exec", "cat", "{}", "+"]
    seen = alternate({"sws": ([SWS, "answer", site], none), "cat": (everything, none)}, 7)
    print(f"| loading 4,096 files, 200 MB | sws | {seen['sws'][0] * 1000:.0f} ms, {seen['sws'][1] / 1e6:.0f} MB |")
    print(f"| reading the same files | cat | {seen['cat'][0] * 1000:.0f} ms |")


def large_body(folder, peer):
    """Seconds and bytes of answering one request for 100 MB."""
    site = os.path.join(folder, "body")
    put(os.path.join(site, "big.bin"), b"x" * 100_000_000)
    get = put(os.path.join(folder, "get"), b"GET /big.bin HTTP/1.1\r\nHost: x\r\n\r\n")
    seen = alternate({"sws": ([SWS, "answer", site], get), "peer": ([peer, site], get)}, 7)
    for name in ("sws", "peer"):
        print(f"| a body of 100 MB | {name} | {seen[name][0] * 1000:.0f} ms, {seen[name][1] / 1e6:.0f} MB |")


def shard(folder, peer, floor):
    """Nanoseconds an event: a million events on 1,024 colours, registered, taken, run by an empty handler and finished;
    the second peer keeps a history and trails as a shard does."""
    none = put(os.path.join(folder, "none"), b"")
    for batch in (1, 10):
        programs = {}
        for name, program in (("shard", [MEASURE, "shard"]), ("peer", [peer]), ("peer with history and trail", [floor])):
            for events in (0, 1_000_000):
                programs[name, events] = ([*program, str(events), str(batch)], none)
        seen = alternate(programs, 9)
        for name in ("shard", "peer", "peer with history and trail"):
            nanos = (seen[name, 1_000_000][0] - seen[name, 0][0]) * 1000
            print(f"| an event in batches of {batch} | {name} | {nanos:.0f} ns |")


def lock(folder, peer):
    """Nanoseconds a pair of going in and out of one lock, by how many threads do; `shard` is the lock of a fleet's shard."""
    none = put(os.path.join(folder, "none"), b"")
    pairs = 320_000
    for threads in (1, 2, 4, 64):
        programs = {}
        kinds = {kind: [MEASURE, "lock", kind] for kind in ("ticketed", "shard", "mutex")}
        for name, words in (*kinds.items(), ("peer", [peer])):
            for count in (0, pairs // threads):
                programs[name, count > 0] = (words + [str(threads), str(count)], none)
        seen = alternate(programs, 9)
        for name in ("ticketed", "shard", "mutex", "peer"):
            nanos = (seen[name, True][0] - seen[name, False][0]) / pairs * 1e9
            print(f"| in and out of a lock, {threads} threads | {name} | {nanos:.0f} ns |")


def chain(folder, peer):
    """Nanoseconds a call on a chain of so many marks: a mark taken out and pushed again, or a report."""
    none = put(os.path.join(folder, "none"), b"")
    for marks, calls in ((64, 4_000_000), (4096, 4_000_000), (65_536, 4_000_000)):
        for call in ("pop", "pick", "retell"):
            programs = {}
            for name, program in (("chain", [MEASURE, "chain"]), ("peer", [peer])):
                for count in (0, calls):
                    programs[name, count] = ([*program, call, str(marks), str(count)], none)
            seen = alternate(programs, 9)
            what = {"pop": "pop and push", "pick": "pick and push", "retell": "retell"}[call]
            for name in ("chain", "peer"):
                nanos = (seen[name, calls][0] - seen[name, 0][0]) / calls * 1e9
                print(f"| {what}, {marks} marks | {name} | {nanos:.0f} ns |")


def weave(folder):
    """Nanoseconds a step of a weave of 4 cores on so many colours, with one event a colour under way, by how many steps are made."""
    none = put(os.path.join(folder, "none"), b"")
    for colours, passes in ((64, 40), (64, 400), (64, 4000), (1024, 25), (1024, 250), (16384, 2), (16384, 15)):
        steps = {}
        programs = {}
        for count in (0, passes):
            words = [MEASURE, "weave", str(colours), str(count)]
            steps[count] = int(subprocess.run(words, capture_output=True, check=True).stdout.split()[0])
            programs[count] = (words, none)
        seen = alternate(programs, 5)
        made = steps[passes] - steps[0]
        nanos = (seen[passes][0] - seen[0][0]) / made * 1e9
        print(f"| a step of {made:,} on {colours:,} colours | weave | {nanos:.0f} ns, {1e9 / nanos:,.0f} steps a second |")


def connections(folder):
    """Microseconds a request on a connection over memory, by the pieces in which 64 heads come: what serving takes beyond making the links."""
    # The C library is to keep what is freed: else it gives the heap's top back in each round, or doesn't, by what lies there last.
    os.environ.update({"MALLOC_TRIM_THRESHOLD_": "1000000000", "MALLOC_TOP_PAD_": "67108864"})
    none = put(os.path.join(folder, "none"), b"")
    for piece, rounds in ((0, 2000), (4096, 2000), (7, 200), (1, 50)):
        programs = {kind: ([MEASURE, "conn", kind, str(rounds), str(piece)], none) for kind in ("serve", "make")}
        seen = alternate(programs, 9)
        micros = (seen["serve"][0] - seen["make"][0]) / (rounds * 64) * 1e6
        pieces = f"pieces of {piece:,} bytes" if piece > 1 else "pieces of 1 byte" if piece == 1 else "one piece"
        print(f"| a browser's head on a connection, 64 in {pieces} | serve_one | {micros:.2f} us a request |")


def texts(folder, peers):
    """Seconds of reading a script of 16 MB, and of printing the transcript of a connection with 100 MB of responses."""
    send = b"send " + BROWSER_HEAD.replace(b"\r\n", b"~") + b"\n"
    front = b"sws-script 1\nconn\n"
    script = put(os.path.join(folder, "script"), front + send * ((16_777_216 - len(front)) // len(send)))
    line = bytes(random.Random(1).choices(b"abcdefghijklmnopqrstuvwxyz <>/=\"", k=75)) + b"\n"
    head = b"HTTP/1.1 200 OK\r\nServer: sws\r\nContent-Type: text/html\r\nContent-Length: 3040\r\n\r\n"
    response = head + line * 40
    responses = put(os.path.join(folder, "responses"), response * (100_000_000 // len(response)))
    for what, given in (("script", script), ("transcript", responses)):
        seen = alternate({"measure text": ([MEASURE, "text", what], given), "peer": ([os.path.join(peers, what)], given)}, 7)
        for name in ("measure text", "peer"):
            size = os.path.getsize(given) / 1e6
            print(f"| a {what} of {size:.0f} MB | {name} | {seen[name][0] * 1000:.0f} ms |")


def clocked(commands):
    """Seconds by the clock until programs that are started together have all ended."""
    start = time.monotonic()
    children = [subprocess.Popen(words, stdout=subprocess.DEVNULL) for words in commands]
    if any(child.wait() != 0 for child in children):
        sys.exit(f"measure: one of {commands} failed")
    return time.monotonic() - start


def events(folder, programs):
    """Nanoseconds an event that is passed on, by one worker, in batches of 1 and of 10, over 1, 8 and 64 shards."""
    none = put(os.path.join(folder, "none"), b"")
    colours, passes = 64, 8000
    for batch, shards in ((1, 8), (10, 1), (10, 8), (10, 64)):
        runs = {}
        for name, program in programs.items():
            for count in (0, passes):
                runs[name, count] = ([*program, "1", str(shards), str(colours), str(count), "0", str(batch)], none)
        seen = alternate(runs, 7)
        for name in programs:
            nanos = (seen[name, passes][0] - seen[name, 0][0]) / (colours * passes) * 1e9
            print(f"| an event passed on by one worker, batches of {batch}, {shards} shards | {name} | {nanos:.0f} ns |")


def wakes(folder, programs):
    """Calls of the system that wake or sleep, an event, while one worker works and nobody sleeps."""
    if shutil.which("strace") is None:
        return
    for name, program in programs.items():
        calls = {}
        for passes in (0, 1000):
            counted = os.path.join(folder, "calls")
            words = ["strace", "-f", "-c", "-e", "trace=futex", "-o", counted, *program, "1", "8", "64", str(passes), "0", "10"]
            subprocess.run(words, stdout=subprocess.DEVNULL, check=True)
            lines = [line.split() for line in open(counted) if line.rstrip().endswith("futex")]
            calls[passes] = int(lines[0][3]) if lines else 0
        print(f"| futex calls of 64,000 events, one worker | {name} | {calls[1000] - calls[0]} |")


def speedup(programs):
    """How much faster 2, 3 and 4 workers are than one, by the clock, with handlers of about 10 us and 1 us, over 1, 8 and 64 shards:
    events that are passed on to a colour that is drawn, and events that stay on theirs. A run of one worker takes about two seconds,
    beside which the start of the threads and the colours that end last don't count."""
    for way, (rounds, passes) in itertools.product(("drawn", "stay"), ((62_000, 3_000), (5_000, 20_000))):
        for shards in (1, 8, 64):
            for name, program in programs.items():
                least = {}
                for workers in (1, 2, 3, 4):
                    words = [*program, str(workers), str(shards), "64", str(passes), str(rounds), "10"]
                    least[workers] = min(clocked([words + ["stay"] * (way == "stay")]) for _ in range(3))
                micros = least[1] / (64 * (passes + 1)) * 1e6
                times = ", ".join(f"{least[1] / least[workers]:.2f}" for workers in (2, 3, 4))
                print(f"| 2, 3 and 4 workers, events of {micros:.1f} us ({way}), {shards} shards | {name} | {times} times as fast |")


def bound(program):
    """What the processors give programs that share nothing: how much faster four runs of one worker end at once than one by one."""
    words = [*program, "1", "1", "64", "1000", "62000", "10"]
    alone = min(clocked([words]) for _ in range(3))
    together = min(clocked([words] * 4) for _ in range(3))
    print(f"| four runs of one worker at once, events of 10 us | fleet | {4 * alone / together:.2f} times as fast as in turn |")


def fleet(folder, peer):
    """A fleet with a thread for each worker beside the same in plain Rust, which keeps no history and no trail."""
    programs = {"fleet": [MEASURE, "fleet"], "peer": [peer]}
    events(folder, programs)
    wakes(folder, programs)
    bound(programs["fleet"])
    speedup(programs)


def main():
    words = argparse.ArgumentParser(description="Measures the answer command beside its peers.")
    words.add_argument("--runs", type=int, default=400, help="runs of each program over heads (default 400)")
    runs = words.parse_args().runs
    for program in (SWS, MEASURE):
        if not os.access(program, os.X_OK):
            sys.exit(f"measure: {program} isn't built")
    subprocess.run(["cargo", "build", "--release", "--offline", "--quiet"], cwd=PEER, check=True)
    peers = os.path.join(PEER, "target", "release")
    peer = os.path.join(peers, "answer")
    folder = tempfile.mkdtemp(prefix="sws-measure-")
    try:
        print("| what | program | figure |\n|---|---|---|")
        heads(folder, runs, peer)
        loading(folder)
        large_body(folder, peer)
        shard(folder, os.path.join(peers, "shard"), os.path.join(peers, "shard_history"))
        lock(folder, os.path.join(peers, "lock"))
        chain(folder, os.path.join(peers, "chain"))
        weave(folder)
        fleet(folder, os.path.join(peers, "fleet"))
        connections(folder)
        texts(folder, peers)
    finally:
        shutil.rmtree(folder)


if __name__ == "__main__":
    main()
