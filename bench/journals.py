#!/usr/bin/env python3
"""bench/journals.py PROGRAM JOURNAL [CONNECTIONS WORKERS SHARDS BATCH COST] [--entries N] [--long N]

Tries the checker of journals on changed journals. It takes the journal of a run, leaves out, doubles and changes its lines in
turn, has PROGRAM (the built `measure`, by its part `check`) check each text, and compares its answer with that of a judge of its own, below, which
is written from the rules alone: what is accepted with which sums, and else the fault with its line or colour. Any difference is
printed, and the status is then 1.

The journal is what `sws replay FOLDER --journal` writes behind its transcript; a transcript in front is skipped. With `--entries`
only so many entries are changed, from the first on; the default is 1,000. With `--long N` it doesn't compare, but makes a legal
journal of N entries, and prints how long PROGRAM takes over it, in seconds on a processor (the least of three runs), and the memory that it
holds.
"""

import os
import random
import subprocess
import sys
import tempfile
import time
from concurrent.futures import ThreadPoolExecutor

WEIGHTS = [10, 10, 10, 20, 30, 80, 50, 50, 30, 30]
LINE_LIMIT = 4294967295


def number(word, high):
    """A decimal number without leading zeros, or None."""
    if not word or any(byte not in b"0123456789" for byte in word) or (len(word) > 1 and word[:1] == b"0"):
        return None
    value = int(word)
    return value if value <= high else None


def line_of(line):
    """What a line with its LF says: a tuple whose first part is its word, or None."""
    if len(line) > 64 or not line.endswith(b"\n"):
        return None
    words = line[:-1].split(b" ")
    highs = {
        b"shard": (65535, 2**64 - 1),
        b"reg": (65535, 255, 65535, 65535),
        b"take": (65535,) * 3,
        b"fin": (65535,) * 3,
        b"steal": (65535,) * 3,
    }.get(words[0])
    if highs is None or len(words) != len(highs) + 1:
        return None
    numbers = [number(word, high) for word, high in zip(words[1:], highs)]
    return None if None in numbers else (words[0].decode(), *numbers)


def allowed(setup, own, entry):
    """Whether an entry may follow these entries of its colour, by filters and sums over the list alone."""
    connections, workers, shards, batch, cost = setup
    kind, colour = entry[0], entry[1]
    registered = [e for e in own if e[0] == "reg"]
    begun = sum(e[3] for e in own if e[0] == "take")
    ended = sum(e[3] for e in own if e[0] == "fin")
    thieves = [e[3] for e in own if e[0] == "steal"]
    owner = thieves[-1] if thieves else colour % workers
    takes = [e for e in own if e[0] == "take"]
    queued = registered[begun:]
    ready = begun == ended and len(queued) > 0
    if kind == "reg":
        return colour < 2 + connections and entry[2] < len(WEIGHTS)
    if kind == "take":
        return entry[2] == owner and ready and entry[3] == min(batch, len(queued))
    if kind == "fin":
        return bool(takes) and takes[-1][2:] == entry[2:] and begun == ended + entry[3]
    worth = sum(WEIGHTS[e[2]] for e in queued)
    return (
        colour >= 1 and entry[2] == owner and entry[3] != entry[2] and entry[3] < workers and ready and worth > cost
    )


def judge(setup, text):
    """What is to be found of a text: the status, and a line, a colour or the printed sums."""
    connections, workers, shards, batch, cost = setup
    lines = text.split(b"\n")
    lines = [line + b"\n" for line in lines[:-1]] + ([lines[-1]] if lines[-1] else [])
    histories, left, bad = [], 0, None
    at = []
    for place, line in enumerate(lines, 1):
        said = line_of(line)
        if said is not None and said[0] == "shard":
            fits = left == 0 and said[1] == len(histories) and said[1] < shards
        else:
            fits = said is not None and left > 0
        if not fits:
            bad = place
            break
        if said[0] == "shard":
            histories.append([])
            left = said[2]
        else:
            histories[-1].append(said)
            at.append((place, len(histories) - 1, len(histories[-1]) - 1))
            left -= 1
    if bad is None and (left > 0 or len(histories) < shards):
        bad = len(lines) + 1
    if bad is not None:
        return (10, bad)
    of_colour = {}
    for place, shard, index in at:
        entry = histories[shard][index]
        own = of_colour.setdefault(entry[1], [])
        if entry[1] % shards != shard or not allowed(setup, own, entry):
            return (11, place)
        own.append(entry)
    entries = [entry for history in histories for entry in history]
    for colour in range(2 + connections):
        own = [e for e in entries if e[1] == colour]
        registered = sum(1 for e in own if e[0] == "reg")
        begun = sum(e[3] for e in own if e[0] == "take")
        ended = sum(e[3] for e in own if e[0] == "fin")
        if begun != ended or registered > begun:
            return (12, colour)
    sums = [f"accepted {len(entries)}"]
    for core in range(workers):
        ran = sum(e[3] for e in entries if e[0] == "fin" and e[2] == core)
        stolen_in = sum(1 for e in entries if e[0] == "steal" and e[3] == core)
        stolen_out = sum(1 for e in entries if e[0] == "steal" and e[2] == core)
        sums.append(f"core {core} ran {ran} in {stolen_in} out {stolen_out}")
    return (0, "\n".join(sums) + "\n")


def found(program, setup, text):
    """What the program finds of a text, in the same form."""
    run = subprocess.run([program, "check", *map(str, setup)], input=text, capture_output=True, timeout=120)
    if run.returncode == 0:
        return (0, run.stdout.decode())
    digits = "".join(c for c in run.stderr.decode().split("{")[-1] if c.isdigit())
    return (run.returncode, int(digits) if digits else run.stderr.decode())


def journal_of(text):
    """The journal in a text: from its first line of a shard on."""
    at = 0 if text.startswith(b"shard 0 ") else text.index(b"\nshard 0 ") + 1
    return text[at:]


def recounted(lines):
    """The lines with each shard's count made right."""
    lines = list(lines)
    heads = [i for i, line in enumerate(lines) if line.startswith(b"shard ")] + [len(lines)]
    for here, after in zip(heads, heads[1:]):
        lines[here] = b"shard " + lines[here].split(b" ")[1] + b" %d" % (after - here - 1)
    return lines


def changes(lines, most):
    """The changed journals, as texts: each entry left out, doubled, swapped with the next one, and with each of its numbers changed;
    with the counts of the shards made right and, of the first two, also without that; and lines in other forms."""
    entries = [i for i, line in enumerate(lines) if line and not line.startswith(b"shard ")][:most]
    text = lambda parts: b"\n".join(parts) + b"\n"
    yield text(lines)
    yield text(lines)[:-1]
    yield text(lines) + b"\n"
    for i in entries:
        out = lines[:i] + lines[i + 1 :]
        twice = lines[: i + 1] + lines[i:]
        yield text(recounted(out))
        yield text(recounted(twice))
        yield text(out)
        yield text(twice)
        if i + 1 < len(lines) and not lines[i + 1].startswith(b"shard "):
            yield text(lines[:i] + [lines[i + 1], lines[i]] + lines[i + 2 :])
        words = lines[i].split(b" ")
        for w in range(1, len(words)):
            for other in (int(words[w]) + 1, max(int(words[w]) - 1, 0), 70000):
                changed = words[:w] + [b"%d" % other] + words[w + 1 :]
                yield text(lines[:i] + [b" ".join(changed)] + lines[i + 1 :])
            zero = words[:w] + [b"0" + words[w]] + words[w + 1 :]
            yield text(lines[:i] + [b" ".join(zero)] + lines[i + 1 :])
        yield text(lines[:i] + [lines[i] + b" "] + lines[i + 1 :])
        yield text(lines[:i] + [lines[i].replace(b" ", b"  ", 1)] + lines[i + 1 :])
    for i, line in enumerate(lines):
        if line.startswith(b"shard "):
            yield text(lines[:i] + lines[i + 1 :])
            words = line.split(b" ")
            for other in (int(words[2]) + 1, max(int(words[2]) - 1, 0)):
                yield text(lines[:i] + [b"shard " + words[1] + b" %d" % other] + lines[i + 1 :])


def compare(program, setup, lines, most):
    """Compares the program with the judge on each changed journal; how many there were, of which kinds, and the differences."""
    kinds, wrong, count = {}, 0, 0

    def one(text):
        return text, found(program, setup, text), judge(setup, text)

    with ThreadPoolExecutor(max_workers=2) as pool:
        for text, is_found, right in pool.map(one, changes(lines, most)):
            count += 1
            kinds[right[0]] = kinds.get(right[0], 0) + 1
            if is_found != right:
                wrong += 1
                if wrong <= 5:
                    print(f"found {is_found}, to be found {right}")
    return count, kinds, wrong


def long_journal(setup, entries, path):
    """Writes a legal, drained journal of so many entries: colours that register, take, finish and are stolen."""
    connections, workers, shards, batch, cost = setup
    chance = random.Random(1)
    per = [entries // shards + (1 if shard < entries % shards else 0) for shard in range(shards)]
    with open(path, "wb") as out:
        for shard in range(shards):
            out.write(b"shard %d %d\n" % (shard, per[shard]))
            colours = [c for c in range(2 + connections) if c % shards == shard]
            owner = {c: c % workers for c in colours}
            left = per[shard]
            while left:
                colour = chance.choice(colours)
                want = chance.randint(1, batch)
                steals = 1 if colour >= 1 and workers > 1 and want * WEIGHTS[5] > cost else 0
                if left - want - 2 - steals < 3:
                    steals = 0
                    want = next(n for n in range(min(batch, left - 2), 0, -1) if left - n - 2 in (0, 3, 4, 5) or left - n - 2 > 5)
                for _ in range(want):
                    out.write(b"reg %d 5 0 %d\n" % (colour, chance.randrange(workers)))
                if steals:
                    to = (owner[colour] + 1) % workers
                    out.write(b"steal %d %d %d\n" % (colour, owner[colour], to))
                    owner[colour] = to
                out.write(b"take %d %d %d\nfin %d %d %d\n" % (colour, owner[colour], want, colour, owner[colour], want))
                left -= want + 2 + steals


def held_by(pid):
    """The most memory that a process has held so far, in KiB."""
    try:
        with open(f"/proc/{pid}/status") as status:
            return next((int(line.split()[1]) for line in status if line.startswith("VmHWM")), 0)
    except OSError:
        return 0


def timed(words, given):
    """The least seconds on a processor of three runs, and the most KiB that one held."""
    best, held = None, 0
    for _ in range(3):
        with open(given, "rb") as read:
            child = subprocess.Popen(words, stdin=read, stdout=subprocess.DEVNULL)
            pid = 0
            while pid == 0:
                held = max(held, held_by(child.pid))
                time.sleep(0.02)
                pid, status, usage = os.wait4(child.pid, os.WNOHANG)
        if status != 0:
            raise SystemExit(f"the program ended with {status}")
        took = usage.ru_utime + usage.ru_stime
        best = took if best is None else min(best, took)
    return best, held


def measure(program, setup, entries):
    """Prints how long the program takes over a long journal on a processor, and the memory that it holds; and beside it how long it
    takes to make a history of as many entries in memory and to judge that."""
    with tempfile.NamedTemporaryFile() as file:
        long_journal(setup, entries, file.name)
        size = os.path.getsize(file.name)
        words = [program, "check", *map(str, setup)]
        for what, more in ((f"a journal of {entries} entries, {size} bytes", []), ("as many made and judged in memory", [str(entries // 3)])):
            took, held = timed(words + more, file.name)
            print(f"{what}: {took:.2f} s, {entries / took / 1e6:.2f} million entries a second, {held} KiB held")


def main():
    words = sys.argv[1:]
    options = {"--entries": 1000, "--long": 0}
    for name in options:
        if name in words:
            at = words.index(name)
            options[name] = int(words[at + 1])
            words = words[:at] + words[at + 2 :]
    program = os.path.abspath(words[0])
    if options["--long"]:
        setup = tuple(int(word) for word in words[1:]) or (10, 8, 4, 10, 20)
        measure(program, setup, options["--long"])
        return
    setup = tuple(int(word) for word in words[2:]) or (10, 8, 4, 10, 20)
    with open(words[1], "rb") as file:
        lines = journal_of(file.read())[:-1].split(b"\n")
    count, kinds, wrong = compare(program, setup, lines, options["--entries"])
    print(f"{count} journals: " + ", ".join(f"{kinds[k]} of status {k}" for k in sorted(kinds)) + f"; {wrong} differ")
    sys.exit(1 if wrong else 0)


if __name__ == "__main__":
    main()
