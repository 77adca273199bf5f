#!/usr/bin/env python3
"""Where a run of the gate spends its processor time, by crate and by kind of work.

    gate.py [NAME..] [--anew]     runs `rt ci` with these words at the top of this checkout, and notes what its processes cost
    gate.py --table [SINCE]       prints a table of what was noted (SINCE: seconds since 1970; default: all)
    gate.py --line [PROGRAM..]    prints the longest line of crates below these programs (default: sws_main and swsd), each of which waits
                                  for the one before it, by the processor time of their proofs as it was noted

Each second it looks at the processes below `rt ci` and adds up the processor time that each has used, by the crate that it checks and
by kind:

    proof     the check of the crate itself, from nothing
    tests     the check of the crate together with its tests
    seed      the check that the crate's must-fail edits begin with, and the one that looks at it again afterwards
    edits     one check for each must-fail edit, over the seed
    programs  compiling and linking: of a program as two compilers build it, of tests once
    runs      the programs and tests themselves

A process that ends between two looks is counted as far as the last look saw it, so a figure is up to a second too low for each
process. What was noted is kept in .git/gate-minutes.json of this checkout, for each crate and kind the newest figure above 0: a crate that a
run takes from an earlier one costs nothing there, so the table may be put together from several runs.

It wants Linux, for /proc, and the Rattle kit.
"""
import collections
import json
import os
import subprocess
import sys
import time

TOP = os.path.dirname(os.path.dirname(os.path.abspath(__file__)))
KINDS = ("proof", "tests", "seed", "edits", "programs", "runs")
TICK = os.sysconf("SC_CLK_TCK")


def noted_at():
    git = subprocess.run(["git", "rev-parse", "--git-dir"], cwd=TOP, capture_output=True, text=True).stdout.strip() or ".git"
    return os.path.join(TOP, git, "gate-minutes.json")


def noted():
    try:
        with open(noted_at(), encoding="utf-8") as it:
            return json.load(it)
    except (OSError, ValueError):
        return {"cells": {}, "runs": []}


def processes():
    """Returns of each process its parent, its processor time in seconds and when it began."""
    found = {}
    for name in os.listdir("/proc"):
        if name.isdigit():
            try:
                with open(f"/proc/{name}/stat", encoding="utf-8", errors="replace") as it:
                    fields = it.read().rpartition(")")[2].split()
            except OSError:
                continue
            found[int(name)] = int(fields[1]), (int(fields[11]) + int(fields[12])) / TICK, fields[19]
    return found


def kind_of(words, where):
    """Returns what crate a process works for and what it does, or None where its words don't say."""
    if "--crate-name" not in words:
        return None
    crate = words[words.index("--crate-name") + 1]
    if "rt-edit-" in where:
        over = words[words.index("--incremental") + 1] if "--incremental" in words else ""
        return crate, "seed" if over.endswith("/seed") else "edits"
    if "--crate-checked" in words:
        return crate, "programs"
    return crate, "tests" if "--test" in words else "proof"


class Watch:
    """The processes below one, with what each has cost so far."""

    def __init__(self, root):
        self.root, self.seen = root, {}

    def look(self):
        found, kids = processes(), collections.defaultdict(list)
        for number, (parent, _, _) in found.items():
            kids[parent].append(number)
        below, todo = [], [(self.root, None)]
        while todo:
            number, above = todo.pop()
            if number not in found:
                continue
            _, cost, began = found[number]
            cell = self.seen.get((number, began), (0, None))[1] or self.cell(number) or above
            self.seen[number, began] = cost, cell
            todo += [(it, cell) for it in kids[number]]
            below.append(number)
        return below

    def cell(self, number):
        try:
            with open(f"/proc/{number}/cmdline", encoding="utf-8", errors="replace") as it:
                words = it.read().split("\0")
            where = os.readlink(f"/proc/{number}/cwd")
        except OSError:
            return None
        # A program or a test that the gate runs lies in the crate's out/.
        parts = os.path.realpath(words[0]).split("/")
        if "crates" in parts and "out" in parts:
            return parts[parts.index("crates") + 1], "runs"
        return kind_of(words, where)

    def cells(self):
        costs = collections.Counter()
        for cost, cell in self.seen.values():
            costs[cell or ("rt itself", "runs")] += cost
        return costs


def run(words):
    began, before = time.time(), os.getloadavg()[0]
    with subprocess.Popen(["rt", "ci", *words], cwd=TOP) as gate:
        watch = Watch(gate.pid)
        while gate.poll() is None:
            watch.look()
            time.sleep(1)
    told = noted()
    for (crate, kind), cost in watch.cells().items():
        if cost >= 1:
            told["cells"][f"{crate} {kind}"] = [round(cost, 1), began]
    total = sum(watch.cells().values())
    told["runs"].append([began, time.time() - began, total, " ".join(words), before])
    with open(noted_at(), "w", encoding="utf-8") as it:
        json.dump(told, it)
    print(f"{(time.time() - began) / 60:.1f} minutes, {total / 60:.1f} minutes of processors (load before it: {before:.1f})")
    return gate.returncode


def table(since):
    cells = collections.defaultdict(dict)
    for name, (cost, began) in noted()["cells"].items():
        crate, _, kind = name.rpartition(" ")
        if began >= since:
            cells[crate][kind] = cost
    lines = ["| Crate | " + " | ".join(KINDS) + " | all |", "|---|" + "---:|" * (len(KINDS) + 1)]
    row = lambda name, costs: f"| {name} | " + " | ".join(f"{costs.get(it, 0) / 60:.1f}" if costs.get(it, 0) >= 3 else "" for it in KINDS) + f" | {sum(costs.values()) / 60:.1f} |"
    for crate, costs in sorted(cells.items(), key=lambda it: -sum(it[1].values())):
        lines.append(row(f"`{crate}`" if " " not in crate else crate, costs))
    whole = collections.Counter()
    for costs in cells.values():
        whole.update(costs)
    return "\n".join([*lines, row("**all**", whole)])


def uses_by_crate():
    uses = {}
    with open(f"{TOP}/crates.txt", encoding="utf-8") as it:
        for line in it:
            head, colon, tail = line.split("#")[0].partition(":")
            if colon:
                uses[head.split()[0]] = tail.split()
    return uses


def longest_line(program):
    """Returns the crates of the longest line that ends in a program, lowest first, with the seconds of each."""
    cells, uses, known = noted()["cells"], uses_by_crate(), {}

    def line_of(crate):
        if crate not in known:
            below = [line_of(it) for it in uses[crate] if it in uses]
            before = max(below, key=lambda line: sum(cost for _, cost in line), default=[])
            known[crate] = [*before, (crate, cells.get(f"{crate} proof", [0])[0])]
        return known[crate]

    return line_of(program)


def lines(programs):
    for program in programs:
        print(f"| Crate | minutes, to `{program}` | together |\n|---|---:|---:|")
        whole = 0
        for crate, cost in longest_line(program):
            whole += cost
            print(f"| `{crate}` | {cost / 60:.1f} | {whole / 60:.1f} |")
        print()


def main():
    words = sys.argv[1:]
    if words[:1] == ["--table"]:
        print(table(float(words[1]) if words[1:] else 0))
        return 0
    if words[:1] == ["--line"]:
        lines(words[1:] or ["sws_main", "swsd"])
        return 0
    if words[:1] in (["-h"], ["--help"]):
        print(__doc__)
        return 0
    return run(words)


if __name__ == "__main__":
    sys.exit(main())
