#!/usr/bin/env python3
"""bell.py: whether the models of the bell still say what its code does, line by line, as models/lines.txt ties them.

The models are transcriptions by hand, so a change of the code is invisible to them. lines.txt has blocks, each of a
function of the code and of a place of a model:

    bell.rt begin | bell.pml begin
      a line of the function that reads or writes a shared word, waits, wakes or calls what does
        the lines of the model that do the same, or `-- why there is none`

A block `bell.rt NAME | -- why` is of a function that the models leave out, and `- | bell.pml NAME` of lines of a model that
stand for no code. This fails where a line that is quoted stands
no more in its function, in that order, or in its place; where a function has such a line that no block quotes; and where the
model has a line on a shared word that none does. It can't say that the two lines do the same: whoever changes one looks
at the other, and quotes it anew. The status is 0 where
nothing is to be said.
"""
import os
import re
import sys

TOP = os.path.dirname(os.path.dirname(os.path.realpath(__file__)))
CODE = f"{TOP}/crates"
MODELS = f"{TOP}/models"

# The files whose functions are all tied, and single functions of others.
WHOLE = ["bell.rt", "hint.rt"]
SINGLE = {"working.rt": ["work", "pause"], "fleet.rt": ["register", "finish", "post", "push", "retell"],
          "chain_calls.rt": ["push_at", "pop_at", "retell_at", "pick_at"]}

# The crates that they stand in, where that isn't the fleet's.
CRATES = {"bell.rt": "mely_bell", "hint.rt": "mely_bell", "chain_calls.rt": "mely_kept_chain"}

# What makes a line of the code one that is tied, and one of the models.
STEP = re.compile(r"Ordering::SeqCst|\.lock\(rt\)|wait_while|notify_|yield_now|self\.bell\.|hint\.|\bstore\(")
SHARED = re.compile(r"\b(sleepers|searching|waiting|begun_news|ended_news|begun|at_work|has_given_up|is_stopped)\b"
                    r"|\b(bed|rung|waits|hinted|held)\[|\bcount_(woken|idled)\(")


def functions(text):
    """The lines of each function of a file of code, by its name, without comments."""
    found, name, indent = {}, None, ""
    for line in text.split("\n"):
        begins = re.match(r"( *)(?:pub(?:\(\w+\))? )?fn (\w+)", line)
        if name is None and begins:
            indent, name = begins.groups()
            found.setdefault(name, [])
        if name is not None:
            bare = line.split("//")[0].strip()
            if bare:
                found[name].append(bare)
            if line == indent + "}":
                name = None
    return found


def right_bell(text, wrong):
    """A model without what it has for the wrong bells alone: they are tied to no code."""
    kept, within = [], []
    for line in text.split("\n"):
        begins = re.match(r"#(ifdef|ifndef|if) (.*)", line)
        if begins:
            is_of = begins.group(2).strip() in wrong
            within.append((is_of, not is_of or begins.group(1) == "ifndef"))
        elif line.startswith("#else") and within and within[-1][0]:
            within[-1] = (True, not within[-1][1])
        elif line.startswith("#endif") and within:
            within.pop()
        kept.append(line if all(it for _, it in within) else "")
    return "\n".join(kept)


def places(text):
    """The lines of each inline, process, macro and label of a model, by its name, without comments."""
    text = re.sub(r"/\*.*?\*/", lambda it: "\n" * it.group(0).count("\n"), text, flags=re.S)
    found, name, within = {}, None, None
    for line in text.split("\n"):
        begins = re.match(r"(?:inline|proctype|active proctype|init|#define) ?(\w*)", line)
        label = re.match(r"(\w+):$", line)
        if begins:
            name = begins.group(1) or "init"
        elif label:
            name = label.group(1)
        if name is not None:
            bare = line.strip()
            if bare:
                found.setdefault(name, []).append(bare)
            if line == "}":
                name = None
    return found


def blocks(text):
    """The blocks of lines.txt: the number of a line, its file and function, its model and place, and what it quotes."""
    found = []
    for number, line in enumerate(text.split("\n"), 1):
        if not line.strip() or line.startswith("#"):
            continue
        depth = len(line) - len(line.lstrip())
        if depth == 0:
            code, _, model = line.partition(" | ")
            found.append((number, code.split(), model, []))
        else:
            found[-1][3].append((number, depth, line.strip()))
    return found


class Order:
    """Lines that have to be found one behind the other."""

    def __init__(self, lines):
        self.lines, self.at = lines, 0

    def has(self, line):
        if line not in self.lines[self.at:]:
            return False
        self.at = self.lines.index(line, self.at) + 1
        return True


def main():
    faults = []
    code = {name: functions(open(f"{CODE}/{CRATES.get(name, 'mely_fleet')}/src/{name}").read()) for name in [*WHOLE, *SINGLE]}
    model = {name: open(f"{MODELS}/{name}").read() for name in ("bell.pml", "fleet.pml")}
    wrong = set(re.findall(r"^ \*   ([A-Z_]+) ", model["bell.pml"].split("Wrong bells")[1].split("*/")[0], re.M))
    model = {name: places(right_bell(text, wrong)) for name, text in model.items()}
    quoted, modelled, left_out = {}, {}, set()
    for number, words, where, lines in blocks(open(f"{MODELS}/lines.txt").read()):
        its = [tuple(it.split()) for it in where.split(", ")]
        lost = [it for it in its if not where.startswith("--") and it[1] not in model.get(it[0], {})]
        if lost:
            faults.append(f"lines.txt:{number}: {lost[0][0]} has no place {lost[0][1]}")
            continue
        if words == ["-"]:
            for at, _, line in lines:
                for it in its:
                    modelled.setdefault(it, []).append(line)
                if not any(line in model[it[0]][it[1]] for it in its):
                    faults.append(f"lines.txt:{at}: no longer in {where}: {line}")
            continue
        file, function = words
        if function not in code.get(file, {}):
            faults.append(f"lines.txt:{number}: {file} has no function {function}")
            continue
        if where.startswith("--"):
            left_out.add((file, function))
            continue
        mine = Order(code[file][function])
        for at, depth, line in lines:
            if depth == 2:
                quoted.setdefault((file, function), []).append(line)
                if not mine.has(line):
                    faults.append(f"lines.txt:{at}: no longer in {function} of {file}, or not in this order: {line}")
            elif not line.startswith("--"):
                for it in its:
                    modelled.setdefault(it, []).append(line)
                if not any(line in model[it[0]][it[1]] for it in its):
                    faults.append(f"lines.txt:{at}: no longer in {where}: {line}")
    for file, all_of in code.items():
        for function, lines in all_of.items():
            if file in SINGLE and function not in SINGLE[file] or (file, function) in left_out:
                continue
            known = list(quoted.get((file, function), []))
            for line in lines:
                if STEP.search(line) and not line.startswith(("fn ", "pub", "requires", "ensures")):
                    if line in known:
                        known.remove(line)
                    else:
                        faults.append(f"{file} {function}: in no block of lines.txt: {line}")
    for file, all_of in model.items():
        for place, lines in all_of.items():
            if place == "init":
                continue
            known = list(modelled.get((file, place), []))
            for line in lines:
                if SHARED.search(line) and not line.startswith(("#", "inline", "proctype", "byte ", "bool ", "mtype", "assert")):
                    if line in known:
                        known.remove(line)
                    else:
                        faults.append(f"{file} {place}: in no block of lines.txt: {line}")
    for fault in faults:
        print(f"bell: {fault}")
    sys.exit(len(faults) > 0)


main()
