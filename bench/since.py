#!/usr/bin/env python3
"""What is gone since a commit: definitions, clauses of public functions, tests, and edits that the prover must reject.

    bench/since.py COMMIT

It reads the sources as they were at the commit and as they are, and prints each name that stands nowhere any more: a definition of
a crate's specs/, a named clause of a function (function, clause), a test, an edit with its text. Crates don't count: what has moved to
another crate is there. What it prints was dropped, renamed or put into another form, and whoever did so says which. Then it prints how many there
were of each and how many are gone. The status is 1 where something is.

It wants git alone, and takes a second or two.
"""
import os
import re
import subprocess
import sys

TOP = os.path.dirname(os.path.dirname(os.path.abspath(__file__)))

DEFINITION = re.compile(r"^\s*(?:abbrev |unfoldable )?pub (?:record |data |abbrev |unfoldable )?([^\s:({]+)", re.M)
TEST = re.compile(r"#\[test\]\s*(?:#\[[^\]]*\]\s*)*(?:pub(?:\([a-z]+\))? )?fn (\w+)")
FUNCTION = re.compile(r"\bfn (\w+)\b[^{};]*?((?:\s*(?:requires|ensures)\*?(?: [\w-]+)? \{(?:[^{}]|\{[^{}]*\})*\})+)")
CLAUSE = re.compile(r"(requires|ensures)\*?(?: ([\w-]+))? \{")
NAMES = {"specs": "definitions", "clauses": "clauses", "tests": "tests", "edits": "edits"}


def found_in(path, text, found):
    part = path.split("/")[2] if path.count("/") > 1 else ""
    if part == "specs" and path.endswith(".antt"):
        found["specs"].update(it for it in DEFINITION.findall(text) if it not in ("use", "mod", "open"))
    elif part == "src" and path.endswith(".rt"):
        found["tests"].update(TEST.findall(text))
        if "/tests" not in path:
            for name, clauses in FUNCTION.findall(text):
                found["clauses"].update(f"{name}, {kind} {of or '(no name)'}" for kind, of in CLAUSE.findall(clauses))
    elif part in ("must-fail", "mutants") and path.endswith(".edit"):
        found["edits"].add((os.path.basename(path), text))


def then(commit):
    found = {it: set() for it in NAMES}
    listed = subprocess.run(["git", "ls-tree", "-r", "--name-only", commit, "crates"], cwd=TOP, capture_output=True, text=True, check=True)
    paths = [it for it in listed.stdout.splitlines() if it.endswith((".rt", ".antt", ".edit"))]
    with subprocess.Popen(["git", "cat-file", "--batch"], cwd=TOP, stdin=subprocess.PIPE, stdout=subprocess.PIPE) as git:
        for path in paths:
            git.stdin.write(f"{commit}:{path}\n".encode())
            git.stdin.flush()
            size = int(git.stdout.readline().split()[-1])
            found_in(path, git.stdout.read(size).decode(), found)
            git.stdout.read(1)
        git.stdin.close()
    return found


def now():
    found = {it: set() for it in NAMES}
    for at, folders, names in os.walk(f"{TOP}/crates"):
        folders[:] = [it for it in folders if it != "out"]
        for name in names:
            if name.endswith((".rt", ".antt", ".edit")):
                with open(f"{at}/{name}", encoding="utf-8") as it:
                    found_in(os.path.relpath(f"{at}/{name}", TOP), it.read(), found)
    return found


def main():
    if len(sys.argv) != 2 or sys.argv[1].startswith("-"):
        print(__doc__)
        return 2
    before, after, gone = then(sys.argv[1]), now(), 0
    for kind, name in NAMES.items():
        lost = sorted(before[kind] - after[kind])
        for it in lost:
            print(f"{name}: gone: {it[0] if kind == 'edits' else it}")
        print(f"{name}: {len(before[kind])} then, {len(after[kind])} now, {len(lost)} gone")
        gone += len(lost)
    return 1 if gone else 0


if __name__ == "__main__":
    sys.exit(main())
