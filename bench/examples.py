#!/usr/bin/env python3
"""Checks that the examples in the comments of the sources are compiled code.

    bench/examples.py [--check | --list | --docs]

An example is a fenced block in a `//!` or `///` comment of a file in `crates/*/src`. It stands where its text is code, and no comment,
of a file of a crate in crates.txt, most often of a test in `test_fleet` (`src/tests/pages/`) or `test_pages_server`: then it is compiled
and proved with that crate. Texts are compared by their tokens in order, with nothing between them: comments, as those that say what comes out,
don't count, nor do line breaks, indentation, and a comma before a bracket that closes, which the layout decides.
A block that is no code has another word than `text` behind its fence: `usage` for words of a command, `output` for what is printed, `diagram`
for a picture; nothing is asked of it.

--check prints a line for each example that stands nowhere, and one of the sums; the status is 1 where there is one. --list says of
each where it stands. --docs says the same of the blocks with the word `rust` in README.md and docs/*.md; its status is 0, since a document
may show a text that no crate has.
"""
import argparse
import glob
import os
import re
import sys
from typing import NamedTuple

TOP = os.path.dirname(os.path.dirname(os.path.abspath(__file__)))
NO_CODE = ("usage", "output", "diagram")
TOKEN = re.compile(
    r"""(?P<gap>\s+|//[^\n]*|/\*.*?\*/)"""
    r"""|b?r(?P<hashes>\#+)".*?"(?P=hashes)|b?r"[^"]*"|b?"(?:\\.|[^"\\])*\""""
    r"""|b?'(?:\\[^\n]+?|[^\\'\n])'|\w+|.""",
    re.DOTALL | re.VERBOSE,
)
COMMA = re.compile(r"\0,(?=\0[)\]}]\0)")


class Block(NamedTuple):
    """A fenced block: its file, the line of its fence, the word behind that, and its text."""

    file: str
    line: int
    word: str
    text: str

    @property
    def place(self):
        return f"{self.file}:{self.line}"


def read(path):
    with open(os.path.join(TOP, path), encoding="utf-8") as file:
        return file.read()


def tokens_of(text):
    """The tokens of a text of code, each between two zeros."""
    some = (found[0] for found in TOKEN.finditer(text) if found["gap"] is None)
    return COMMA.sub("", "".join(f"\0{token}" for token in some) + "\0")


def blocks_in(file, lead):
    """The fenced blocks of a file, in lines with this lead, which is left out of their text."""
    opened = None
    for number, line in enumerate(read(file).split("\n"), 1):
        found = re.match(lead, line)
        inner = line[found.end() :] if found else None
        if opened is None and found and inner.startswith("```"):
            opened = Block(file, number, inner[3:].strip(), "")
        elif opened is not None and (inner is None or inner.startswith("```")):
            if inner is None:
                raise SystemExit(f"examples: {opened.place}: the block has no end")
            yield opened
            opened = None
        elif opened is not None:
            opened = opened._replace(text=f"{opened.text}{inner}\n")
    if opened is not None:
        raise SystemExit(f"examples: {opened.place}: the block has no end")


def crates():
    """The crates of crates.txt."""
    for line in read("crates.txt").split("\n"):
        head, colon, _uses = line.partition("#")[0].partition(":")
        if colon:
            yield head.split()[0]


def files_of(pattern):
    return sorted(os.path.relpath(path, TOP) for path in glob.glob(os.path.join(TOP, pattern), recursive=True))


class Sources:
    """The files of all crates, as tokens."""

    def __init__(self):
        self.files = [file for crate in crates() for file in files_of(f"crates/{crate}/src/**/*.rt")]
        self.tokens = {file: tokens_of(read(file)) for file in self.files}

    def where(self, text):
        """The files in which a text stands as code."""
        tokens = tokens_of(text)
        return [file for file in self.files if tokens in self.tokens[file]]


def told_of(block, sources):
    """Whether a block may stand as it is, and what there is to say of it."""
    if block.word in NO_CODE:
        return True, f"{block.place}: {block.word}"
    if block.word not in ("text", "rust"):
        return False, f"{block.place}: no word for it: {block.word or 'none'}"
    if tokens_of(block.text) == "\0":
        return False, f"{block.place}: it has no code"
    files = sources.where(block.text)
    return bool(files), f"{block.place}: {', '.join(files) or 'no crate has this text as code'}"


def main():
    parser = argparse.ArgumentParser(description="looks whether the examples in comments are compiled code")
    modes = parser.add_mutually_exclusive_group()
    modes.add_argument("--check", action="store_true", help="print the examples that stand nowhere (this is done with no option)")
    modes.add_argument("--list", action="store_true", help="print where each example stands")
    modes.add_argument("--docs", action="store_true", help="print where the blocks of code in the documents stand")
    options = parser.parse_args()
    sources = Sources()
    if options.docs:
        blocks = [block for file in ["README.md", *files_of("docs/*.md")] for block in blocks_in(file, "") if block.word == "rust"]
    else:
        blocks = [block for file in sources.files for block in blocks_in(file, r"\s*//[/!](?!/) ?")]
    told = [told_of(block, sources) for block in blocks]
    for good, line in told:
        if not good or not options.check and (options.list or options.docs):
            print(line)
    missing = sum(not good for good, _line in told)
    print(f"{len(blocks)} blocks, {sum(block.word in NO_CODE for block in blocks)} of them no code, {missing} wrong")
    sys.exit(1 if missing and not options.docs else 0)


if __name__ == "__main__":
    main()
