#!/usr/bin/env python3
"""Whether a test case is gone since a commit: what the tests of each crate check, then and now.

    bench/cases.py COMMIT [CRATE..] [--fewer]

Tests may be put into another form, as a table in place of a function a case; no case may be lost by it. So it reads the test code of
each crate (these crates alone, where some are named) as it was at the commit and as it is, and prints by crate

    tests     how many #[test] functions there are
    rows      how many elements the lists in the code have, as the rows of a table or the calls of a script
    asserts   how many assertions, each of which is a case or made for each row of a table
    values    how many strings, numbers and variants the code writes: what is given and what is to come, whatever the form

and then whatever stood in the code then and stands nowhere in it now:

    text      a string, or a string of bytes
    number    a number, whatever its form and its type (1_000 and 1000u16 are the same)
    variant   a name of a type with a variant or a constant of it, as Got::End
    constant  a name in capitals that is used
    call      a function or a method that is called, but for those of the test code itself

With --fewer also what still stands there, but less often. A text that now stands in pieces or within a longer one is printed as that, and
isn't gone. What it prints as gone has been dropped or is written otherwise, and whoever did so says which. The status is 1 where something
is gone, or where the values are fewer than they were.

The data of the stored runs counts too, since a case that stands there needs no code: a text or a number that stands in the `stdin`, the
`args` or the `stdout` of `sws_main` or a crate of the name run_.. isn't gone, and each of their lines is a value. Their lines are read as `run_cases`
reads them, so a text stands there also where it is what several of them put together, or what they show. A variant stands there by the
word or the line that is printed for it.

It wants git alone, and takes a second.
"""
import collections
import os
import re
import subprocess
import sys

TOP = os.path.dirname(os.path.dirname(os.path.abspath(__file__)))
KINDS = ("text", "number", "variant", "constant", "call")

TOKEN = re.compile(
    r"""(?P<comment>//[^\n]*|/\*.*?\*/)
      | (?P<text>b?r(?P<hashes>\#*)".*?"(?P=hashes)|b?"(?:[^"\\]|\\.)*")
      | (?P<char>b?'(?:[^'\\\n]|\\(?:x[0-9a-fA-F]{2}|u\{[^}]*\}|.))')
      | (?P<lifetime>'\w+)
      | (?P<number>[0-9][0-9a-zA-Z_]*(?:\.[0-9][0-9a-zA-Z_]*)?)
      | (?P<name>\w+)
      | (?P<sign>::|[^\s\w])""",
    re.S | re.X,
)
OPENS, CLOSES = ("[", "(", "{"), ("]", ")", "}")
LENGTH = re.compile(r":\s*&?(?:'static )?\[[^={}\n]*?;\s*[0-9_]+\]\s*=")
CLAUSE = re.compile(r"\b(?:requires|ensures|ghost(?: \w+)?(?: =)?|ghost use [^{};]*)\*?(?: [\w-]+)? \{(?:[^{}]|\{[^{}]*\})*\}")
IMPORT = re.compile(r"^\s*(?:ghost |pub(?:\([a-z]+\))? )*use [^;]*;", re.M)
ASSERT = re.compile(r"\b(?:assert|assert_eq|assert_ne|panic)!\(|\brt\.panic\(")
PRINTED = {
    "End::Done": "done", "End::Fault": "fault", "End::Idle": "idle", "SiteLimit::Files": "more than 4096 files",
    "SiteLimit::Name": "is too long", "TopFault::Usage": "ended 2 ", "WordFault::Usage": "status 2",
    "TopFault::BadScript": "ended 3 ", "ScriptFault::Bad": "ended 3 ",
    "TopFault::ReadFault": "ended 4 ", "SiteFault::Fault": "ended 4 ", "TopFault::WriteFault": "ended 5 ", "RunFault::Write": "status 5",
    "TopFault::WorldFault": "ended 6 ", "TopFault::SiteFull": "ended 8 ", "TopFault::TooMany": "ended 9 ", "ScriptFault::TooMany": "ended 9 ",
    "TopFault::BadJournal": "ended 10 ", "CheckFault::BadJournal": "ended 10 ", "TopFault::NotLegal": "ended 11 ",
    "CheckFault::NotLegal": "ended 11 ", "TopFault::NotDrained": "ended 12 ", "CheckFault::NotDrained": "ended 12 ",
}
HEX = re.compile(r"\\x[0-9a-f]{2}")
SIGNS = {"n": b"\n", "r": b"\r", "t": b"\t", "\\": b"\\", "~": b"~"}
NO_NAME = {"if", "match", "while", "for", "in", "return", "let", "fn", "mut", "ref", "else", "move", "Some", "Ok", "Err", "None"}


def is_test_code(path):
    parts = path.split("/")
    return len(parts) > 3 and parts[2] == "src" and path.endswith(".rt") and (parts[1].startswith("test_") or "/tests" in path)


def tokens_of(text):
    """The tokens of the code without comments, imports, clauses and lengths of lists, each with its kind."""
    bare = LENGTH.sub(" =", CLAUSE.sub(" ", IMPORT.sub(" ", text)))
    return [(it.lastgroup if it.lastgroup != "hashes" else "text", it.group()) for it in TOKEN.finditer(bare) if it.lastgroup != "comment"]


def plain_number(number):
    bare = re.sub(r"(?:[iu](?:8|16|32|64|128|size))$", "", number.replace("_", ""))
    try:
        return str(int(bare, 0))
    except ValueError:
        return bare


def plain_text(text):
    return re.sub(r"\\\n\s*", "", text.removeprefix("b"))


def elements_from(tokens, start):
    """How many elements the list has whose bracket stands there; 0 for a type, and for a value so many times."""
    depth, elements, filled = 0, 0, False
    for kind, token in tokens[start:]:
        sign = token if kind == "sign" else ""
        depth += (sign in OPENS) - (sign in CLOSES)
        if depth == 0:
            break
        if depth == 1 and sign == ";":
            return 0
        if depth == 1 and sign == ",":
            elements, filled = elements + 1, False
        elif not (depth == 1 and sign == "["):
            filled = True
    return elements + filled


def rows_in(tokens):
    """How many elements the lists have that have more than one, those within others too."""
    rows = 0
    for at, (kind, token) in enumerate(tokens):
        before = tokens[at - 1] if at else ("sign", ";")
        is_index = before[0] in ("name", "text") and before[1] not in NO_NAME or before[1] in (")", "]", "?")
        if token == "[" and not is_index and before[1] not in ("#", "!"):
            elements = elements_from(tokens, at)
            rows += elements if elements > 1 else 0
    return rows


def found_in(text):
    found = {kind: collections.Counter() for kind in KINDS}
    tokens = tokens_of(text)
    for at, (kind, token) in enumerate(tokens):
        after = tokens[at + 1][1] if at + 1 < len(tokens) else ""
        before = tokens[at - 1][1] if at else ""
        if kind == "text":
            found["text"][plain_text(token)] += 1
        elif kind == "char":
            found["text"][token] += 1
        elif kind == "number":
            found["number"][plain_number(token)] += 1
        elif kind == "name" and after == "::" and token[:1].isupper() and at + 2 < len(tokens) and tokens[at + 2][1][:1].isupper():
            found["variant"][f"{token}::{tokens[at + 2][1]}"] += 1
        elif kind == "name" and re.fullmatch(r"[A-Z][A-Z0-9_]+", token) and before not in ("const", "static"):
            found["constant"][token] += 1
        elif kind == "name" and after == "(" and before != "fn" and token[:1].islower() and token not in NO_NAME:
            found["call"][token] += 1
    own = {tokens[at + 1][1] for at, it in enumerate(tokens[:-1]) if it[1] in ("fn", "const", "static", "mod")}
    return found, rows_in(tokens), own, (text.count("#[test]"), len(ASSERT.findall(text)))


def bytes_of_text(text):
    """The bytes for which a text of a script stands."""
    out, at = bytearray(), 0
    while at < len(text):
        if text[at] == "~":
            out += b"\r\n"
        elif HEX.match(text, at):
            out += bytes.fromhex(text[at + 2 : at + 4])
            at += 3
        elif text[at] == "\\" and text[at + 1 : at + 2] in SIGNS:
            out += SIGNS[text[at + 1]]
            at += 1
        else:
            out += text[at].encode()
        at += 1
    return bytes(out)


def bytes_of_literal(token):
    """The bytes of a string of the code."""
    body = re.sub(r"\\\n\s*", "", token.removeprefix("b"))[1:-1]
    sign = lambda it: bytes.fromhex(it[2:]).decode("latin-1") if it[1] == "x" else {"0": "\0", "'": "'", '"': '"'}.get(it[1]) or SIGNS[it[1]].decode()
    plain = re.sub(r"\\(?:x[0-9a-fA-F]{2}|[nrt\\0'\"])", lambda it: sign(it.group()), body)
    return plain.encode("latin-1") if "\\x" in body else plain.encode()


class Stored:
    """The data of the stored runs: its lines, and the bytes that they put together or show."""

    def __init__(self):
        self.lines, self.bytes, self.numbers = 0, [], set()
        for crate in sorted(os.listdir(f"{TOP}/crates")):
            for name in ("args", "stdin", "stdout") if crate == "sws_main" or crate.startswith("run_") else ():
                path = f"{TOP}/crates/{crate}/{name}"
                if os.path.exists(path):
                    with open(path, encoding="utf-8") as it:
                        self.read(it.read())
        self.all = b"\0".join(self.bytes)

    def read(self, text):
        together, is_text = b"", False
        self.bytes.append(text.encode())
        for line in text.split("\n"):
            word, _, rest = line.partition(" ")
            times, _, more = rest.partition(" ")
            piece = None
            if is_text:
                is_text = line != "."
                piece = line.encode() + b"\n" if is_text else None
            elif word == "more":
                piece = bytes_of_text(more) * min(int(times), 100)
            elif word == "|":
                piece = bytes_of_text(rest)
            if piece is None and together:
                inner = b"".join(bytes_of_text(it[2:]) for it in together.decode("latin-1").split("\n") if it.startswith("| "))
                self.bytes += [together, inner]
                together = b""
            if word == "input" and piece is None:
                piece = bytes_of_text(rest)
            is_text |= line == "text"
            together += piece or b""
            self.bytes += [line.encode(), bytes_of_text(rest), bytes_of_text(more), bytes_of_text(rest.removeprefix("| ").removeprefix("send "))]
            self.lines += bool(line)
            self.numbers.update(re.findall(r"[0-9]+", line))

    def has(self, kind, it):
        if kind == "number":
            return it in self.numbers
        if kind == "variant":
            return it in PRINTED and PRINTED[it].encode() in self.all
        if kind != "text" or it[:1] not in ('"', "b"):
            return False
        text = bytes_of_literal(it)
        return any(form in self.all for form in (text, text.replace(b"~", b"\r\n"), text.replace(b" ", b"\n")))


class Tests:
    """What the test code of a crate has."""

    def __init__(self):
        self.found = {kind: collections.Counter() for kind in KINDS}
        self.tests = self.rows = self.asserts = 0
        self.own = set()

    def read(self, text):
        found, rows, own, (tests, asserts) = found_in(text)
        for kind in KINDS:
            self.found[kind].update(found[kind])
        self.rows, self.tests, self.asserts = self.rows + rows, self.tests + tests, self.asserts + asserts
        self.own |= own

    def values(self):
        return sum(sum(self.found[kind].values()) for kind in ("text", "number", "variant"))


def then(commit):
    crates = collections.defaultdict(Tests)
    listed = subprocess.run(["git", "ls-tree", "-r", "--name-only", commit, "crates"], cwd=TOP, capture_output=True, text=True, check=True)
    for path in filter(is_test_code, listed.stdout.splitlines()):
        shown = subprocess.run(["git", "show", f"{commit}:{path}"], cwd=TOP, capture_output=True, check=True)
        crates[path.split("/")[1]].read(shown.stdout.decode())
    return crates


def now():
    crates = collections.defaultdict(Tests)
    for at, folders, names in os.walk(f"{TOP}/crates"):
        folders[:] = [it for it in folders if it != "out"]
        for name in names:
            path = os.path.relpath(f"{at}/{name}", TOP)
            if is_test_code(path):
                with open(f"{TOP}/{path}", encoding="utf-8") as it:
                    crates[path.split("/")[1]].read(it.read())
    return crates


def content_of(text):
    return text[1:-1] if text.startswith('"') else ""


def is_in_pieces(text, texts):
    """Whether the text is some of these texts one after another, or a part of one of them."""
    whole = content_of(text)
    if len(whole) > 7 and any(whole in it for it in texts):
        return True
    pieces = [it for it in map(content_of, texts) if len(it) > 1]
    ends = {0}
    for at in range(len(whole)):
        if at in ends:
            ends |= {at + len(it) for it in pieces if whole.startswith(it, at)}
    return len(whole) > 1 and len(whole) in ends


def compared(crate, old, new, elsewhere, stored, fewer):
    """Prints what has become of the tests of a crate, and returns how many things are gone."""
    gone, moved, kept = 0, 0, 0
    values_then, values_now = old.values(), new.values()
    print(f"{crate}: tests {old.tests} then, {new.tests} now; rows {old.rows}, {new.rows}; ", end="")
    print(f"asserts {old.asserts}, {new.asserts}; values {values_then}, {values_now}")
    for kind in KINDS:
        for it, count in sorted(old.found[kind].items()):
            if kind in ("call", "constant") and it in old.own:
                continue
            left = new.found[kind][it]
            if left == 0 and kind == "text" and is_in_pieces(it, new.found[kind]):
                print(f"    in pieces: {it}")
            elif left == 0 and not elsewhere[kind][it] and stored.has(kind, it):
                kept += 1
            elif left == 0:
                moved += elsewhere[kind][it] > 0
                if not elsewhere[kind][it]:
                    print(f"    gone: {kind} {it}")
                    gone += 1
            elif fewer and left < count:
                print(f"    fewer: {kind} {it}: {count} then, {left} now")
    if moved:
        print(f"    in another crate: {moved}")
    if kept:
        print(f"    in the data of a stored run: {kept}")
    return gone


def main():
    words = [it for it in sys.argv[1:] if it != "--fewer"]
    if not words or words[0].startswith("-"):
        print(__doc__)
        return 2
    before, after, stored, gone = then(words[0]), now(), Stored(), 0
    everywhere = {kind: collections.Counter() for kind in KINDS}
    for it in after.values():
        for kind in KINDS:
            everywhere[kind].update(it.found[kind])
    for crate in sorted(set(before) | set(after)):
        if not words[1:] or crate in words[1:]:
            gone += compared(crate, before[crate], after[crate], everywhere, stored, "--fewer" in sys.argv)
    values_then, values_now = (sum(it.values() for it in list(tests.values())) for tests in (before, after))
    print(f"values in all: {values_then} then, {values_now} now in code, and {stored.lines} lines in stored runs")
    if values_now + stored.lines < values_then:
        print("fewer values than there were")
        gone += 1
    print(f"{gone} gone")
    return 1 if gone else 0


if __name__ == "__main__":
    sys.exit(main())
