#!/usr/bin/env python3
"""Writes docs/DEFINITIONS.md and docs/PROMISES.md from the sources, and says how many bytes the documents have.

    bench/pages.py             writes both pages
    bench/pages.py --check     status 1 where a page isn't what would be written, or the table of mutants names what isn't there
    bench/pages.py --sizes [COMMIT]     the bytes of each page, by hand and generated; of a commit beside them
    bench/pages.py --names     the names in code on the pages by hand that stand nowhere else in the repository: what was renamed, or never was
    bench/pages.py --above CRATE        the crates that depend on a crate, directly or not

DEFINITIONS has each definition of specs/ that the contract of a public function names, or that those name in turn: its name, and the words above
it, file by file.

PROMISES has crate by crate each public function: the first paragraph of its comment, its clauses by name with the facts that each is made of, and
the mutants that they refuse. What no clause says, as what tests show and what isn't promised, is written by hand in docs/promises/CRATE.md,
and stands at the head of the crate's section, so its links are as from docs/; docs/promises/HEAD.md is the head of the page. A mutant stands at
the public function that it edits. One that another clause refuses has a row in docs/promises/mutants.txt: `crate: function clause ..; function ..: mutant ..`.

What both read, and how, says definitions.py.
"""
import argparse
import difflib
import glob
import os
import re
import subprocess
import sys

from definitions import Repository, words_above
from mutants import GATE, crates_named, edits_of, read

TOP = os.path.dirname(os.path.dirname(os.path.abspath(__file__)))
BY_HAND = os.path.join(TOP, "docs", "promises")
ROWS = os.path.join(BY_HAND, "mutants.txt")
GENERATED = {"docs/BELIEF.md", "docs/DEFINITIONS.md", "docs/PROMISES.md"}
# Crates of which the pages say no more than what they are.
PLAIN = re.compile(r"(test|run)_|measure$")


def link(path):
    """A link from docs/ to a file of a crate, named by the file."""
    return f"[{os.path.basename(path)}](../{path.replace(os.sep, '/')})"


def plain(words):
    """The words of a comment without links that lead nowhere from docs/."""
    words = re.sub(r"\[(`[^`\]]*`)\](?:\([^)]*\))?", r"\1", words)
    return re.sub(r"(?<![!\]])\[([^\]`]*)\]\((?!http)[^)]*\)", r"\1", words)


def sections(repository):
    """The crates by the headings of crates.txt, in its order."""
    found = []
    with open(os.path.join(repository.top, "crates.txt"), encoding="utf-8") as file:
        for line in file:
            name, colon, _below = line.partition("#")[0].partition(":")
            if line.startswith("# ---- "):
                found.append((line.removeprefix("# ---- ").split(", since")[0].strip(), []))
            elif colon:
                found[-1][1].append(name.split()[0])
    return found


# ---- DEFINITIONS

HEAD = """\
# Definitions

What contracts are made of, crate by crate: each definition of `specs/` that the contract of a public function names, or that those name in turn,
with the words that stand above it there; **in bold** what a contract names itself. `bench/pages.py` makes this page of the sources. To believe what
is promised, read these and the clauses that cite them; nothing in `proofs/` has to be read. Which of them one promise rests on, in order, says
[BELIEF.md](BELIEF.md); what the signs mean [READING.md](READING.md); who names one, `grep -rlw NAME crates`.

They are over plain lists and numbers. In those of histories, heads, answers, responses and outcomes no thread, lock, queue, buffer or cursor
occurs, and a core is a number in a history's entry; those of queues, shards, chains, the lock and a connection's steps say what these things are.
A list of bytes is a list of numbers below 256, and a prefix may be the empty list or the whole. The *ghost model* of an object of the outside is its
contents as far as contracts know them, the member `tells` of its trait; an object without one goes on without."""


def is_fact(item):
    """Whether a definition is a fact, a record or a type, and so says more than a value."""
    return item.name[0].isupper()


def defined(repository):
    """The definitions of the page, by id, and the ids of those that contracts name themselves."""
    found, work = {}, []
    for crate in repository.below:
        for function in repository.public_functions(crate):
            for clause in function.contract.clauses:
                work += repository.defined_by(function.contract.item(clause))
    named = {id(item) for item in work}
    while work:
        item = work.pop()
        if id(item) not in found:
            found[id(item)] = item
            work += repository.defined_by(item)
    return found, named


def fields_of(repository, item):
    """The fields of a definition that have words of their own, with these."""
    lines, found, words = repository.file(item.path).lines, [], []
    for line in lines[item.span[0] + 1:item.span[1]]:
        field = re.match(r"\s*pub ([^\s:]+) :", line)
        if line.strip().startswith("--"):
            words.append(line.strip()[2:].strip())
        elif field and words:
            found.append((field.group(1), " ".join(words)))
        if not line.strip().startswith("--"):
            words = []
    return found


def words_of(repository, item):
    """The words above a definition, or above the module that it is in, or those that it shares with the definition above it."""
    file = repository.file(item.path)
    for first in [item.line - 1, *[first for first, _last in reversed(item.headers)]]:
        words = " ".join(words_above(file.lines, first, "--"))
        if words:
            return plain(words)
        before = [other for other in file.items if other.line < item.line]
        if before and (first == item.line - 1) and before[-1].headers == item.headers:
            return f"with `{before[-1].name}`"
    return "(no words)"


def row_of(repository, item, is_named):
    """A definition's line, in bold where a contract names it."""
    fields = [f"`{name}`: {plain(text)}" for name, text in fields_of(repository, item)]
    name = f"**`{item.name}`**" if is_named else f"`{item.name}`"
    return f"- {name}: {words_of(repository, item)}" + (f". {'; '.join(fields)}" if fields else "")


def definitions(repository):
    """docs/DEFINITIONS.md."""
    there, (found, named) = {}, defined(repository)
    for item in found.values():
        there.setdefault(item.crate, {}).setdefault(item.path, []).append(item)
    lines = [HEAD]
    for title, crates in sections(repository):
        crates = [crate for crate in crates if (crate in there or members_of(repository, crate)) and not PLAIN.match(crate)]
        lines += ["", f"## {title}"] if crates else []
        for crate in crates:
            lines += ["", f"### `{crate}`", *views_of(repository, crate), *members_of(repository, crate)]
            for path in sorted(there.get(crate, [])):
                head = " ".join(above(repository.file(path).lines))
                lines += ["", f"{link(path)}{f': {plain(head)}' if head else ''}", ""]
                lines += [row_of(repository, item, id(item) in named) for item in sorted(there[crate][path], key=lambda item: item.line)]
    return "\n".join(lines) + "\n"


def members_of(repository, crate):
    """The ghost members of a crate's public traits: values that each implementation gives for contracts alone."""
    lines, names = [], repository.public_names(crate)[0] if repository.root_of(crate).path.endswith("lib.rt") else set()
    for file in repository.sources_of(crate):
        for trait, members in sorted(file.traits.items()):
            rows = [f"- `{member.name.replace('.', '::')}`: {plain(member.comment).rstrip('.')}" for name, member in members.items() if name]
            if trait in names and rows:
                lines += ["", f"{link(file.path)}: what an implementation of `{trait}` gives for contracts alone", "", *rows]
    return lines


def views_of(repository, crate):
    """What contracts see of a crate's public types with private fields."""
    rows, names = [], repository.public_names(crate)[0]
    for file in repository.sources_of(crate):
        for name, view in sorted(file.views.items()):
            value = re.search(r"\{\s*(.*?)\s*\}\s*;?$", " ".join(file.code[slice(*view.spans[0])].split()))
            rows += [f"`{name}` as `{value.group(1)}`"] if name in names and value else []
    return ["", f"Seen by contracts: {', '.join(rows)}."] if rows else []


def above(lines):
    """The comment at the head of a file."""
    found = []
    for line in lines:
        if not line.startswith("--"):
            return found
        found.append(line[2:].strip())
    return found


# ---- PROMISES

class Mutants:
    """Where each mutant stands on the page: at the functions and clauses that refuse it."""

    def __init__(self, repository):
        self.repository, self.wrong = repository, []
        self.edits, _others = edits_of(crates_named([]))
        self.public = {crate: list(repository.public_functions(crate)) for crate in repository.below}
        self.rows = self.read_rows()
        self.wrong += [f"docs/promises/{name}: there is no such crate" for name in sorted(os.listdir(BY_HAND))
                       if name.endswith(".md") and name != "HEAD.md" and name.removesuffix(".md") not in repository.below]
        self.at = {}
        for edit in self.edits:
            self.place(edit)

    def read_rows(self):
        """The rows of the table: by crate and mutant, functions with their clauses."""
        rows = {}
        for number, line in enumerate(read(ROWS).split("\n"), 1):
            if not line.strip() or line.startswith("#"):
                continue
            crate, clauses, names = line.split(": ")
            places = [part.split() for part in clauses.split("; ")]
            for words in places:
                self.look(number, crate, words)
            for name in names.split():
                if not any((edit.crate, edit.name) == (crate, name) for edit in self.edits):
                    self.wrong.append(f"docs/promises/mutants.txt:{number}: {crate} has no mutant {name}")
                rows[crate, name] = places
        return rows

    def look(self, number, crate, words):
        """Looks whether the function and the clauses of a row are there."""
        known = [function for function in self.public.get(self.crate_of(words[0], crate), []) if function.name == self.bare(words[0])]
        clauses = {clause[1] for function in known for clause in function.contract.clauses}
        if not known:
            self.wrong.append(f"docs/promises/mutants.txt:{number}: there is no public function {words[0]}")
        self.wrong += [f"docs/promises/mutants.txt:{number}: {words[0]} has no clause {word}" for word in words[1:] if known and word not in clauses]

    @staticmethod
    def crate_of(name, crate):
        return name.split("/")[0] if "/" in name else crate

    @staticmethod
    def bare(name):
        return name.split("/")[-1]

    def place(self, edit):
        """Puts an edit where it belongs: by its row, or else at the function that it edits."""
        places = self.rows.get((edit.crate, edit.name))
        if places:
            first = places[0]
            also = [f"`{self.bare(words[0])}`{self.named(words[1:])}" for words in places[1:]]
            self.add((self.crate_of(first[0], edit.crate), self.bare(first[0])), edit, first[1:], also)
            return
        function = self.edited(edit)
        known = function is not None and any(function.name == other.name for other in self.public[edit.crate])
        self.add((edit.crate, function.name if known else ""), edit, [], [f"in `{function.name}`"] if function and not known else [])

    @staticmethod
    def named(clauses):
        return f", {', '.join(f'`{clause}`' for clause in clauses)}" if clauses else ""

    def add(self, key, edit, clauses, also):
        self.at.setdefault(key, {}).setdefault((tuple(clauses), tuple(also)), []).append(edit)

    def edited(self, edit):
        """The function in which the first text of an edit stands, or none."""
        words = dict(line.split(": ", 1) for line in reversed(read(edit.file).split("\n")) if line.startswith(("file: ", "old: ")))
        file = self.repository.file(os.path.join("crates", edit.crate, words["file"].strip()))
        at = file.text.find(words["old"]) if file else -1
        line = file.line_of(at + len(words["old"]) - len(words["old"].lstrip())) if at >= 0 else 0
        return next((function for function in file.functions() if function.line <= line <= function.end()), None) if file else None

    def of(self, crate, name):
        """What the page says of the mutants at a place."""
        parts = []
        for (clauses, also), edits in sorted(self.at.get((crate, name), {}).items(), key=lambda part: (bool(part[0][1]), part[0])):
            where = [*([", ".join(f"`{clause}`" for clause in clauses)] if clauses else []), *also]
            for of in sorted({edit.crate for edit in edits}, key=lambda of: (of != crate, of)):
                names = [f"**`{edit.name}`**" if edit.folder == GATE else f"`{edit.name}`"
                         for edit in sorted(edits, key=lambda edit: (edit.folder != GATE, edit.name)) if edit.crate == of]
                parts.append((f"of `{of}` " if of != crate else "") + ", ".join(names) + (f" ({'; '.join(where)})" if where else ""))
        return "; ".join(parts)


class Promises:
    """docs/PROMISES.md."""

    def __init__(self, repository):
        self.repository, self.mutants = repository, Mutants(repository)

    def text(self):
        lines = [read(os.path.join(BY_HAND, "HEAD.md")).rstrip("\n"), "", *self.waiting()]
        for title, crates in sections(self.repository):
            lines += ["", f"## {title}"]
            plain_ones = [crate for crate in crates if self.is_plain(crate)]
            for crate in crates:
                if crate not in plain_ones:
                    lines += self.crate(crate)
            lines += [""] if plain_ones else []
            lines += [self.short(crate) for crate in plain_ones]
        return "\n".join(lines) + "\n"

    def is_plain(self, crate):
        return not os.path.exists(self.by_hand(crate)) and not self.mutants.public[crate] or PLAIN.match(crate) is not None

    @staticmethod
    def by_hand(crate):
        return os.path.join(BY_HAND, f"{crate}.md")

    def page(self, crate):
        """The first paragraph of a crate's page, and a link to the rest."""
        root = self.repository.root_of(crate)
        first = plain(self.repository.page_of(crate)[0])
        return f"{first} ([page](../{root.path.replace(os.sep, '/')}))"

    def short(self, crate):
        """A crate of which only safety is promised, in a line."""
        mutants = [self.mutants.of(crate, name) for of, name in sorted(self.mutants.at) if of == crate]
        return f"- `{crate}`: {self.page(crate)}" + (f" Mutants: {'; '.join(mutants)}." if mutants else "")

    def crate(self, crate):
        lines = ["", f"### `{crate}`", "", self.page(crate)]
        if os.path.exists(self.by_hand(crate)):
            lines += ["", read(self.by_hand(crate)).strip("\n")]
        here = None
        for function in self.mutants.public[crate]:
            if function.file.path != here:
                here = function.file.path
                lines += ["", link(here), ""]
            lines.append(self.function(crate, function))
        inside = self.mutants.of(crate, "")
        return lines + (["", f"*Mutants inside:* {inside}."] if inside else [])

    def function(self, crate, function):
        """A function's line."""
        words = plain(function.words()).rstrip(".")
        text = f"- `{function.name}`{f': {words}' if words else ''}."
        for word, title in (("requires", "Requires"), ("ensures", "Ensures")):
            clauses = [self.clause(function, clause) for clause in function.contract.clauses if clause[0] == word]
            text += f" *{title}:* {', '.join(clauses)}." if clauses else ""
        text += "" if function.contract.clauses else " No clause."
        mutants = self.mutants.of(crate, function.name)
        self.mutants.at.pop((crate, function.name), None)
        return text + (f" *Mutants:* {mutants}." if mutants else "")

    def clause(self, function, clause):
        """A clause by its name, with the facts that it is made of."""
        facts = ", ".join(f"`{item.name}`" for item in self.repository.defined_by(function.contract.item(clause)) if is_fact(item))
        name = f"`{clause[1]}`" if clause[1] else facts or "a clause without a name"
        return name + (f" ({facts})" if facts and clause[1] else "")

    def waiting(self):
        """The public functions that need not return."""
        lines = []
        for crate, functions in self.mutants.public.items():
            names = [f"`{function.name}`" for function in functions if function.may_wait()]
            lines += [f"- `{crate}`: {', '.join(names)}"] if names and not PLAIN.match(crate) else []
        return lines


# ---- Sizes

def pages_now():
    """The pages with their bytes."""
    paths = ["README.md", *glob.glob("docs/**/*.md", root_dir=TOP, recursive=True), *glob.glob("docs/promises/*.txt", root_dir=TOP)]
    return {path: os.path.getsize(os.path.join(TOP, path)) for path in paths}


def pages_then(commit):
    words = ["git", "-C", TOP, "ls-tree", "-r", "-l", commit, "README.md", "docs"]
    rows = [line.split(None, 4) for line in subprocess.run(words, capture_output=True, text=True, check=True).stdout.splitlines()]
    return {row[4]: int(row[3]) for row in rows if row[4].endswith((".md", ".txt"))}


def sizes(commit):
    """A line for each page, and the sums."""
    now, then = pages_now(), pages_then(commit) if commit else {}
    groups = {"generated": [], "sources of PROMISES": [], "by hand": []}
    for path in sorted({*now, *then}):
        group = "generated" if path in GENERATED else "sources of PROMISES" if path.startswith("docs/promises/") else "by hand"
        groups[group].append(path)
    for group, paths in groups.items():
        for path in paths:
            print(f"{path}: {now.get(path, 0):,}" + (f", at {commit} {then.get(path, 0):,}" if commit else ""))
        total = sum(now.get(path, 0) for path in paths)
        print(f"{group}: {total:,} bytes" + (f", at {commit} {sum(then.get(path, 0) for path in paths):,}" if commit else ""))


def unknown_names():
    """The names in code of the pages by hand that stand nowhere in the other files of the repository, each with its page."""
    listed = subprocess.run(["git", "-C", TOP, "ls-files"], capture_output=True, text=True, check=True).stdout.splitlines()
    known = set()
    for path in listed:
        if not path.startswith("docs/") and path != "README.md" and os.path.isfile(os.path.join(TOP, path)):
            with open(os.path.join(TOP, path), encoding="utf-8", errors="replace") as file:
                known |= set(re.findall(r"\w+", f"{path} {file.read()}"))
    for page in sorted(pages_now()):
        text = re.sub(r"^ *```.*?^ *```", "", read(os.path.join(TOP, page)), flags=re.M | re.S) if page not in GENERATED else ""
        for span in re.findall(r"`([^`\n]+)`", text):
            for name in re.findall(r"[A-Za-z_]\w{3,}", span):
                if name not in known:
                    yield f"{page}: {name} in `{span}`"


def above_crate(below, crate):
    """The crates that depend on a crate, in the order of crates.txt."""
    found, more = {crate}, True
    while more:
        new = {name for name, uses in below.items() if found & set(uses)} - found
        found, more = found | new, bool(new)
    return [name for name in below if name in found - {crate}]


def main():
    parser = argparse.ArgumentParser(description=__doc__.split("\n", maxsplit=1)[0])
    parser.add_argument("--check", action="store_true", help="compare the pages with what would be written")
    parser.add_argument("--sizes", nargs="?", const="", metavar="COMMIT", help="print the bytes of each page")
    parser.add_argument("--names", action="store_true", help="print the names of the pages by hand that stand nowhere else")
    parser.add_argument("--above", metavar="CRATE", help="print the crates that depend on this one")
    given = parser.parse_args()
    if given.sizes is not None:
        sizes(given.sizes)
        return 0
    if given.names:
        print("\n".join(unknown_names()))
        return 0
    repository = Repository(TOP)
    if given.above:
        print("\n".join(above_crate(repository.below, given.above)))
        return 0
    promises = Promises(repository)
    pages = {"docs/DEFINITIONS.md": definitions(repository), "docs/PROMISES.md": promises.text()}
    print(*promises.mutants.wrong, sep="\n", end="\n" if promises.mutants.wrong else "")
    differ = bool(promises.mutants.wrong)
    for path, text in pages.items():
        there = read(os.path.join(TOP, path)) if os.path.exists(os.path.join(TOP, path)) else ""
        if given.check and there != text:
            differ = True
            sys.stdout.writelines(difflib.unified_diff(there.splitlines(True), text.splitlines(True), path, "from the sources", n=0))
        elif not given.check:
            with open(os.path.join(TOP, path), "w", encoding="utf-8") as file:
                file.write(text)
    return 1 if differ else 0


if __name__ == "__main__":
    sys.exit(main())
