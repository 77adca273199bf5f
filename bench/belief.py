#!/usr/bin/env python3
"""Lists the definitions that the main promises rest on, and writes docs/BELIEF.md.

    bench/belief.py [--check] [--of NAME] [--unknown]

For each promise it begins at the names in the clauses of a public call, follows the text of each definition to the names that this
imports or that stand in its file, through the specs/ of all crates, and ends at the kit's library and the ported crates. What is followed,
and how the text is read, says definitions.py. With --check nothing is written: the status is 1 where docs/BELIEF.md isn't what would be
written. With --of NAME it prints the chain of one definition alone, as `RanServe`, and with --unknown each name that stands for nothing
that it knows: only words of the language, variants, and fields that a record opens should come.

Counted is each line of a definition that isn't empty or a comment. The header of a module, whose parameters belong to all definitions below
it, isn't counted, but what it names is followed. A name of specs/ that is neither `abbrev`, `unfoldable`, `record` nor `data` can't be seen
through, so its type is all that is known of it: its type is followed, and its clauses, which are a proof, are not.
"""
import argparse
import difflib
import os
import re
import sys

from definitions import Item, Repository

TOP = os.path.dirname(os.path.dirname(os.path.abspath(__file__)))
PAGE = os.path.join(TOP, "docs", "BELIEF.md")


class Chain:
    """What some texts rest on, all the way down."""

    def __init__(self, repository, starts, impls=(), before=()):
        self.repository, self.impls = repository, dict(impls)
        self.items, self.base, self.unknown = {}, set(), set()
        for chain in before:
            self.items.update(chain.items)
            self.base |= chain.base
        self.follow(list(starts) + [given for item in list(self.items.values()) for given in self.given(item)])

    def follow(self, starts):
        work = list(starts)
        while work:
            item = work.pop()
            if id(item) in self.items:
                continue
            self.items[id(item)] = item
            if item.kind == "trait" and "." not in item.name:
                continue
            if item.kind != "clause":
                self.repository.read(item)
            item.below = self.below(item)
            work += item.below + self.given(item)

    def below(self, item):
        """The items that an item's text names, with the ghost members of the traits that it names."""
        found, traits = [], []
        bounds = [self.repository.stands_for(item, name, "") for name in getattr(item, "bounds", ())]
        for name, field in item.free:
            what = self.repository.stands_for(item, name, field)
            if what is None:
                self.unknown.add((item.path, item.name, name))
            elif not isinstance(what, Item):
                self.base.add(what)
            elif what.kind == "trait":
                traits.append(what)
            else:
                found.append(what)
        if item.kind == "trait":
            traits.append(self.repository.file(item.path).traits[item.name.split(".")[0]][""])
        names = item.fields | ({name for name, _field in item.free} if item.kind == "trait" else set())
        for trait in traits + [bound for bound in bounds if isinstance(bound, Item) and bound.kind == "trait"]:
            for members in self.repository.traits_above(trait):
                used = [members[name] for name in sorted(names) if name and name in members]
                found += ([members[""]] if used or trait in traits and members[""] is trait else []) + used
        return found

    def given(self, item):
        """What the impl gives for a ghost member, where the promise is of one impl of its trait."""
        trait, _dot, member = item.name.partition(".")
        given = self.impls.get(trait, {}) if item.kind == "trait" else {}
        return [given[member]] if member in given else []

    def way(self, starts, name):
        """The shortest way from some items to the definition of this name."""
        came, work = {id(item): None for item in starts}, list(starts)
        while work:
            item = work.pop(0)
            if item.kind == "definition" and item.name == name:
                way = []
                while item is not None:
                    way.insert(0, item)
                    item = came[id(item)]
                return [item for item in way if item.kind != "clause"]
            for below in item.below + self.given(item):
                if id(below) not in came and id(below) in self.items:
                    came[id(below)] = item
                    work.append(below)
        raise SystemExit(f"belief: no way leads to {name}")


class Entry:
    """What the page lists in one line: an item, or a trait or an impl with those of its ghost members that are used."""

    def __init__(self, items):
        items.sort(key=lambda item: item.line)
        first = items[0]
        self.kind, self.crate, self.path, self.line = first.kind, first.crate, first.path, first.line
        self.items, self.end = items, first.end
        self.count = sum(item.count for item in items)
        self.name = first.name.split(".")[0]
        self.comment = first.comment
        self.members = [item.name.partition(".")[2] for item in items if "." in item.name] if first.kind in ("trait", "impl") else []

    def key(self):
        return (self.path, self.line)

    def sentence(self):
        """The first sentence of the comment above."""
        text = re.sub(r"\[(`?[^\]]*`?)\]\([^)]*\)", r"\1", self.comment)
        text = re.split(r"(?<=[^.])\. |: \|", text + " ")[0].strip().rstrip(".:")
        return re.sub(r"\s+", " ", text)


def entries_of(repository, items):
    """The entries of some items, by a key each."""
    groups = {}
    for item in items:
        if item.kind == "clause":
            continue
        if item.kind in ("trait", "impl"):
            groups.setdefault((item.kind, item.path, item.name.split(".")[0]), []).append(item)
        else:
            groups[(item.kind, item.path, item.name)] = [item]
    entries = {}
    for (kind, path, name), group in groups.items():
        entry = Entry([item for item in group if kind != "trait" or "." in item.name] or group)
        if kind == "trait":
            head = repository.file(path).traits[name][""]
            entry.comment, entry.line, entry.end = head.comment, head.line, head.end
            entry.count = sum(item.count if "." in item.name else 1 for item in group)
        entries[(kind, path, name)] = entry
    return entries


def key_of(item):
    return (item.kind, item.path, item.name.split(".")[0] if item.kind in ("trait", "impl") else item.name)


def run_of(path, left, waits):
    """The entries of a file that can come next, one after another."""
    found = []
    for key in sorted((key for key in left if left[key].path == path), key=lambda key: left[key].line):
        if not (waits[key] & set(left)) - set(found):
            found.append(key)
    return found


def in_order(repository, entries):
    """The entries, each behind those that it names, and as far as this allows file by file, those of lower crates first."""
    rank = {crate: at for at, crate in enumerate(repository.below)}
    waits = {key: {key_of(below) for item in entry.items for below in item.below} & set(entries) - {key} for key, entry in entries.items()}
    left, ordered = dict(entries), []
    while left:
        files = sorted({(rank[entry.crate], entry.path) for entry in left.values()})
        runs = [run_of(path, left, waits) for _rank, path in files]
        whole = [run for run, (_rank, path) in zip(runs, files) if run and len(run) == sum(1 for entry in left.values() if entry.path == path)]
        run = (whole or [run for run in runs if run] or [[min(left)]])[0]
        ordered += [left.pop(key) for key in run]
    return ordered


class Part:
    """One part of a promise: what its clauses rest on, beside what the parts before it do."""

    def __init__(self, repository, title, starts, text, impls=(), before=()):
        self.title, self.text, self.starts = title, text, list(starts)
        self.chain = Chain(repository, starts, impls, before)
        there = {key for chain in before for key in chain.items}
        self.new = [item for key, item in self.chain.items.items() if key not in there and item.kind != "clause"]


def link(path, line=0):
    """A link from docs/ to a file of crates/, named without that folder."""
    name = path.replace(os.sep, "/").split("/", 1)[1]
    return f"[{name}{f':{line}' if line else ''}](../crates/{name}{f'#L{line}' if line else ''})"


def of_call(repository, place, word, title, impls=(), before=()):
    """The part of the clauses of a public call that begin with this word."""
    path, name = place
    contract = repository.must(path).contract(name)
    clauses = [clause for clause in contract.clauses if clause[0] == word]
    text = [f"`{name}`, {link(path, contract.line)}:", "", "```rust", *contract.text(clauses), "```"]
    return Part(repository, title, [contract.item(clause) for clause in clauses], text, impls, before)


def of_order(repository, order):
    """The part of `sws` for an order: its clause `ran`, cut by the case of the order."""
    path, spec = "crates/sws_top/src/ordering.rt", "crates/sws_top/specs/Ran.antt"
    contract = repository.must(path).contract("sws")
    ran = [clause for clause in contract.clauses if clause[1] == "ran"]
    start, lines = repository.must(spec).case("RanAs", order)
    text = [f"`sws`, {link(path, contract.line)}:", "", "```rust", *contract.text(ran), "```", "",
            f"`Ran` says that the order was run, or that there was no memory to read it. The case of this order, in {link(spec)}:", "",
            "```text", *lines, "```"]
    return Part(repository, "", [start], text)


CALLER = "What its caller has to show"
RUN_APP = ("crates/mely_app/src/running.rt", "run_app")
RUN_ACTORS = ("crates/mely_actor/src/running.rt", "run_actors")
SERVE_ONE = ("crates/sws_conn/src/serving.rt", "serve_one")
SERVE_ALL = ("crates/sws_engine/src/threads.rt", "serve_all")
KEEP_SERVING = ("crates/sws_lane/src/keeping.rt", "keep_serving")
REPLAY = ("crates/sws_replay/src/replaying.rt", "replay")
BY_SCHEDULE = ("crates/sws_replay/src/replaying.rt", "replay_by_schedule")
CHECK = ("crates/mely_check/src/checking.rt", "check_journal")


TEXTS = {
    "run_app": "Where it comes to its end, every event that was registered was run, on the state of its colour, once, in the order in which the "
               "events of that colour were registered, and there is a legal history for each shard.",
    "run_actors": "Where it comes to its end, the value of each colour keeps the author's fact over the messages that the colour received and those "
                  "that it sent. What was received is what was posted and what was sent, by the events under which messages stand in the histories. "
                  "One thread might have received all messages, one after another, each when it was under way.",
    "answer": "What is written is what the definition of the responses says of the bytes that are read, out of the files of the folder. "
              "`serve_one` says it of one connection over any link that lets contracts know what it carries.",
    "serve": "The world was opened for so many connections, and each was served. A connection whose link tells what it carries was sent a prefix "
             "of the responses to its input, and all of them where it is done; of one over a socket its calls and counts are promised. The "
             "histories are legal.",
    "keep_serving": "The promise of `swsd`, lane by lane: runs of the server follow one another, each over the world that the one before left and out of "
                    "the site of that time. Each leaves what `serve_all` promises, and the totals are their sums.",
    "replay": "What is written is the one transcript of the script, whatever the shape is and however the threads run. With a schedule every line "
              "of the journal is determined too.",
    "check": "A journal is accepted exactly where its bytes are those of a legal run of the setup that has come to its end; else the first line "
             "that is wrong is named.",
    "gopher": "What is said of `replay` and `serve` holds with Gopher in the place of HTTP: a connection is sent the answer to its first line, out "
              "of the folder.",
}


# the definitions at the core of each promise, to which the page shows the way
CORES = {"run_app": ["IsAllowed"], "run_actors": ["IsAllowed"], "answer": ["responses_of"], "serve": ["responses_of", "Exchanges", "IsAllowed"],
         "keep_serving": ["responses_of", "ServerLeaves"], "replay": ["transcript_of", "step"], "check": ["IsAllowed"], "gopher": ["reply_of"]}


def impls_of_http(repository):
    """What a connection of HTTP gives for the members of `Talk`: those of a connection over any speech, and what HTTP gives as one."""
    return {"Talk": repository.impl_of("Talk", "sws_steps", "SpeechConn"), "Speech": repository.impl_of("Speech", "sws_conn", "Http")}


def promises_of(repository):
    """The promises in the order in which the page has them, each with its parts."""
    talk = impls_of_http(repository)
    found = []

    def promise(name, title, first, *calls, impls=()):
        parts = [first]
        if impls:
            parts.append(Part(repository, "What a connection of HTTP gives for the members of `Talk`", [], [], impls, [first.chain]))
        for place, word, heading in calls:
            parts.append(of_call(repository, place, word, heading, impls, [part.chain for part in parts]))
        found.append((name, title, parts))

    promise("run_app", "an app on threads", of_call(repository, RUN_APP, "ensures", ""), (RUN_APP, "requires", CALLER))
    promise("run_actors", "actors with data", of_call(repository, RUN_ACTORS, "ensures", ""), (RUN_ACTORS, "requires", CALLER))
    promise("answer", "what one connection is sent", of_order(repository, "answer"),
            (SERVE_ONE, "ensures", "The call below it, over any link"), (SERVE_ONE, "requires", CALLER))
    promise("serve", "connections on threads", of_order(repository, "serve"),
            (SERVE_ALL, "ensures", "The call below it, over any world"), (SERVE_ALL, "requires", CALLER), impls=talk)
    promise("keep_serving", "one run of the server after another", of_call(repository, KEEP_SERVING, "ensures", ""),
            (KEEP_SERVING, "requires", CALLER), impls=talk)
    promise("replay", "a script has one transcript", of_order(repository, "replay"), (REPLAY, "ensures", "The call below it, on threads"),
            (BY_SCHEDULE, "ensures", "The call below it, by a schedule"), (REPLAY, "requires", CALLER), (BY_SCHEDULE, "requires", CALLER))
    promise("check", "a journal is accepted exactly where it is that of a legal run", of_order(repository, "check"),
            (CHECK, "ensures", "The call below it"))
    promise("gopher", "the same folder by another protocol", of_order(repository, "gopher"))
    return found




def counted(repository, items):
    """How many definitions, of how many lines, in how many files; and how many types, traits and views, of how many lines."""
    entries = list(entries_of(repository, items).values())
    specs = [entry for entry in entries if entry.kind in ("definition", "statement")]
    code = [entry for entry in entries if entry not in specs]
    lines = [sum(entry.count for entry in some) for some in (specs, code)]
    return len(specs), lines[0], len({entry.path for entry in specs}), len(code), lines[1]


def number(count, noun):
    return f"{count:,} {noun}{'' if count == 1 else 's'}"


KINDS = {"definition": "", "statement": "", "type": "the type ", "constant": "the constant ", "view": "the view of ", "trait": "of the trait ",
         "impl": "of the impl "}


def name_of(entry):
    """An entry by its name, with its kind and the members that are used."""
    members = f" ({', '.join(f'`{member}`' for member in entry.members)})" if entry.members else ""
    return f"{KINDS[entry.kind]}`{entry.name}`{members}"


def line_of(entry):
    """An entry's line where it has one of its own."""
    where = f"{entry.line}" if entry.end == entry.line or entry.kind in ("trait", "impl") else f"{entry.line}–{entry.end}"
    sentence = f": {entry.sentence()}" if entry.sentence() and entry.kind != "impl" else ""
    return f"- {name_of(entry)} ({where}){sentence}"


def listed(repository, items):
    """The entries of a chain, file by file, each with its words."""
    lines, here = [], None
    for entry in in_order(repository, entries_of(repository, items)):
        if entry.path != here:
            here = entry.path
            lines += ["", f"{link(here)}", ""]
        lines.append(line_of(entry))
    return lines[1:]


def named(repository, items):
    """The names of the entries of a chain, a line a file."""
    lines, here = [], None
    for entry in in_order(repository, entries_of(repository, items)):
        if entry.path != here:
            here = entry.path
            lines.append(f"- {link(here)}: {name_of(entry)}")
        else:
            lines[-1] += f", {name_of(entry)}"
    return lines


class Page:
    """docs/BELIEF.md."""

    def __init__(self, repository):
        self.repository, self.promises = repository, promises_of(repository)
        self.first, self.base = {}, set()

    def text(self):
        body = [line for name, title, parts in self.promises for line in self.promise(name, title, parts)]
        lines = [*joined(HEAD), "", *self.trusted(), "", *self.totals(), *body, *self.library()]
        return "\n".join(lines) + "\n"

    @staticmethod
    def heading(name, title):
        return f"`{name}`: {title}"

    def totals(self):
        """The table of totals."""
        lines = ["## How much it is", "",
                 "A row counts all that stands in the rows of its promise above it, too.", "",
                 "| Promise | With | Definitions | Lines | Files | Types, traits, views | Lines |", "|---|---|---|---|---|---|---|"]
        for name, title, parts in self.promises:
            anchor = re.sub(r"[^\w -]", "", self.heading(name, title).lower()).replace(" ", "-")
            shown = f"[`{name}`](#{anchor})"
            for part in parts:
                if part.new:
                    numbers = counted(self.repository, part.chain.items.values())
                    numbers = " | ".join(f"{number:,}" for number in numbers)
                    lines.append(f"| {shown} | {part.title or 'the promise'} | {numbers} |")
                    shown = ""
        contract = self.repository.must("crates/sws_top/src/ordering.rt").contract("sws")
        talk = impls_of_http(self.repository)
        whole = Chain(self.repository, [contract.item(clause) for clause in contract.clauses], talk)
        numbers = " | ".join(f"{number:,}" for number in counted(self.repository, whole.items.values()))
        lines.append(f"| all of `sws` | each command, the words, and the causes of faults | {numbers} |")
        files = list(self.repository.all_specs())
        items = [item for file in files for item in file.items]
        lines.append(f"| all of `specs/` | laws, and what only inner contracts name | {len(items):,} | {sum(item.count for item in items):,} | "
                     f"{sum(1 for file in files if file.items):,} | | |")
        return lines

    def promise(self, name, title, parts):
        """The section of a promise."""
        lines, shared = ["", f"## {self.heading(name, title)}", "", TEXTS[name]], {}
        for part in parts:
            new = [item for item in part.new if id(item) not in self.first]
            for item in part.new:
                if id(item) in self.first and (item.kind != "trait" or "." in item.name):
                    shared.setdefault(self.first[id(item)], []).append(item)
            if part.title:
                lines += ["", f"### {part.title}"]
            lines += ["", *part.text] if part.text else []
            lines += [line for core in CORES[name] for line in ("", self.way(core, parts))] if part is parts[0] else []
            lines += ["", self.said(part, new)]
            lines += ["", *named(self.repository, new)] if new else []
            self.first.update((id(item), name) for item in new)
            self.base |= part.chain.base
        if shared:
            lines += ["", f"### What `{name}` needs of what is listed above"]
        for above, _title, _parts in self.promises:
            names = [f"`{item.name}`" for item in sorted(shared.get(above, []), key=lambda item: (item.path, item.line))]
            lines += ["", f"Under `{above}`: {', '.join(names)}."] if names else []
        return lines

    @staticmethod
    def way(core, parts):
        """The way from a promise's first clause to a definition at its core."""
        steps = parts[-1].chain.way(parts[0].starts, core)
        shown = [f"`{step.name}`" + (f" ({step.crate})" if step.crate != before else "")
                 for step, before in zip(steps, [None] + [step.crate for step in steps])]
        return f"From the clause to `{core}` ({Entry(steps[-1:]).sentence()}): {', '.join(shown)}."

    def said(self, part, new):
        """How much a part adds, and how much of it is new on the page."""
        if not part.new:
            return "This adds nothing."
        specs, lines, files, code, of_code = counted(self.repository, part.new)
        text = f"{'This adds' if part.title else 'It rests on'} {number(specs, 'definition')} of {number(lines, 'line')} in {number(files, 'file')}"
        text += f", and {number(code, 'item')} of the code (types, traits, views) of {number(of_code, 'line')}." if code else "."
        here = counted(self.repository, new)
        if not new:
            text += " All of them are listed above."
        elif here[0] < specs:
            text += f" Not listed above are {number(here[0], 'definition')} of {number(here[1], 'line')}:"
        return text

    def trusted(self):
        """The trusted base, with the ported crates and the adapters by name."""
        below = self.repository.below
        needed, work = set(), ["sws_main", "swsd", "mely_actor", "mely_check"]
        while work:
            crate = work.pop()
            if crate not in needed and crate in below:
                needed.add(crate)
                work += below[crate]
        ported = {}
        for crate in below:
            for name in below[crate] if crate in needed else []:
                if name not in below:
                    ported.setdefault(name, []).append(crate)
        users = [f"  - `{name}` (below {', '.join(f'`{crate}`' for crate in crates)})" for name, crates in sorted(ported.items())]
        return [*joined(TRUSTED), *users, "", "What the adapters let contracts know:", "", *self.adapters()]

    def adapters(self):
        """What the adapters of sws_net give for the ghost members of their traits."""
        lines = ["| Adapter | Trait | What it gives |", "|---|---|---|"]
        folder = os.path.join("crates", "sws_net", "src")
        for name in sorted(os.listdir(os.path.join(TOP, folder))):
            file = self.repository.file(os.path.join(folder, name))
            for trait, by, members in file.impls:
                texts = [" ".join(file.code[slice(*member.span)].split()) for member in members.values()]
                given = [f"`{text.removeprefix('ghost ')}`" for text in texts]
                if given:
                    lines.append(f"| `{by}`, {link(file.path)} | `{trait}` | {', '.join(given)} |")
        return lines

    def library(self):
        """The names of the kit's library and of the ported crates at which the chains end."""
        modules = {}
        for path in self.base:
            module, _dot, name = path.rpartition(".")
            modules.setdefault(module, []).append(name)
        lines = ["", "## Where the chains end", "", *joined(LIBRARY), ""]
        return lines + [f"- `{module}`: {', '.join(f'`{name}`' for name in sorted(modules[module]))}" for module in sorted(modules)]


HEAD = """
# What must be believed

A proof shows that the code meets its contract. It can't show that the contract says what you want. So whoever relies on one of the promises below
believes two things: that the definitions which its clauses name mean what they are taken for, and that what every proof rests on is right.
This page lists both; nothing in `proofs/` has to be read. [READING.md](READING.md) says how to read a clause and a definition.

For each of eight promises, of public calls, it gives the clauses word for word, and then the chain: every definition that they name, that those name in
turn, and so on, file by file, each behind those that it needs. [DEFINITIONS.md](DEFINITIONS.md) has their words. What
several promises need is listed once, under the first of them. Beside the definitions there are types of the code, whose fields and variants
contracts see as they are; views, which are what contracts see of a type with private fields; and ghost members of traits, which are values
that each implementation gives for contracts alone; what such a member means is said by the contracts of its trait's functions, as those of
`read` and `write` say it of what a link tells.

A definition counts with its lines that aren't empty or comments. One that can't be seen through, as where a proof finds a value, counts with
its type, which is all that is known of it.

`bench/belief.py` made this page from the sources; `bench/belief.py --check` says whether it is still what the sources say, and
`bench/belief.py --of NAME` prints the chain of any other definition.
"""

TRUSTED = """
## What every proof rests on

- **The kit**: Rattle's prover, which makes the statements of contracts and code and checks each proof; its compiler; and its library, of
  which the definitions that these chains end at are named at the end of this page.
- **LLVM and the C library**, which the program is built with. The gate also builds each program by Rattle's own compiler and compares what
  the two print.
- **The operating system**: its files, streams, sockets, clock and threads. No contract knows what a socket carries or a disk holds. The
  server is written over the traits of `sws_link`, and `sws_net` implements them by the machine. These adapters are the trusted edge: they let
  contracts know nothing of contents (`None` below), so over them a clause that speaks of contents says nothing, and one that speaks of calls,
  counts and endings holds as it stands. That the bytes which a client gets are those that were passed to the socket is trusted.
- **The ported crates** of the kit: that they do what their contracts say. The program and the runtime use:
"""

LIBRARY = """
These names are the kit's, or a ported crate's, and aren't followed: lists, numbers and options, whose signs [READING.md](READING.md) gives, and
the grammars of requests, dates and percent signs that `httparse`, `httpdate` and `percent_encoding` bring. Each stands in the folder of its
crate in the kit.
"""


def joined(text):
    """The paragraphs and points of a text, each in one line."""
    return re.sub(r"\n(?=[^\n#-])(?<!\n\n) *", " ", text.strip("\n")).split("\n")


def unknown_of(page):
    """The names that stand for nothing known, with where they stand."""
    found = set()
    for _name, _title, parts in page.promises:
        for part in parts:
            found |= part.chain.unknown
    return sorted(f"{path}: {item}: {name}" for path, item, name in found)


def only(repository, name):
    """The chain of a definition, for a look; of each, where several files have one of that name."""
    found = [file for file in repository.all_specs() if name in file.scope.own]
    for file in found:
        chain = Chain(repository, [file.scope.own[name]])
        numbers = counted(repository, chain.items.values())
        print(f"`{name}` of {file.path}: " + "{} definitions of {} lines in {} files; {} types, traits and views of {} lines".format(*numbers))
        print("\n".join(listed(repository, chain.items.values())))
    if not found:
        raise SystemExit(f"belief: there is no definition {name}")


def main():
    words = argparse.ArgumentParser(description=__doc__.split("\n", maxsplit=1)[0])
    words.add_argument("--check", action="store_true", help="compare docs/BELIEF.md with what would be written")
    words.add_argument("--of", metavar="NAME", help="print the chain of one definition")
    words.add_argument("--unknown", action="store_true", help="print the names that stand for nothing known")
    words = words.parse_args()
    repository = Repository(TOP)
    if words.of:
        only(repository, words.of)
        return
    page = Page(repository)
    text = page.text()
    if words.unknown:
        print("\n".join(unknown_of(page)))
    elif words.check:
        there = ""
        if os.path.exists(PAGE):
            with open(PAGE, encoding="utf-8") as file:
                there = file.read()
        if there != text:
            sys.stdout.writelines(difflib.unified_diff(there.splitlines(True), text.splitlines(True), "docs/BELIEF.md", "from the sources", n=0))
            raise SystemExit(1)
    else:
        with open(PAGE, "w", encoding="utf-8") as file:
            file.write(text)


if __name__ == "__main__":
    main()
