#!/usr/bin/env python3
"""Tries the mutants that the gate leaves out: bodies with one slip in them, which a check must refuse.

    bench/mutants.py [CRATE..] [--all] [--checks] [--jobs N]
    bench/mutants.py --apply [CRATE..]
    bench/mutants.py --list [CRATE..]
    bench/mutants.py --since COMMIT [CRATE..]
    bench/mutants.py --docs

A crate's edits stand in two folders and have one form. `must-fail/` has those that tell most of its contracts, and the gate tries
them; `mutants/` has the others, of which rt knows nothing. With no option this tries the edits of `mutants/` of these crates, or of all:
in a copy of the crates below the system's temporary folder, where they stand in `must-fail/`, by `rt ci CRATE..`, which takes what the
gate has proved on this machine as proved (what it hasn't is proved first), runs the tests of these crates and of those below them once
more, and tries each edit. With --all the crates' own `must-fail/` are tried too. With --checks it is `rt must-fail CRATE..` in the copy:
over what `rt check` has kept on this machine, and without the tests; a library below that no check has built is built first, one
after another. So many jobs run at once, else as many as rt sees fit. What has come out is kept by rt, so that an edit is
tried again only where something has changed that it stands on.

It prints a line for each edit (`refused`, `NOT REFUSED`, `does not apply` or `not tried`, with the reason) and one of the sums; what rt
says meanwhile goes to standard error. The status is 1 where an edit isn't refused or doesn't apply (or doesn't compile), and 2
where it is else not known of one.

--apply only looks whether each edit of both folders applies: whether each text after `old:` stands exactly once in its file. --list prints
each edit with its folder. --since says which of the edits that there were at a commit are in neither folder of their crate any
more, or have another text now. --docs looks whether docs/PROMISES.md, which bench/pages.py makes, names each edit, and each time with the
mark of its folder: in bold where it stands in `must-fail/`, plain where in `mutants/`. Of a name that several crates have, that one is meant
which the section's heading names, or else the one that was named last. These want neither rt nor time.
"""
import argparse
import os
import re
import shutil
import subprocess
import sys
import tempfile
from collections import Counter
from typing import NamedTuple

TOP = os.path.dirname(os.path.dirname(os.path.abspath(__file__)))
PROMISES = os.path.join(TOP, "docs", "PROMISES.md")
GATE, REST = "must-fail", "mutants"

# What rt says of an edit: `rt: must-fail mely_core/a_pop_passes_the_front.edit: refused, as it must be: ..`.
SAID = re.compile(r"rt: must-fail (\w+)/([\w.-]+)\.edit: (.*)")
REASON = re.compile(r"(?:BAD EDIT|NOT TRIED|NOT REFUSED|refused, as it must be)[:,]? ?(.*)")
# A name in code, in bold or not.
SPAN = re.compile(r"(\*\*)?`([\w.-]+)`(\*\*)?")


class Edit(NamedTuple):
    """An edit's crate, its folder there and its name, which is that of its file without its end."""

    crate: str
    folder: str
    name: str

    @property
    def path(self):
        return f"crates/{self.crate}/{self.folder}/{self.name}.edit"

    @property
    def file(self):
        return os.path.join(TOP, self.path)


def read(path):
    with open(path, encoding="utf-8") as file:
        return file.read()


def crates_named(names):
    """These crates, or all of them; an edit of a crate that is gone is one of none."""
    have = sorted(name for name in os.listdir(os.path.join(TOP, "crates")) if os.path.isdir(os.path.join(TOP, "crates", name)))
    for name in names:
        if name not in have:
            raise SystemExit(f"mutants: {name} is no crate of this repository")
    return [name for name in have if name in names or not names]


def edits_of(crates):
    """The edits of these crates, by crate, folder and name, and what else lies in their folders."""
    edits, others = [], []
    for crate in crates:
        for folder in (GATE, REST):
            at = os.path.join(TOP, "crates", crate, folder)
            for name in sorted(os.listdir(at)) if os.path.isdir(at) else ():
                if re.fullmatch(r"[\w-][\w.-]*\.edit", name) and os.path.isfile(os.path.join(at, name)):
                    edits.append(Edit(crate, folder, name.removesuffix(".edit")))
                elif not name.endswith(".md"):
                    others.append(f"crates/{crate}/{folder}/{name}: no edit")
    return edits, others


def fault_of(edit):
    """Why an edit doesn't apply, by rt's rules, or nothing: pairs of lines, each on what those before it made."""
    file, old, texts, before = None, None, {}, {}
    for line in read(edit.file).split("\n"):
        if line.startswith("file: "):
            file = line.removeprefix("file: ").strip()
            if not os.path.normpath(file) == file or not file.startswith(("src/", "specs/", "proofs/")):
                return f"{file} is no file below src/, specs/ or proofs/"
        elif line.startswith("old: "):
            old = line.removeprefix("old: ")
        elif line.startswith("new:"):
            if file is None or not old:
                return "a text after `new:` has no file or no text after `old:` before it"
            path = os.path.join(TOP, "crates", edit.crate, file)
            if file not in texts:
                if not os.path.isfile(path):
                    return f"there is no file {file}"
                texts[file] = before[file] = read(path)
            count = texts[file].count(old)
            if count != 1:
                return f"a text after `old:` stands {count} times in {file}, and not once: {old.strip()}"
            texts[file] = texts[file].replace(old, line.removeprefix("new:").removeprefix(" "))
            old = None
        elif line.strip() and not line.startswith(("#", "--", "//")):
            return f"a line that isn't read: {line.strip()}"
    return None if texts != before else "it changes nothing"


def faults(edits, others):
    """What is wrong with the edits as they lie there, a line each."""
    told = list(others)
    for edit in edits:
        why = fault_of(edit)
        if why:
            told.append(f"{edit.path}: does not apply: {why}")
    for (crate, name), count in Counter((edit.crate, edit.name) for edit in edits).items():
        if count > 1:
            told.append(f"crates/{crate}: {name} stands in both folders")
    return told


def copy_to(room, edits):
    """Copies what a check reads into a new folder, where only these edits must fail."""
    out_of_place = lambda at, names: [name for name in names if name in ("out", GATE, REST) and os.path.dirname(at) == f"{TOP}/crates"]
    shutil.copytree(f"{TOP}/crates", f"{room}/crates", ignore=out_of_place)
    for name in ("crates.txt", "HANDLES"):
        shutil.copyfile(f"{TOP}/{name}", f"{room}/{name}")
    # It is the top of a repository.
    os.mkdir(f"{room}/.git")
    for edit in edits:
        at = f"{room}/crates/{edit.crate}/{GATE}"
        os.makedirs(at, exist_ok=True)
        shutil.copyfile(edit.file, f"{at}/{edit.name}.edit")


def run_rt(room, words, jobs):
    """Runs rt in the copy, passes on what it says of other things, and gives what it said of each edit."""
    env = {key: value for key, value in os.environ.items() if key != "CI"}
    if jobs:
        env["RT_JOBS"] = str(jobs)
    said, last = {}, None
    with subprocess.Popen(words, cwd=room, env=env, stdout=subprocess.PIPE, stderr=subprocess.STDOUT, text=True, errors="replace") as rt:
        for line in rt.stdout:
            found = SAID.match(line)
            if found:
                last = found[1], found[2]
                said[last] = found[3]
            elif last and said[last].endswith("the first lines of what it said:"):
                said[last] += f" {line.strip()}"
            elif not line.rstrip().endswith(": proved"):
                sys.stderr.write(line)
                sys.stderr.flush()
    return said


def verdict_of(text):
    """What rt's words for an edit come to: the verdict, and what there is to say besides."""
    if text is None:
        return "not tried", "rt said nothing of it, so its crate or one below isn't proved"
    found = REASON.match(text)
    reason = found[1] if found else text
    if text.startswith("refused"):
        if "(only by a limit" in text:
            return "refused", "only by a limit of the prover"
        return "refused", "only as a proof names what is gone" if "(only because" in text else ""
    if text.startswith("NOT REFUSED"):
        return "NOT REFUSED", "the crate is still proved with it"
    return "does not apply" if text.startswith("BAD EDIT") else "not tried", reason


def try_edits(edits, by_checks, jobs):
    """Tries the edits, and prints a line for each and one of the sums."""
    bad = {edit: why for edit in edits for why in [fault_of(edit)] if why}
    good = [edit for edit in edits if edit not in bad]
    said = {}
    if good:
        if not shutil.which("rt"):
            raise SystemExit("mutants: there is no rt on the path; --apply, --list, --since and --docs want none")
        words = ["rt", "must-fail" if by_checks else "ci", *sorted({edit.crate for edit in good})]
        with tempfile.TemporaryDirectory(prefix="mutants-") as room:
            copy_to(room, good)
            said = run_rt(room, words, jobs)
    sums, weak = Counter(), 0
    for edit in edits:
        verdict, reason = ("does not apply", bad[edit]) if edit in bad else verdict_of(said.get((edit.crate, edit.name)))
        sums[verdict] += 1
        weak += verdict == "refused" and bool(reason)
        print(f"{edit.crate}/{edit.name}: {verdict}{': ' if reason else ''}{reason}")
    print(
        f"{len(edits)} edits: {sums['refused']} refused, of which {weak} tell little of a contract; {sums['NOT REFUSED']} not refused; "
        f"{sums['does not apply']} don't apply; {sums['not tried']} not tried"
    )
    return 1 if sums["NOT REFUSED"] or sums["does not apply"] else 2 if sums["not tried"] else 0


def git(*words, given=None):
    ran = subprocess.run(["git", "-C", TOP, *words], input=given, stdout=subprocess.PIPE, text=True)
    if ran.returncode:
        raise SystemExit(f"mutants: git {words[0]} failed")
    return ran.stdout


def since(commit, crates, edits):
    """What became of the edits of a commit, a line for each that isn't as it was."""
    sums = git("hash-object", "--stdin-paths", given="".join(f"{edit.path}\n" for edit in edits)).split()
    now = {(edit.crate, edit.name): sum for edit, sum in zip(edits, sums)}
    then = {}
    for line in git("ls-tree", "-r", "--full-tree", commit, "crates/").splitlines():
        found = re.fullmatch(rf"\S+ blob (\w+)\tcrates/(\w+)/(?:{GATE}|{REST})/([\w.-]+)\.edit", line)
        if found:
            then[found[2], found[3]] = found[1]
    then = {key: sum for key, sum in then.items() if key[0] in crates or not os.path.isdir(f"{TOP}/crates/{key[0]}")}
    gone = [key for key in then if key not in now]
    changed = [key for key in then if key in now and now[key] != then[key]]
    told = [f"{crate}/{name}: gone" for crate, name in gone] + [f"{crate}/{name}: changed" for crate, name in changed]
    told += [f"{len(then)} edits at {commit}: {len(gone)} gone, {len(changed)} changed; {len(now)} now, {len(set(now) - set(then))} of them new"]
    return told, bool(gone or changed)


class Reader:
    """Reads PROMISES from its head on, and finds which edit a name in code is."""

    def __init__(self, edits, crates):
        self.edits, self.crates = {}, set(crates)
        for edit in edits:
            self.edits.setdefault(edit.name, []).append(edit)
        # The crates that the heading of the section names, and those that the section has named.
        self.heading, self.named = set(), []

    def begin(self, line):
        """Takes the line in, if it begins a section."""
        if line.startswith("#"):
            self.heading, self.named = {name for _, name, _ in SPAN.findall(line) if name in self.crates}, []

    def meant(self, name):
        """The edits that a name may stand for here: one, none where it is another word, more where the section doesn't say of which crate."""
        if name in self.crates:
            self.named.append(name)
        found = self.edits.get(name, [])
        found = [edit for edit in found if edit.crate in self.heading] or found
        last = next((crate for crate in reversed(self.named) if crate in [edit.crate for edit in found]), None)
        return [edit for edit in found if edit.crate == last] if last and len(found) > 1 else found


def wrong_in(text, edits, crates):
    """What is wrong with the text of PROMISES: edits without the mark of their folder, and those that it doesn't name."""
    reader, named, told = Reader(edits, crates), set(), []
    for number, line in enumerate(text.split("\n"), 1):
        reader.begin(line)
        for before, name, behind in SPAN.findall(line):
            meant = reader.meant(name)
            is_bold = bool(before and behind)
            if len(meant) > 1:
                told.append(f"docs/PROMISES.md:{number}: {name} is an edit of {' and '.join(edit.crate for edit in meant)}")
            elif not meant and is_bold:
                told.append(f"docs/PROMISES.md:{number}: {name} is in bold, and no edit")
            elif meant:
                named.add(meant[0])
                if is_bold != (meant[0].folder == GATE) or bool(before) != bool(behind):
                    told.append(f"docs/PROMISES.md:{number}: {name} hasn't the mark of {meant[0].folder}/ of {meant[0].crate}")
    return told + [f"docs/PROMISES.md: {edit.name} of {edit.crate} is not named" for edit in edits if edit not in named]


def main():
    parser = argparse.ArgumentParser(description="Tries the mutants that the gate leaves out; the head of this file says more.")
    parser.add_argument("crates", metavar="CRATE", nargs="*", help="crates of this repository; without any it is all of them")
    parser.add_argument("--all", action="store_true", help="the edits of must-fail/ too")
    parser.add_argument("--checks", action="store_true", help="by rt must-fail, over what rt check has kept, in place of rt ci")
    parser.add_argument("--jobs", type=int, default=0, help="how many checks run at once")
    does = parser.add_mutually_exclusive_group()
    does.add_argument("--apply", action="store_true", help="only look whether each edit applies")
    does.add_argument("--list", action="store_true", help="print each edit with its folder")
    does.add_argument("--since", metavar="COMMIT", help="say which edits of a commit are gone or changed")
    does.add_argument("--docs", action="store_true", help="look whether PROMISES names each edit with its mark")
    given = parser.parse_args()
    crates = crates_named(given.crates)
    edits, others = edits_of(crates)
    count = Counter(edit.folder for edit in edits)
    sums = f"{len(edits)} edits: {count[GATE]} in {GATE}/, {count[REST]} in {REST}/"
    if given.list:
        for edit in edits:
            print(f"{edit.crate} {edit.folder} {edit.name}")
        print(sums)
        return 0
    if given.apply:
        told = faults(edits, others)
        print("\n".join([*told, f"{sums}; {len(told)} wrong"]))
        return 1 if told else 0
    if given.since:
        told, is_less = since(given.since, crates, edits)
        print("\n".join(told))
        return 1 if is_less else 0
    if given.docs:
        if given.crates:
            raise SystemExit("mutants: --docs is over all crates")
        told = wrong_in(read(PROMISES), edits, crates)
        print("\n".join([*told, f"{sums}; {len(told)} wrong in docs/PROMISES.md"]))
        return 1 if told else 0
    return try_edits([edit for edit in edits if given.all or edit.folder == REST], given.checks, given.jobs)


if __name__ == "__main__":
    sys.exit(main())
