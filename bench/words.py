#!/usr/bin/env python3
"""Compares what ./sws and ./swsd answer before a build (scripts/words.sh, scripts/swsd.txt) with what the built programs say, and what
whole runs of the built sws say with what they are to: its stored run can't end with a fault too.

    words.py --check    status 1 where they differ; programs that aren't built are left out
    words.py --write    writes scripts/swsd.txt, the help of the built swsd
"""
import os
import subprocess
import sys
import tempfile

TOP = os.path.dirname(os.path.dirname(os.path.abspath(__file__)))
HELP = f"{TOP}/scripts/swsd.txt"
SWS, SWSD = f"{TOP}/crates/sws_main/out/sws_main", f"{TOP}/crates/swsd/out/swsd"

# Words that need no program, and of which one line of standard error is the program's own too.
WRONG = {"sws": [["nonsense"], ["--workers"], []], "swsd": [["--nonsense"], [], ["folder", "--log", "--lane", "3"]]}

SITE = f"{TOP}/crates/sws_main/data/site"
NOT_UNDERSTOOD = "sws: the command line is not understood\n"

# A schedule of two workers and the script of a connection that sends nothing: its transcript and every entry of the run.
SCHEDULED = "sws-schedule 1\nstep 0 6\nstep 1 12\nend\nsws-script 1\nconn\n"
ENTRIES = """conn 0 done 0
shard 0 22
reg 0 0 0 2
take 0 0 1
reg 1 2 0 0
fin 0 0 1
take 1 1 1
reg 0 0 1 1
reg 2 3 0 1
fin 1 1 1
steal 2 0 1
take 0 0 1
take 2 1 1
fin 0 0 1
reg 2 4 0 1
fin 2 1 1
take 2 1 1
reg 2 5 0 1
fin 2 1 1
take 2 1 1
reg 2 8 0 1
fin 2 1 1
take 2 1 1
fin 2 1 1
"""

# Runs of the built sws: words, standard input, and the status, standard output and standard error that are wanted.
RUNS = [
    (["answer", SITE, "--date", "soon"], "", (2, "", NOT_UNDERSTOOD)),
    (["gopher", SITE, "--host", "-x", "--port", "70"], "", (2, "", NOT_UNDERSTOOD)),
    (["replay", SITE, "--workers", "2", "--cost", "5", "--schedule"], SCHEDULED, (0, ENTRIES, "")),
    (["answer", f"{SITE}/nowhere"], "", (4, "", "sws: reading failed\n")),
]


def said(words, given=""):
    run = subprocess.run(words, capture_output=True, text=True, timeout=20, input=given)
    return run.returncode, run.stdout, run.stderr


def unbuilt(folder):
    """A copy of the scripts in which no program is built."""
    for name in ("sws", "swsd", "app", "crates.txt", "HANDLES", "scripts"):
        subprocess.run(["cp", "-R", f"{TOP}/{name}", folder], check=True)
    os.makedirs(f"{folder}/crates")
    return folder


def differences():
    with tempfile.TemporaryDirectory() as folder:
        unbuilt(folder)
        if os.access(SWSD, os.X_OK):
            for words in (["--help"], ["--version"]):
                if said([f"{folder}/swsd", *words]) != said([SWSD, *words]):
                    yield f"swsd {words[0]}: ./swsd says something else than the program"
        for name, program in (("sws", SWS), ("swsd", SWSD)):
            for words in WRONG[name] if os.access(program, os.X_OK) else []:
                early, late = said([f"{folder}/{name}", *words]), said([program, *words])
                if early[0] != late[0] or early[2].split("\n")[0] != late[2].split("\n")[0]:
                    yield f"{name} {' '.join(words)}: ./{name} begins with {early[0]} {early[2][:60]!r}, the program with {late[0]} {late[2][:60]!r}"
        for words in (["--help"], ["--version"]):
            if said([f"{folder}/sws", *words])[0] != 0:
                yield f"sws {words[0]}: not answered"
    for words, given, wanted in RUNS if os.access(SWS, os.X_OK) else []:
        if (got := said([SWS, *words], given)) != wanted:
            yield f"sws {' '.join(words)}: {got} in place of {wanted}"


def main():
    if sys.argv[1:] == ["--write"]:
        with open(HELP, "w", encoding="utf-8") as it:
            it.write(said([SWSD, "--help"])[1])
    elif sys.argv[1:] == ["--check"]:
        found = list(differences())
        print(*found, f"words: {len(found)} differ", sep="\n")
        sys.exit(1 if found else 0)
    else:
        sys.exit(__doc__)


main()
