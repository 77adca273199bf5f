#!/usr/bin/env python3
"""Replays the shell examples of README.md and docs/*.md against the built program, and compares what it prints.

    bench/readme.py [--list] [--program PATH] [--seconds N] [PAGE ..]

An example is a line `$ COMMAND` in a block of `sh` or `console`, with the lines of its here-document or those that a backslash joins to it;
what stands below it, up to the next such line, is what it is to print, on standard output and standard error together. A block without a
`$` only shows commands, and isn't run. A line `...` stands for any number of lines, and blanks at the end of a line don't count.

Run are only: `./sws ..` and `./swsd ..`, which are the programs that were built (nothing is built here), `curl ..` of 127.0.0.1 alone, `printf ..` into one of
these by `|`, and `wait`; behind a further `|` also cat, grep, head, sed, sort, tail and wc. Everything else is skipped, as is a line that
writes a file, or has `;`, `&&`, `||` or a substitution, and with it what follows in its block, which may need what it would have done. Where
there is no curl, its lines are skipped.

`&` at the end leaves a command running: then comes what it prints so far, behind the lines of a later command what it printed since, as far
as it is shown there, and behind `wait` the rest. At the end of its block what still runs is ended. Each port of a block (`--port N`,
`127.0.0.1:N`) is replaced by a free one, also in what is to be printed. One date of HTTP is as good as another.

It prints a line for each example, with the differences where there are any, and ends with status 0 if there are none, 1 if there are, and 2
where the program isn't built. The commands run at the top of the repository, each within the time of --seconds.
"""
import argparse
import difflib
import glob
import os
import re
import shlex
import shutil
import signal
import socket
import subprocess
import sys
import threading
import time

TOP = os.path.dirname(os.path.dirname(os.path.abspath(__file__)))
PROGRAM = os.path.join(TOP, "crates", "sws_main", "out", "sws_main")
DAEMON = os.path.join(TOP, "crates", "swsd", "out", "swsd")
PAGES = ["README.md", "docs/*.md"]
DATE = re.compile(r"\w{3}, \d{2} \w{3} \d{4} \d{2}:\d{2}:\d{2} GMT")
FILTERS = {"cat", "grep", "head", "sed", "sort", "tail", "wc"}
MARK = re.compile(r"<<-?\s*(['\"]?)(\w+)\1")


class Example:
    """A command of a page with what it is to print."""

    def __init__(self, page, line, command):
        self.page, self.line, self.command, self.expected = page, line, command, []

    def first(self):
        return self.command.split("\n", maxsplit=1)[0]

    def is_background(self):
        return re.search(r"(?<!&)&\s*(#.*)?$", self.first()) is not None


def blocks_of(page, text):
    """The blocks of a page that are of the shell, each as its examples."""
    lines, at = text.split("\n"), 0
    while at < len(lines):
        fence = re.match(r"(\s*)(`{3,})\s*(\S*)", lines[at])
        at += 1
        if not fence:
            continue
        first = at
        while at < len(lines) and lines[at].strip() != fence.group(2):
            at += 1
        if fence.group(3) in ("sh", "console"):
            inside = [line.removeprefix(fence.group(1)) for line in lines[first:at]]
            yield first + 1, examples_of(page, first + 1, inside)
        at += 1


def examples_of(page, number, lines):
    """The examples of a block whose first line has this number."""
    found, at = [], 0
    while at < len(lines):
        if lines[at].startswith("$ "):
            example = Example(page, number + at, lines[at][2:])
            while example.command.endswith("\\") and at + 1 < len(lines):
                at += 1
                example.command += "\n" + lines[at].removeprefix("> ")
            mark = MARK.search(example.command)
            while mark and at + 1 < len(lines):
                at += 1
                example.command += "\n" + lines[at]
                if lines[at].strip() == mark.group(2):
                    break
            found.append(example)
        elif found and not re.match(r"\[\d+\]", lines[at]):
            found[-1].expected.append(lines[at])
        at += 1
    for example in found:
        while example.expected and not example.expected[-1].strip():
            example.expected.pop()
    return found


def why_not(command):
    """Why a command isn't run, or none."""
    line = MARK.sub(" ", re.sub(r"\\\n", " ", command).split("\n")[0])
    reader = shlex.shlex(line, posix=True, punctuation_chars=True)
    reader.whitespace_split = True
    try:
        words = list(reader)
    except ValueError:
        return "it can't be read"
    if "$(" in line or "`" in line:
        return "it has a substitution"
    words = words[:-1] if words and words[-1] == "&" else words
    words = [word for at, word in enumerate(words) if not (word in (">&", ">") and words[at + 1:at + 2] in (["1"], ["/dev/null"]))]
    if any(re.fullmatch(r"[;&()<>|]+", word) and word not in ("|", "<") for word in words):
        return "it is more than a pipeline, or writes a file"
    stages, stage = [], []
    for word in words + ["|"]:
        if word == "|":
            stages.append(stage)
            stage = []
        else:
            stage.append(word)
    return why_not_stages(stages)


def why_not_stages(stages):
    """Why a pipeline of these commands isn't run, or none."""
    if not all(stages):
        return "it can't be read"
    first = stages[0][0]
    if first == "printf" and len(stages) == 1 or first not in ("./sws", "./swsd", "curl", "printf", "wait"):
        return f"{first} isn't run"
    for stage in stages[1:]:
        if stage[0] not in FILTERS | {"./sws", "curl"}:
            return f"{stage[0]} isn't run"
    for stage in stages:
        if stage[0] == "curl":
            hosts = [re.match(r"(?:\w+://)?([^/:]+)", word).group(1) for word in stage[1:] if re.match(r"(\w+://|[\d.]+[:/]|localhost)", word)]
            if not hosts or set(hosts) != {"127.0.0.1"}:
                return "curl is of another machine"
            if shutil.which("curl") is None:
                return "there is no curl"
    if first == "./swsd" and not os.access(DAEMON, os.X_OK):
        return "swsd isn't built"
    return None


def free_port():
    with socket.socket() as taken:
        taken.bind(("127.0.0.1", 0))
        return taken.getsockname()[1]


class Job:
    """A command that was started, in a group of its own, with what it has printed."""

    def __init__(self, command):
        self.text = b""
        self.process = subprocess.Popen(["bash", "-c", command], cwd=TOP, stdin=subprocess.DEVNULL, stdout=subprocess.PIPE,
                                        stderr=subprocess.STDOUT, start_new_session=True)
        self.reader = threading.Thread(target=self.read, daemon=True)
        self.reader.start()

    def read(self):
        while piece := os.read(self.process.stdout.fileno(), 65536):
            self.text += piece

    def lines(self):
        lines = self.text.decode(errors="replace").split("\n")
        return lines if lines[-1] else lines[:-1]

    def wait(self, until):
        """Waits for the end; answers whether it came in time."""
        try:
            self.process.wait(max(0.0, until - time.monotonic()))
        except subprocess.TimeoutExpired:
            return False
        self.reader.join(max(0.1, until - time.monotonic()))
        return True

    def wait_lines(self, count, until):
        """Waits for so many lines, or for the end."""
        while len(self.lines()) < count and self.process.poll() is None and time.monotonic() < until:
            time.sleep(0.02)
        if self.process.poll() is not None:
            self.reader.join(max(0.1, until - time.monotonic()))

    def end(self):
        """Ends it, where it still runs; answers whether it did."""
        if self.process.poll() is not None:
            return False
        os.killpg(self.process.pid, signal.SIGTERM)
        if not self.wait(time.monotonic() + 5):
            os.killpg(self.process.pid, signal.SIGKILL)
            self.process.wait()
        return True


def is_as(expected, actual):
    """Whether these lines are those that are expected, where `...` stands for any number of them, and a date for any date."""
    expected, actual = ([DATE.sub("DATE", line.rstrip()) for line in lines] for lines in (expected, actual))
    pattern = "".join("(?:.*\n)*?" if line.strip() in ("...", "…") else re.escape(line) + "\n" for line in expected)
    return re.fullmatch(pattern, "".join(line + "\n" for line in actual)) is not None


class Session:
    """A block's examples, one after another, with what runs beside them."""

    def __init__(self, program, seconds):
        self.program, self.seconds = program, seconds
        self.jobs, self.shown, self.ports = [], [], {}

    def with_ports(self, text):
        for port in re.findall(r"--port[ =](\d+)|127\.0\.0\.1:(\d+)", text):
            self.ports.setdefault(port[0] or port[1], None)
        for port, other in self.ports.items():
            self.ports[port] = other or free_port()
            text = re.sub(rf"(?<!\d){port}(?!\d)", str(self.ports[port]), text)
        return text

    def run(self, example):
        """Runs an example; answers what it was to print, and what it printed."""
        until = time.monotonic() + self.seconds
        command = self.with_ports(example.command)
        command = re.sub(r"(^|[|]\s*)\./sws\b", lambda found: found.group(1) + shlex.quote(self.program), command)
        command = re.sub(r"^\./swsd\b", shlex.quote(DAEMON), command)
        command = re.sub(r"(^|[|]\s*)curl\b", r"\1curl -sS", command)
        expected = [self.with_ports(line) for line in example.expected]
        if example.first().split()[0] == "wait":
            in_time = all([job.wait(until) for job in self.jobs])
            return expected, self.since(None) + ([] if in_time else [self.late()])
        if example.is_background():
            first, line_end, rest = command.partition("\n")
            job = Job(re.sub(r"&\s*(#.*)?$", "", first) + line_end + rest)
            self.jobs.append(job)
            self.shown.append(0)
            job.wait_lines(len(expected), until)
            while not expected and not self.listens(command) and job.process.poll() is None and time.monotonic() < until:
                time.sleep(0.02)
            return expected, self.since(len(expected))
        job = Job(command)
        in_time = job.wait(until)
        actual = job.lines() + ([] if in_time else [self.late()])
        job.end()
        more = 0 if "..." in expected else len(expected) - len(actual)
        if in_time and more > 0:
            for other in self.jobs:
                other.wait_lines(self.shown[self.jobs.index(other)] + more, until)
            actual += self.since(more)
        return expected, actual

    def late(self):
        return f"(not done within {self.seconds} seconds)"

    @staticmethod
    def listens(command):
        """Whether something listens at the port of a command, or it has none."""
        port = re.search(r"(?:--port[ =]|--listen[ =]\S*:)(\d+)", command)
        with open("/proc/net/tcp", encoding="ascii") as table:
            rows = [row.split() for row in table]
        return port is None or any(row[1].endswith(f":{int(port.group(1)):04X}") and row[3] == "0A" for row in rows[1:])

    def since(self, count):
        """What the jobs printed since it was last shown, so many lines at most."""
        found = []
        for at, job in enumerate(self.jobs):
            lines = job.lines()[self.shown[at]:]
            lines = lines if count is None else lines[:count - len(found)]
            self.shown[at] += len(lines)
            found += lines
        return found

    def end(self):
        return [job.end() for job in self.jobs]


def replay(page, text, program, seconds):
    """Replays the examples of a page; answers how many differ, and how many were run."""
    differ = count = 0
    for line, examples in blocks_of(page, text):
        if not examples:
            print(f"{page}:{line}: skipped: the block shows commands alone")
        session, skipped = Session(program, seconds), None
        for example in examples:
            why = f"behind line {skipped}, which is skipped" if skipped else why_not(example.command)
            if why:
                skipped = skipped or example.line
                print(f"{page}:{example.line}: skipped: {why}: {example.first()}")
                continue
            expected, actual = session.run(example)
            count += 1
            if is_as(expected, actual):
                print(f"{page}:{example.line}: ok: {example.first()}")
                continue
            differ += 1
            print(f"{page}:{example.line}: differs: {example.first()}")
            for row in list(difflib.unified_diff(expected, actual, lineterm="", n=1))[2:]:
                print(f"    {row}")
        session.end()
    return differ, count


def show(page, text):
    """Prints the examples of a page, and what would be done with each."""
    for line, examples in blocks_of(page, text):
        if not examples:
            print(f"{page}:{line}: not run: the block shows commands alone")
        for example in examples:
            why = why_not(example.command)
            print(f"{page}:{example.line}: {f'not run: {why}' if why else 'run'}: {example.first()} ({len(example.expected)} lines)")


def main():
    words = argparse.ArgumentParser(description=__doc__.split("\n", maxsplit=1)[0])
    words.add_argument("--list", action="store_true", help="print the examples, and run none")
    words.add_argument("--program", default=PROGRAM, help="the program to run in place of the built one")
    words.add_argument("--seconds", type=int, default=20, help="the time of one example")
    words.add_argument("pages", nargs="*", help="the pages, README.md and docs/*.md where none is named")
    words = words.parse_args()
    pages = words.pages or sorted({os.path.relpath(path, TOP) for some in PAGES for path in glob.glob(os.path.join(TOP, some))})
    if not words.list and not os.access(words.program, os.X_OK):
        print(f"readme: {os.path.relpath(words.program, TOP)} isn't built; ./sws builds it", file=sys.stderr)
        sys.exit(2)
    differ = count = 0
    for page in pages:
        with open(os.path.join(TOP, page), encoding="utf-8") as file:
            text = file.read()
        if words.list:
            show(page, text)
        else:
            some = replay(page, text, os.path.abspath(words.program), words.seconds)
            differ, count = differ + some[0], count + some[1]
    if not words.list:
        print(f"{count} examples run, {differ} differ")
    sys.exit(1 if differ else 0)


if __name__ == "__main__":
    main()
