#!/usr/bin/env python3
"""Uses `swsd` by the programs that people use it with, on this machine's loopback, and says a line a case: what was expected and what came.

    bench/clients.py [--only WORD] [--quick] [--program PATH]

It wants the program built (`./swsd --version`). The clients are git, apt, wget, curl, aria2c, h2load, ab, siege, slowhttptest and Chromium; one that
isn't installed is named, and its cases are left out. Each case has a server, a folder and clients of its own, which are ended and removed behind
it; none of them asks any other machine. With `--quick` it takes less than a minute, else less than five. The status is 0 where all that was tried
came out as expected, else 1.
"""
import argparse
import atexit
import calendar
import collections
import contextlib
import fcntl
import functools
import gzip
import hashlib
import json
import os
import re
import resource
import select
import shutil
import signal
import subprocess
import sys
import tempfile
import threading
import time
import urllib.parse

import staying
from staying import HEAD, Server, put, site

MEGABYTE = 1 << 20
LARGE = 16 * MEGABYTE
# As long as the script may take, in seconds: with all cases, and with the quick ones.
LONGEST, LONGEST_QUICK = 290, 58
# What another client is to wait at most beside many slow ones, in seconds, on a machine at rest.
SOON = 0.05


# ---- clients

def use(words, folder, seconds=60, **more):
    """Runs a client in a folder that is its home: its status, and what it said. After so many seconds it is ended with all that it began."""
    environment = {name: value for name, value in os.environ.items() if not name.lower().endswith("_proxy")}
    environment |= {"HOME": folder, "TMPDIR": folder, "LC_ALL": "C.UTF-8", **more}
    child = subprocess.Popen(words, cwd=folder, env=environment, stdin=subprocess.DEVNULL, stdout=subprocess.PIPE, stderr=subprocess.STDOUT, text=True,
                             errors="replace", start_new_session=True)
    try:
        said, _ = child.communicate(timeout=seconds)
        return child.returncode, said
    except subprocess.TimeoutExpired:
        return None, f"not done within {seconds} s"
    finally:
        end_group(child)


def parents():
    """The parent of each process of this machine."""
    found = {}
    for name in filter(str.isdigit, os.listdir("/proc")):
        with contextlib.suppress(OSError), open(f"/proc/{name}/stat") as file:
            found[int(name)] = int(file.read().rpartition(")")[2].split()[1])
    return found


def descendants(pid):
    """The processes that a process has begun, and those that these have."""
    children = collections.defaultdict(list)
    for one, parent in parents().items():
        children[parent].append(one)
    found, left = [], [pid]
    while left:
        found += children[left[-1]]
        left += children[left.pop()]
    return found


def end_descendants(pid):
    """Ends what a process has begun, and answers what that was."""
    others = descendants(pid)
    for one in others:
        with contextlib.suppress(ProcessLookupError):
            os.kill(one, signal.SIGKILL)
    return others


def end_group(child):
    """Ends a client that leads a session, and all that it began, also in sessions of their own; and waits until they are gone."""
    others = end_descendants(child.pid)
    with contextlib.suppress(ProcessLookupError):
        os.killpg(child.pid, signal.SIGKILL)
    child.communicate()
    until = time.monotonic() + 5
    while any(os.path.exists(f"/proc/{pid}") for pid in others) and time.monotonic() < until:
        time.sleep(0.02)


@contextlib.contextmanager
def room():
    with tempfile.TemporaryDirectory(prefix="swsd-client-", ignore_cleanup_errors=True) as folder:
        yield folder


def end_with_log(server):
    """Stops a server that keeps a log: its status, and how many answers had each code."""
    server.stop()
    out, _ = server.child.communicate(timeout=60)
    codes = collections.Counter(int(line.split(" ")[3]) for line in out.splitlines() if line.startswith("log "))
    return server.child.returncode, codes


def in_words(codes):
    return ", ".join(f"{count} of {code}" for code, count in sorted(codes.items())) or "no answers"


def digest(path):
    with open(path, "rb") as file:
        return hashlib.sha256(file.read()).hexdigest()


def tree(folder):
    """The files below a folder, by their paths, with what they hold."""
    found = {}
    for place, _, names in os.walk(folder):
        for name in names:
            path = os.path.join(place, name)
            found[os.path.relpath(path, folder)] = digest(path)
    return found


def write(folder, name, text):
    path = os.path.join(folder, name)
    os.makedirs(os.path.dirname(path), exist_ok=True)
    with open(path, "wb") as file:
        file.write(text)
    return path


@functools.cache
def noise(size):
    """Bytes that no compression makes shorter, the same each time."""
    return hashlib.shake_128(b"noise").digest(size)


def wait_for(server, target, is_there):
    """Asks for a target until its answer is as wanted, some seconds at most."""
    until = time.monotonic() + 10
    while not is_there(server.ask(HEAD.replace(b"/a.txt", target))):
        if time.monotonic() > until:
            return False
        time.sleep(0.1)
    return True


# ---- git

def git(folder, *words):
    status, said = use(["git", "-c", "user.name=x", "-c", "user.email=x@localhost", "-c", "init.defaultBranch=main", *words], folder,
                       GIT_CONFIG_NOSYSTEM="1", GIT_TERMINAL_PROMPT="0")
    if status != 0:
        raise RuntimeError(f"git {words[0]}: {status}, {said.strip()[-200:]}")
    return said


def commit(work, number):
    write(work, f"folder {number % 5}/file-{number}.txt", b"%d\n" % number)
    git(work, "add", ".")
    git(work, "commit", "-q", "-m", f"state {number}")


def git_clone(is_quick):
    """A repository that was packed in part, cloned by plain files (`git update-server-info`), and pulled once it has changed."""
    count = 6 if is_quick else 40
    with site() as folder, room() as own:
        work, bare = os.path.join(own, "work"), os.path.join(folder, "repo.git")
        git(own, "init", "-q", work)
        write(work, "noise.bin", noise(300_000))
        for number in range(count):
            commit(work, number)
            if number == count // 2:
                git(work, "gc", "-q")
        git(work, "tag", "-a", "-m", "a tag", "first")
        git(own, "clone", "-q", "--bare", work, bare)
        git(bare, "update-server-info")
        with Server(folder, "--log-format", "short") as server:
            copy = os.path.join(own, "copy")
            git(own, "clone", "-q", f"http://127.0.0.1:{server.port}/repo.git", copy)
            git(copy, "fsck", "--full")
            is_whole = git(copy, "rev-parse", "HEAD", "first^{}") == git(work, "rev-parse", "HEAD", "first^{}")
            commit(work, count)
            git(work, "push", "-q", bare, "main")
            git(bare, "update-server-info")
            newest = git(work, "rev-parse", "HEAD").strip()
            wait_for(server, b"/repo.git/info/refs", lambda answer: newest.encode() in answer)
            git(copy, "pull", "-q")
            is_newest = git(copy, "rev-parse", "HEAD").strip() == newest
            status, codes = end_with_log(server)
    yield status == 0 and is_whole and is_newest, f"{count} commits and a tag, then one more", \
        f"{'whole' if is_whole else 'otherwise'}, {'the newest' if is_newest else 'not the newest'} after a pull ({in_words(codes)})"


# ---- apt

APT = """Dir "{own}/";
Dir::State::status "{own}/status";
Dir::Etc "{own}/etc/";
APT::Architecture "{architecture}";
APT::Architectures {{ "{architecture}"; }};
APT::Sandbox::User "root";
Acquire::Languages "none";
Acquire::http::Proxy::127.0.0.1 "DIRECT";
"""
CONTROL = "Package: {name}\nVersion: {version}\nArchitecture: all\nMaintainer: x <x@localhost>\nDescription: a package to be fetched\n"


def make_package(folder, name, version, size):
    """A Debian package with one file of this size, and its stanza of an index but for its place."""
    with room() as own:
        write(own, "root/DEBIAN/control", CONTROL.format(name=name, version=version).encode())
        write(own, f"root/usr/share/{name}/noise", noise(size))
        os.makedirs(folder, exist_ok=True)
        made = os.path.join(folder, f"{name}_{version}_all.deb")
        subprocess.run(["dpkg-deb", "--root-owner-group", "-Znone", "-b", os.path.join(own, "root"), made], check=True, stdout=subprocess.DEVNULL)
    return CONTROL.format(name=name, version=version) + f"Size: {os.path.getsize(made)}\nSHA256: {digest(made)}\n", os.path.basename(made)


def make_release(folder, indices, *lines):
    """The file of an archive that tells the sums of its indices, given by their names with what is in them."""
    sums = "".join(f" {hashlib.sha256(text).hexdigest()} {len(text)} {name}\n" for name, text in indices.items())
    text = "\n".join(["Suite: stable", "Codename: stable", f"Date: {time.strftime('%a, %d %b %Y %H:%M:%S UTC', time.gmtime())}", *lines, "SHA256:", sums])
    write(folder, "Release", text.encode())


class Flat:
    """An archive in one folder, whose paths have a dot in them: ./Packages, ./NAME.deb."""
    source = "deb [trusted=yes] http://127.0.0.1:{port}/flat ./"
    newest = b"/flat/Release"

    def make(self, folder, architecture, packages):
        top = os.path.join(folder, "flat")
        stanzas = [make_package(top, *package) for package in packages]
        text = "\n".join(f"{text}Filename: ./{name}\n" for text, name in stanzas).encode()
        write(top, "Packages", text)
        make_release(top, {"Packages": text})


class Pooled:
    """An archive with dists and a pool, whose indices are compressed and are asked for by their sums."""
    source = "deb [trusted=yes] http://127.0.0.1:{port}/debian stable main"
    newest = b"/debian/dists/stable/Release"

    def make(self, folder, architecture, packages):
        top, index = os.path.join(folder, "debian"), f"main/binary-{architecture}"
        stanzas = [make_package(os.path.join(top, "pool", "main"), *package) for package in packages]
        text = "\n".join(f"{text}Filename: pool/main/{name}\n" for text, name in stanzas).encode()
        packed, dists = gzip.compress(text, mtime=0), os.path.join(top, "dists", "stable")
        write(dists, f"{index}/by-hash/SHA256/{hashlib.sha256(packed).hexdigest()}", packed)
        make_release(dists, {f"{index}/Packages": text, f"{index}/Packages.gz": packed}, f"Architectures: {architecture}", "Components: main", "Acquire-By-Hash: yes")


class Apt:
    """apt with folders of its own, that knows of one archive."""

    def __init__(self, own, source, architecture):
        self.own = own
        for name in ("etc/apt.conf.d", "etc/preferences.d", "etc/sources.list.d", "etc/trusted.gpg.d", "var/lib/apt/lists/partial", "var/cache/apt/archives/partial",
                     "var/log/apt", "fetched"):
            os.makedirs(os.path.join(own, name))
        write(own, "status", b"")
        write(own, "etc/sources.list", source.encode() + b"\n")
        self.settings = write(own, "apt.conf", APT.format(own=own, architecture=architecture).encode())

    def run(self, *words):
        """Whether all was well, and what it said."""
        status, said = use(["apt-get", *words], os.path.join(self.own, "fetched"), APT_CONFIG=self.settings)
        return status == 0 and not re.search(r"^(Err:|E:|W:)", said, re.M), said

    def fetched(self):
        return set(tree(os.path.join(self.own, "fetched")).items())


def packages_of(folder):
    """The packages of an archive, with their sums, by the last part of their paths."""
    return {(os.path.basename(name), sum) for name, sum in tree(folder).items() if name.endswith(".deb")}


def cut_short(apt, folder, name):
    """Lets apt go on with a package of which it has a half, as old as the site says that it is."""
    place = next(os.path.join(top, name) for top, _, names in os.walk(folder) if name in names)
    with open(place, "rb") as file:
        whole = file.read()
    return whole, write(apt.own, f"var/cache/apt/archives/partial/{name}", whole[: len(whole) // 2])


def date_of(server):
    """The time of the site, as its answers say it."""
    named = re.search(rb"\r\nLast-Modified: ([^\r]*)", server.ask())[1].decode()
    return calendar.timegm(time.strptime(named, "%a, %d %b %Y %H:%M:%S GMT"))


def apt_archive(layout, is_quick):
    """An archive that the script makes: its indices, all of its packages, the indices anew with nothing changed, and with a package changed."""
    architecture = subprocess.run(["dpkg", "--print-architecture"], capture_output=True, text=True, check=True).stdout.strip()
    packages = [(f"package-{number:02}", "1.0", 2_000 * (number + 1)) for number in range(12 if is_quick else 40)]
    with site() as folder, room() as own:
        layout.make(folder, architecture, packages)
        with Server(folder, "--log-format", "short") as server:
            apt = Apt(own, layout.source.format(port=server.port), architecture)
            steps = {"update": apt.run("update"), "download": apt.run("download", *(name for name, _, _ in packages))}
            is_same = apt.fetched() == packages_of(folder)
            whole, half = cut_short(apt, folder, "package-11_1.0_all.deb")
            date = date_of(server)
            os.utime(half, (date, date))
            steps["going on"] = apt.run("install", "-y", "-d", "package-11")
            steps["update again"] = apt.run("update")
            is_hit = re.search(r"^Hit:", steps["update again"][1], re.M) and not re.search(r"^Get:", steps["update again"][1], re.M)
            before = server.ask(HEAD.replace(b"/a.txt", layout.newest))
            layout.make(folder, architecture, [("package-00", "2.0", 5_000), *packages[1:]])
            wait_for(server, layout.newest, lambda answer: answer.partition(b"\r\n\r\n")[2] not in (b"", before.partition(b"\r\n\r\n")[2]))
            steps["update of a change"] = apt.run("update")
            steps["download of it"] = apt.run("download", "package-00")
            is_new = ("package-00_2.0_all.deb", digest_of(packages_of(folder), "package-00_2.0_all.deb")) in apt.fetched()
            gone_on = os.path.join(own, "var/cache/apt/archives/package-11_1.0_all.deb")
            is_whole = os.path.exists(gone_on) and digest(gone_on) == hashlib.sha256(whole).hexdigest()
            status, codes = end_with_log(server)
    wrong = [f"{name}: {said.strip()[-300:]}" for name, (is_well, said) in steps.items() if not is_well]
    is_right = status == 0 and not wrong and is_same and is_hit and is_new and is_whole
    yield bool(is_right), f"{len(packages)} packages, one from its half on, indices that haven't changed and one that has", \
        f"{'all the same' if is_same else 'not all the same'}, {'whole' if is_whole else 'not whole'}, {'not sent again' if is_hit else 'sent again'}, " \
        f"{'the new one' if is_new else 'not the new one'} ({in_words(codes)}){''.join(wrong)}"


def digest_of(packages, wanted):
    return dict(packages).get(wanted)


def apt_flat(is_quick):
    yield from apt_archive(Flat(), is_quick)


def apt_pooled(is_quick):
    yield from apt_archive(Pooled(), is_quick)


# ---- wget

NAMES = ["plain.html", "two words.html", "caf\u00e9.html", "plus+and&.html", "100%.html"]


def make_pages(folder, count):
    """Pages that lead to each other, in folders, some of which are named without their slash."""
    tops = [f"part-{number}" for number in range(count)]
    for top in tops:
        links = "".join(f'<a href="{urllib.parse.quote(name)}">x</a>\n' for name in NAMES)
        write(folder, f"{top}/index.html", f'<html><link rel="stylesheet" href="../style.css">{links}<img src="dot.svg"></html>\n'.encode())
        write(folder, f"{top}/dot.svg", b'<svg xmlns="http://www.w3.org/2000/svg"/>\n')
        for name in NAMES:
            write(folder, f"{top}/{name}", f"<html>{top} {name} <a href=\"/\">back</a></html>\n".encode())
    write(folder, "style.css", b"body { color: black }\n")
    links = "".join(f'<a href="{top}{"/" if number % 2 else ""}">x</a>\n' for number, top in enumerate(tops))
    write(folder, "index.html", f'<html>{links}<a href="a.txt">a</a><a href="b.txt">b</a></html>\n'.encode())


def wget_mirror(is_quick):
    """A site mirrored, then looked through again by HEAD with nothing changed, and one page of it asked for if it is newer."""
    with site() as folder, room() as own:
        make_pages(folder, 5 if is_quick else 20)
        with Server(folder, "--log-format", "short") as server:
            url = f"http://127.0.0.1:{server.port}/"
            words = ["wget", "-nv", "-nH", "-P", "mirror", "--trust-server-names", "--restrict-file-names=nocontrol"]
            # A mirror that asks by If-Modified-Since ends where the first page is unchanged, before whichever server.
            done = [use([*words, *more], own) for more in (["-m", url], ["-m", "--no-if-modified-since", url], ["-N", f"{url}style.css"])]
            is_same = tree(os.path.join(own, "mirror")) == tree(folder)
            status, codes = end_with_log(server)
        count, sent = len(tree(folder)), len(re.findall(r" URL:", done[0][1]))
    # wget asks for robots.txt, which the site hasn't, and says so by its status.
    is_right = status == 0 and is_same and {it for it, _ in done} <= {0, 8} and sent == count and " URL:" not in done[1][1] + done[2][1] and codes[304] == 1
    yield is_right, f"{count} files, none of them sent again", f"{sent} sent, {'the same files' if is_same else 'other files'} ({in_words(codes)})"


# ---- curl and aria2

def curl_continued(is_quick):
    """A download that was broken off, gone on with; and one that is whole already."""
    with site() as folder, room() as own:
        put(folder, "large.bin", noise((2 if is_quick else 4) * LARGE))
        with Server(folder, "--log-format", "short") as server:
            url, words = f"http://127.0.0.1:{server.port}/large.bin", ["curl", "-sS", "-o", "large.bin"]
            broken, _ = use([*words, "--limit-rate", "8M", "--max-time", "0.7", url], own)
            got = os.path.getsize(os.path.join(own, "large.bin"))
            continued, said = use([*words, "-C", "-", url], own)
            is_whole = digest(os.path.join(own, "large.bin")) == digest(os.path.join(folder, "large.bin"))
            again, _ = use([*words, "-C", "-", url], own)
            is_kept = digest(os.path.join(own, "large.bin")) == digest(os.path.join(folder, "large.bin"))
            status, codes = end_with_log(server)
    is_right = status == 0 and broken == 28 and continued == 0 and again == 0 and is_whole and is_kept and (codes[206], codes[416]) == (1, 1)
    yield is_right, "the rest by 206, and 416 of a whole file", f"{got} bytes, then {'the rest' if is_whole else said.strip() or 'otherwise'} ({in_words(codes)})"


def curl_unchanged(_):
    """A page that is asked for if it is newer than what is there: it isn't, and then it is."""
    with site() as folder, room() as own, Server(folder, "--log-format", "short") as server:
        url = f"http://127.0.0.1:{server.port}/a.txt"
        seen = [use(["curl", "-sS", "-R", "-o", "a.txt", "-w", "%{http_code}", url], own)[1]]
        seen.append(use(["curl", "-sS", "-z", "a.txt", "-o", "none.txt", "-w", "%{http_code}", url], own)[1])
        is_left_out = not os.path.exists(os.path.join(own, "none.txt"))
        put(folder, "a.txt", b"another")
        is_served = wait_for(server, b"/a.txt", lambda answer: answer.endswith(b"another"))
        seen.append(use(["curl", "-sS", "-z", "a.txt", "-o", "new.txt", "-w", "%{http_code}", url], own)[1])
        is_new = is_served and digest(os.path.join(own, "new.txt")) == digest(os.path.join(folder, "a.txt"))
        status, _ = end_with_log(server)
    yield status == 0 and seen == ["200", "304", "200"] and is_left_out and is_new, "200, 304, and 200 of a change", ", ".join(seen)


def aria2_parts(is_quick):
    """A file fetched by eight connections at once."""
    size = LARGE if is_quick else 4 * LARGE
    with site() as folder, room() as own:
        put(folder, "large.bin", noise(size))
        with Server(folder, "--log-format", "short") as server:
            words = ["aria2c", "-q", "-x8", "-s8", "-k1M", "--file-allocation=none", "-o", "large.bin", f"http://127.0.0.1:{server.port}/large.bin"]
            done, said = use(words, own)
            is_whole = done == 0 and digest(os.path.join(own, "large.bin")) == digest(os.path.join(folder, "large.bin"))
            status, codes = end_with_log(server)
    yield status == 0 and is_whole and codes[206] >= 4, f"{size // MEGABYTE} MiB whole, by four parts or more", \
        f"{'whole' if is_whole else said.strip() or 'otherwise'} ({in_words(codes)})"


# ---- load

def load(own, url, count, *words):
    """A load by h2load: whether all was well, and its figures."""
    _, said = use(["h2load", "-n", str(count), *words, url], own, 120)
    requests = re.search(r"^requests: .* (\d+) succeeded, (\d+) failed, (\d+) errored, (\d+) timeout", said, re.M)
    rate = re.search(r"([\d.]+) req/s", said)
    if not requests:
        return False, said.strip()[-200:]
    return requests.groups() == (str(count), "0", "0", "0"), f"{requests[1]} succeeded, {requests[2]} failed, {rate and rate[1]} a second"


def h2load_case(is_quick, at_once, per_connection):
    clients = 8 if is_quick else 32
    count = clients * per_connection
    with site() as folder, room() as own, Server(folder) as server:
        is_well, seen = load(own, f"http://127.0.0.1:{server.port}/a.txt", count, "--h1", "-c", str(clients), "-m", str(at_once))
        status, told = server.end()
    yield is_well and status == 0, f"{count} answers, {per_connection} a connection, {at_once} at once", f"{seen} (connections {told.get('connections')})"


def h2load_in_turn(is_quick):
    """A request after another, on connections that the server closes behind their 1,000th answer."""
    yield from h2load_case(is_quick, 1, 1_500)


def h2load_pipelined(is_quick):
    """Sixteen requests at once."""
    yield from h2load_case(is_quick, 16, 900)


def ab_kept(is_quick):
    """Requests of HTTP/1.0 that ask for their connections to be kept: they are, but for the last answer of each."""
    count = 2_000 if is_quick else 40_000
    with site() as folder, room() as own, Server(folder) as server:
        _, said = use(["ab", "-q", "-k", "-n", str(count), "-c", "32", f"http://127.0.0.1:{server.port}/a.txt"], own, 120)
        status, told = server.end()
    figures = {name: int(number) for name, number in re.findall(r"^(Complete requests|Failed requests|Keep-Alive requests|Non-2xx responses):\s+(\d+)", said, re.M)}
    is_right = figures.get("Complete requests") == count and figures.get("Failed requests") == 0 \
        and figures.get("Keep-Alive requests", 0) > count * 0.99 and "Non-2xx responses" not in figures
    yield is_right and status == 0, f"{count} complete, none failed, all kept but the last of a connection", \
        f"{', '.join(f'{name.lower()} {number}' for name, number in figures.items()) or said[-200:]} (connections {told.get('connections')})"


def siege_case(is_quick, connection):
    # siege goes on after an answer that closes, so that what it asks then fails: no client gets as many as a thousand answers.
    rounds = 2 if is_quick else 19
    with site() as folder, room() as own:
        make_page_of_fifty(folder)
        os.makedirs(os.path.join(own, ".siege"))
        settings = write(own, "siegerc", f"verbose = false\njson_output = false\nparser = true\nprotocol = HTTP/1.1\nconnection = {connection}\n".encode())
        with Server(folder) as server:
            _, said = use(["siege", "-R", settings, "-b", "-c", "25", "-r", str(rounds), f"http://127.0.0.1:{server.port}/page/"], own, 100)
            status, told = server.end()
    figures = dict(re.findall(r"^(Transactions|Availability|Failed transactions):\s+([\d.]+)", said, re.M))
    is_right = status == 0 and figures == {"Transactions": str(25 * rounds * 51), "Availability": "100.00", "Failed transactions": "0"}
    yield is_right, f"25 clients that load the page {rounds} times, connection = {connection}, none failed", \
        f"{', '.join(f'{name.lower()} {number}' for name, number in figures.items()) or said[-200:]} (connections {told.get('connections')})"


def siege_pages(is_quick):
    """A page with its fifty files, on connections that are kept and on one for each."""
    yield from siege_case(is_quick, "keep-alive")
    yield from siege_case(is_quick, "close")


# ---- slow heads

class Others:
    """Clients that ask again and again, each behind its last answer, until they are told that it is over."""

    def __init__(self, server, count):
        self.server, self.is_over, self.counts, self.slowest = server, threading.Event(), [0] * count, [0.0] * count
        self.faults = []
        self.threads = [threading.Thread(target=self.go_on, args=(number,)) for number in range(count)]
        for thread in self.threads:
            thread.start()

    def go_on(self, number):
        while not self.is_over.wait(0.02):
            asked = time.monotonic()
            try:
                if not self.server.ask().endswith(b"0123456789"):
                    self.faults.append("another answer")
            except OSError as error:
                self.faults.append(repr(error))
            self.slowest[number] = max(self.slowest[number], time.monotonic() - asked)
            self.counts[number] += 1

    def end(self):
        """How many were answered at the least by one client, and how long the slowest took."""
        self.is_over.set()
        for thread in self.threads:
            thread.join()
        return min(self.counts), max(self.slowest)


def slow_heads(is_quick):
    """900 clients that send their heads a field at a time, by slowhttptest, beside five that ask as others do."""
    length = 5 if is_quick else 20
    with site() as folder, room() as own, Server(folder) as server:
        alone = Others(server, 5)
        time.sleep(1)
        _, quiet = alone.end()
        others = Others(server, 5)
        url = f"http://127.0.0.1:{server.port}/a.txt"
        _, said = use(["slowhttptest", "-c", "900", "-H", "-i", "2", "-r", "450", "-t", "GET", "-u", url, "-x", "24", "-p", "3", "-l", str(length)], own, length + 20)
        least, slowest = others.end()
        status, told = server.end()
    stood = max((int(number) for number in re.findall(r"connected:\D*(?:\x1b\[[\d;]*m)*\D*(\d+)", strip_colours(said))), default=0)
    late = "" if slowest <= SOON else f", more than the {SOON * 1000:.0f} ms of a machine at rest (this one had {os.getloadavg()[0]:.1f} at work)"
    is_right = status == 0 and not others.faults and least > 0 and stood >= 850
    yield is_right, "900 slow heads, and five others that are each answered", f"{stood} stood at once; each of five got {least} answers or more, " \
        f"the slowest after {slowest * 1000:.0f} ms{late}, and after {quiet * 1000:.0f} ms before; faults {others.faults[:2]} ({told})"


def strip_colours(text):
    return re.sub(r"\x1b\[[\d;]*[A-Za-z]", "", text)


# ---- Chromium

BROWSERS = ("chromium", "chromium-browser", "google-chrome")
# It asks nobody but this machine.
BROWSER_WORDS = ["--headless=new", "--no-sandbox", "--disable-gpu", "--disable-dev-shm-usage", "--no-first-run", "--disable-background-networking",
                 "--disable-component-update", "--disable-sync", "--disable-extensions", "--no-proxy-server", "--host-resolver-rules=MAP * ~NOTFOUND , EXCLUDE 127.0.0.1",
                 "--remote-debugging-pipe"]


class Browser:
    """A headless Chromium, which is told what to do over two pipes (its descriptors 3 and 4): messages of JSON, each with a NUL behind it."""

    def __init__(self, own):
        its_input, self.to = os.pipe()
        self.source, its_output = os.pipe()
        inner = [fcntl.fcntl(it, fcntl.F_DUPFD, 64) for it in (its_input, its_output)]

        def place():
            os.dup2(inner[0], 3)
            os.dup2(inner[1], 4)

        program = next(path for path in map(shutil.which, BROWSERS) if path)
        environment = {name: value for name, value in os.environ.items() if not name.lower().endswith("_proxy")} | {"HOME": own, "TMPDIR": own}
        self.child = subprocess.Popen([program, *BROWSER_WORDS, f"--user-data-dir={own}/profile"], preexec_fn=place, pass_fds=(3, 4), env=environment, cwd=own,
                                      stdin=subprocess.DEVNULL, stdout=subprocess.DEVNULL, stderr=subprocess.DEVNULL, start_new_session=True)
        for it in (its_input, its_output, *inner):
            os.close(it)
        self.number, self.held, self.events = 0, b"", []

    def __enter__(self):
        try:
            target = self.call("Target.createTarget", url="about:blank")["targetId"]
            self.session = self.call("Target.attachToTarget", targetId=target, flatten=True)["sessionId"]
            self.call("Page.enable", session=self.session)
        except BaseException:
            self.__exit__()
            raise
        return self

    def __exit__(self, *_):
        end_group(self.child)
        os.close(self.to)
        os.close(self.source)

    def receive(self):
        """The next message."""
        while b"\0" not in self.held:
            if not select.select([self.source], [], [], 20)[0]:
                raise RuntimeError("the browser says nothing")
            piece = os.read(self.source, 1 << 16)
            if not piece:
                raise RuntimeError("the browser has ended")
            self.held += piece
        text, _, self.held = self.held.partition(b"\0")
        return json.loads(text)

    def call(self, method, session=None, **words):
        self.number += 1
        message = {"id": self.number, "method": method, "params": words} | ({"sessionId": session} if session else {})
        os.write(self.to, json.dumps(message).encode() + b"\0")
        while (got := self.receive()).get("id") != self.number:
            self.events.append(got.get("method"))
        if "error" in got:
            raise RuntimeError(f"{method}: {got['error']}")
        return got["result"]

    def visit(self, url):
        """Loads a page with all that it names."""
        self.events.clear()
        self.call("Page.navigate", session=self.session, url=url)
        while "Page.loadEventFired" not in self.events:
            self.events.append(self.receive().get("method"))


def make_page_of_fifty(folder):
    """A page that names fifty files."""
    names = [(f"style-{number}.css", f"b{number} {{ color: black }}", '<link rel="stylesheet" href="{}">') for number in range(15)]
    names += [(f"script-{number}.js", f"var v{number} = {number};", '<script src="{}"></script>') for number in range(15)]
    names += [(f"dot-{number}.svg", f'<svg xmlns="http://www.w3.org/2000/svg" width="1" height="{number + 1}"/>', '<img src="{}">') for number in range(20)]
    for name, text, _ in names:
        write(folder, f"page/{name}", text.encode())
    links = "\n".join(link.format(name) for name, _, link in names)
    write(folder, "page/index.html", f'<!DOCTYPE html><html><head><link rel="icon" href="data:,"></head><body>{links}</body></html>'.encode())


def browser_pages(_):
    """A page and its files visited twice: those that may not be kept without asking are asked for, and none is sent again; others aren't asked for."""
    with site() as folder, room() as own, contextlib.ExitStack() as stack:
        make_page_of_fifty(folder)
        servers = {age: stack.enter_context(Server(folder, "--log-format", "short", "--cache", str(age))) for age in (0, 3600)}
        with Browser(own) as browser:
            for server in servers.values():
                for url in (f"http://127.0.0.1:{server.port}/page/", "about:blank", f"http://127.0.0.1:{server.port}/page/"):
                    browser.visit(url)
        for age, server in servers.items():
            status, codes = end_with_log(server)
            wanted = {200: 51} if age else {200: 51, 304: 51}
            yield status == 0 and codes == wanted, f"{in_words(wanted)}, with --cache {age}", in_words(codes)


# ---- all of them

CASES = {
    git_clone: ("git",), apt_pooled: ("apt-get", "dpkg-deb"), apt_flat: ("apt-get", "dpkg-deb"), wget_mirror: ("wget",), curl_continued: ("curl",),
    curl_unchanged: ("curl",), aria2_parts: ("aria2c",), h2load_in_turn: ("h2load",), h2load_pipelined: ("h2load",), ab_kept: ("ab",), siege_pages: ("siege",),
    slow_heads: ("slowhttptest",), browser_pages: (BROWSERS,),
}


def missing(needs):
    """The first program that a case needs and that isn't installed."""
    for need in needs:
        names = need if isinstance(need, tuple) else (need,)
        if not any(map(shutil.which, names)):
            return names[0]
    return None


@functools.cache
def version(need):
    """What a program says of its version."""
    name = next((name for name in (need if isinstance(need, tuple) else (need,)) if shutil.which(name)), None)
    words = {"ab": "-V", "nginx": "-v", "caddy": "version", "slowhttptest": "-h"}
    done = subprocess.run([name, words.get(name, "--version")], capture_output=True, text=True, stdin=subprocess.DEVNULL, timeout=20)
    found = re.search(r"\d+\.\d+[\w.+~-]*", strip_colours(done.stdout + done.stderr))
    return f"{name} {found[0] if found else '?'}"


def attempt(case, is_quick):
    """What a case yields; what breaks it off is told as one that went wrong."""
    try:
        yield from case(is_quick)
    except (OSError, RuntimeError, subprocess.SubprocessError, StopIteration) as error:
        yield False, "that it comes to its end", f"{type(error).__name__}: {error}"


def run_all(cases, only, is_quick):
    """Runs the cases whose names have the word, each given with the programs that it needs: how many came out, how many went otherwise, and what isn't installed."""
    right, wrong, absent = 0, 0, []
    for name, (case, needs) in cases.items():
        if only not in name:
            continue
        lacking = missing(needs)
        if lacking:
            absent.append(lacking)
            print(f"left out: {name}: {lacking} isn't installed", flush=True)
            continue
        began, by = time.monotonic(), f"{version(needs[0])}, " if needs else ""
        for is_right, expected, seen in attempt(case, is_quick):
            right, wrong = right + is_right, wrong + (not is_right)
            print(f"{'well' if is_right else 'WRONG'}: {name} ({by}{time.monotonic() - began:.1f} s): expected {expected}; came {seen}", flush=True)
    return right, wrong, absent


def summary(what, right, wrong, absent):
    names = f" as these aren't installed: {', '.join(sorted(set(absent)))}" if absent else ""
    return f"{right} {what} came out, {wrong} went otherwise, {len(absent)} left out{names}"


def limit(seconds, who):
    """Breaks off after so many seconds, as on SIGTERM: what was begun is ended on the way out. And as many files may be open as are needed."""
    def leave(number, _):
        raise SystemExit(f"{who}: {f'not done within {seconds} s' if number == signal.SIGALRM else 'told to end'}")

    atexit.register(lambda: end_descendants(os.getpid()))
    for number in (signal.SIGALRM, signal.SIGTERM, signal.SIGHUP):
        signal.signal(number, leave)
    signal.alarm(seconds)
    hard = resource.getrlimit(resource.RLIMIT_NOFILE)[1]
    resource.setrlimit(resource.RLIMIT_NOFILE, (min(hard, 16_384), hard))


def main():
    words = argparse.ArgumentParser(description="Uses the server that stays up by the programs that people use it with.")
    words.add_argument("--only", default="")
    words.add_argument("--quick", action="store_true")
    words.add_argument("--program", default=staying.SWSD)
    given = words.parse_args()
    staying.SWSD = os.path.abspath(given.program)
    if not os.access(staying.SWSD, os.X_OK):
        sys.exit("clients: the program isn't built")
    limit(LONGEST_QUICK if given.quick else LONGEST, "clients")
    right, wrong, absent = run_all({case.__name__: (case, needs) for case, needs in CASES.items()}, given.only, given.quick)
    print(summary("cases", right, wrong, absent))
    sys.exit(1 if wrong or not right else 0)


if __name__ == "__main__":
    main()
