#!/usr/bin/env python3
"""Makes the tarball and the Debian package (`dist/dist.sh`), and says a line a case of what they are.

    bench/package.py [--only WORD] [--chroot] [--program PATH]

It wants both programs built (`rt ci swsd sws_main`), and for some cases lintian, systemd-analyze or strace, without which they are left out. Both are made
twice, and have to be the same bytes; the package is looked at, by lintian too; of the unit it is said what systemd thinks of it, and whether the server
makes but calls that the unit allows. With `--chroot`, as root, the package is also installed, used, removed and purged in a Debian of its own, which
debootstrap fetches (some 100 MB) and which is removed behind it. The status is 0 where all that was tried came out as expected, else 1.
"""
import argparse
import os
import re
import shutil
import signal
import socket
import subprocess
import sys
import threading
import time
import urllib.request

import clients
import staying
from clients import LARGE, digest, room, strip_colours, use, write
from recipes import free_port
from staying import Server, put, site

UNIT = os.path.join(staying.TOP, "dist", "swsd.service")
# What systemd calls the exposure of a unit, from 0 to 10, is to be less.
EXPOSURE = 2.0
FILES = ["usr/bin/swsd", "usr/bin/sws", "usr/bin/swsd-run", "lib/systemd/system/swsd.service", "etc/default/swsd", "usr/share/swsd/index.html",
         "usr/share/doc/swsd/PROVED", "usr/share/doc/swsd/SWSD.md", "usr/share/doc/swsd/copyright", "usr/share/doc/swsd/changelog.gz",
         "usr/share/doc/swsd/tls/nginx.conf", "usr/share/doc/swsd/several/haproxy.cfg"]


def make(own, name, **more):
    """Makes both into a folder, and answers their paths."""
    out = os.path.join(own, name)
    status, said = use([os.path.join(staying.TOP, "dist", "dist.sh"), out], own, 120, **more)
    if status != 0:
        raise RuntimeError(f"dist.sh: {status}, {said.strip()[-300:]}")
    return {path: os.path.join(out, path) for path in sorted(os.listdir(out))}


def deb_of(made):
    return next(path for path in made.values() if path.endswith(".deb"))


def same_bytes(_):
    """Both made twice, at other times, by another mask, in another zone."""
    with room() as own:
        first = make(own, "first", TZ="Asia/Tokyo")
        time.sleep(1.1)
        os.umask(0o077)
        second = make(own, "second", TZ="America/Lima")
        os.umask(0o022)
        other = [name for name in first | second if name not in first or name not in second or digest(first[name]) != digest(second[name])]
        count = len(first)
    yield not other and count == 3, "three files with the same bytes twice", f"{count} files, otherwise {other}"


def contents(_):
    """What the package has, that its settings are kept, and that the sums in it are right."""
    with room() as own:
        deb = deb_of(make(own, "made"))
        root = os.path.join(own, "root")
        subprocess.run(["dpkg-deb", "-R", deb, root], check=True)
        lacking = [name for name in FILES if not os.path.isfile(os.path.join(root, name))]
        kept = open(os.path.join(root, "DEBIAN", "conffiles")).read().split()
        sums = subprocess.run(["md5sum", "--quiet", "-c", "DEBIAN/md5sums"], cwd=root, capture_output=True, text=True)
        proved = subprocess.run(["sha256sum", "--quiet", "-c"], cwd=os.path.join(root, "usr/bin"), capture_output=True, text=True,
                                input="".join(line for line in open(os.path.join(root, "usr/share/doc/swsd/PROVED")) if re.match("[0-9a-f]{64} ", line)))
    is_right = not lacking and kept == ["/etc/default/swsd"] and sums.returncode == 0 and proved.returncode == 0
    yield is_right, f"{len(FILES)} files, settings that are kept, sums that are right", f"lacking {lacking}, kept {kept}, {sums.stdout + proved.stdout or 'all right'}"


def no_errors(_):
    """What lintian says of the package."""
    with room() as own:
        deb = deb_of(make(own, "made"))
        _, said = use(["lintian", "--allow-root", "--no-cfg", "--tag-display-limit", "0", deb], own, 120)
    tags = {kind: sorted(set(re.findall(rf"^{kind}: \S+: (\S+)", strip_colours(said), re.M))) for kind in "EW"}
    is_run = not re.search(r"^(?!N:|[EWI]: )\S", said, re.M)
    yield is_run and not tags["E"], "no errors", f"errors {tags['E']}, warnings {tags['W']}{'' if is_run else said[-200:]}"


def unit(_):
    """What systemd thinks of the unit, without running it."""
    done = subprocess.run(["systemd-analyze", "security", "--offline=true", "--no-pager", UNIT], capture_output=True, text=True, timeout=60)
    said = re.search(r"Overall exposure level for \S+: ([\d.]+)", done.stdout + done.stderr)
    with open(UNIT) as file:
        lines = file.read().split("\n")
    with room() as own:
        # It looks whether the programs are there; swsd needn't be on this machine.
        copied = write(own, "swsd.service", "\n".join(lines).replace("/usr/bin/swsd ", "/bin/true ").encode())
        checked = subprocess.run(["systemd-analyze", "verify", "--man=no", copied], capture_output=True, text=True, timeout=60)
    lacking = [name for name in ("MemoryMax=", "ExecReload=", "ExecStop=", "NoNewPrivileges=yes", "DynamicUser=yes") if not any(line.startswith(name) for line in lines)]
    is_right = bool(said) and float(said[1]) < EXPOSURE and not lacking and checked.returncode == 0 and not checked.stderr
    yield is_right, f"an exposure below {EXPOSURE}, a bound of memory, a reload", f"{said and said[1]}, lacking {lacking}, {checked.stderr.strip() or 'no word that systemd does not know'}"


def calls_of(name, seen):
    """The calls of one of systemd's sets, with those of the sets in it."""
    done = subprocess.run(["systemd-analyze", "syscall-filter", "--no-pager", name], capture_output=True, text=True, timeout=60)
    found = set()
    for word in re.findall(r"^    ([@\w-]+)", strip_colours(done.stdout), re.M):
        if word in seen:
            continue
        seen.add(word)
        found |= calls_of(word, seen) if word.startswith("@") else {word}
    return found


def calls(_):
    """The calls that the server makes while it starts, serves, loads anew and stops, and its families of sockets, beside those that the unit allows."""
    with open(UNIT) as file:
        text = file.read()
    filters = re.findall(r"^SystemCallFilter=(~?)(.*)$", text, re.M)
    families = set(re.search(r"^RestrictAddressFamilies=(.*)$", text, re.M)[1].split())
    allowed = set()
    for refused, names in filters:
        some = set().union(*(calls_of(name, set()) for name in names.split()))
        allowed = allowed - some if refused else allowed | some
    with site() as folder, room() as own:
        traced, reload_file = os.path.join(own, "calls"), os.path.join(own, "reload")
        program = write(own, "traced", f'#!/bin/sh\nexec strace -f -qq -o {traced} {staying.SWSD} "$@"\n'.encode())
        os.chmod(program, 0o755)
        with Server(folder, "--reload-file", reload_file, "--log", program=program) as server:
            for number in range(20):
                server.ask()
            put(folder, "a.txt", b"another")
            open(reload_file, "w").close()
            is_loaded = clients.wait_for(server, b"/a.txt", lambda answer: answer.endswith(b"another"))
            server.stop()
            server.child.communicate(timeout=60)
            status = server.child.returncode
        with open(traced) as file:
            told = file.read()
    made = set(re.findall(r"^\d+ +(\w+)\(", told, re.M))
    other = sorted(made - allowed | set(re.findall(r" socket\((AF_\w+)", told)) - families)
    yield is_loaded and status == 0 and not other and len(allowed) > 100, f"calls of the {len(allowed)} that the unit allows", f"{len(made)} calls, others than allowed: {other}"


def download(port, size, got):
    """Takes a file slowly, and puts down how many bytes came."""
    with socket.create_connection(("127.0.0.1", port), timeout=30) as it:
        it.sendall(staying.HEAD.replace(b"a.txt", b"large.bin"))
        count = 0
        while piece := it.recv(1 << 18):
            count += len(piece)
            time.sleep(0.01)
    got.append(count >= size)


def stopped_by(own, folder, signals):
    """Whether a server that swsd-run runs ends with 0 on signals to its whole group, the last of which is to stop it, and a download goes on to its end."""
    port, got = free_port(), []
    with open(os.path.join(own, "said"), "w+") as said:
        child = subprocess.Popen([os.path.join(staying.TOP, "dist", "swsd-run"), folder, "--listen", f"127.0.0.1:{port}"], stdin=subprocess.DEVNULL, stdout=said,
                                 stderr=said, start_new_session=True, env=os.environ | {"SWSD": staying.SWSD, "TMPDIR": own})
        try:
            page_at(port)
            client = threading.Thread(target=download, args=(port, LARGE, got))
            client.start()
            for number in signals:
                time.sleep(0.5)
                os.killpg(child.pid, number)
            status = child.wait(40)
            client.join()
            said.seek(0)
            is_loaded = ("as the reload file asks" in said.read()) == (signal.SIGUSR1 in signals)
            return status == 0 and got == [True] and is_loaded and os.listdir(own) == ["said"]
        finally:
            clients.end_group(child)


def runner(_):
    """swsd-run, to whose whole group a signal is sent, as by a terminal or by who ends what it began."""
    seen = {}
    with site() as folder:
        put(folder, "large.bin", bytes(LARGE))
        write(folder, "index.html", b"here")
        for signals in ([signal.SIGTERM], [signal.SIGINT], [signal.SIGHUP], [signal.SIGUSR1, signal.SIGTERM], [signal.SIGTERM, signal.SIGTERM]):
            with room() as own:
                seen[" ".join(one.name for one in signals)] = stopped_by(own, folder, signals)
    wrong = [name for name, is_right in seen.items() if not is_right]
    yield not wrong, f"a download that goes on to its end, and 0, at {', '.join(seen)}", f"otherwise {', '.join(wrong) or 'none'}"


# ---- in a Debian of its own

class Debian:
    """A Debian in a folder, in which commands are run by chroot, while it is used as a context. It has its /proc, which swsd needs."""

    def __init__(self, own):
        self.root = os.path.join(own, "debian")
        codename = re.search(r"VERSION_CODENAME=(\w+)", open("/etc/os-release").read())
        status, said = use(["debootstrap", "--variant=minbase", codename[1] if codename else "stable", self.root], own, 400)
        if status != 0:
            raise RuntimeError(f"debootstrap: {status}, {said.strip()[-300:]}")
        subprocess.run(["mount", "-t", "proc", "proc", self.path("proc")], check=True)

    def __enter__(self):
        return self

    def __exit__(self, *_):
        subprocess.run(["umount", "-l", self.path("proc")], check=True)

    def run(self, *words):
        status, said = use(["chroot", self.root, *words], self.root, 120, DEBIAN_FRONTEND="noninteractive", PATH="/usr/sbin:/usr/bin:/sbin:/bin")
        if status != 0:
            raise RuntimeError(f"{' '.join(words)}: {status}, {said.strip()[-300:]}")
        return said

    def path(self, name):
        return os.path.join(self.root, name)

    def has(self, name):
        return os.path.lexists(self.path(name))

    def text(self, name):
        with open(self.path(name)) as file:
            return file.read()


def page_at(port):
    """What is served at / of the port, asked for until somebody answers, ten seconds at most."""
    opener, until = urllib.request.build_opener(urllib.request.ProxyHandler({})), time.monotonic() + 10
    while True:
        try:
            return opener.open(f"http://127.0.0.1:{port}/", timeout=10).read().decode()
        except OSError:
            if time.monotonic() > until:
                raise
            time.sleep(0.1)


def is_served(debian):
    """Whether what is installed serves its folder, and stops on SIGTERM with 0."""
    port = free_port()
    child = subprocess.Popen(["chroot", debian.root, "/usr/bin/swsd-run", "/var/www/html", "--listen", f"127.0.0.1:{port}"], stdin=subprocess.DEVNULL,
                             stdout=subprocess.DEVNULL, stderr=subprocess.DEVNULL, start_new_session=True)
    try:
        body = page_at(port)
        child.send_signal(signal.SIGTERM)
        return body == debian.text("var/www/html/index.html") and child.wait(40) == 0
    finally:
        clients.end_group(child)


def installed(_):
    """The package installed, used, installed again over changed settings, removed, purged, and installed where something is served already."""
    with room() as own:
        deb = deb_of(make(own, "made"))
        with Debian(own) as debian:
            shutil.copy(deb, debian.path("swsd.deb"))
            seen = dict(installing(debian))
    wrong = [name for name, is_right in seen.items() if not is_right]
    yield not wrong, f"that it {', '.join(seen)}", f"otherwise {', '.join(wrong) or 'nothing'}"


def installing(debian):
    """What is seen of the package step by step."""
    install, page = ["apt-get", "install", "-y", "--reinstall", "./swsd.deb"], "var/www/html/index.html"
    debian.run(*install)
    yield "is installed", "install ok installed" in debian.run("dpkg", "-s", "swsd") and debian.run("dpkg", "-V", "swsd") == ""
    yield "has a page", debian.has(page)
    yield "serves and stops", is_served(debian)
    for name in ("etc/default/swsd", page):
        with open(debian.path(name), "a") as file:
            file.write("# changed\n")
    debian.run(*install)
    yield "keeps what was changed", all(debian.text(name).endswith("# changed\n") for name in ("etc/default/swsd", page))
    debian.run("apt-get", "remove", "-y", "swsd")
    yield "is removed but for its settings", not debian.has("usr/bin/swsd") and not debian.has("lib/systemd/system/swsd.service") and debian.has("etc/default/swsd")
    debian.run("apt-get", "purge", "-y", "swsd")
    yield "is purged", not debian.has("etc/default/swsd") and not debian.has("usr/share/doc/swsd") and not debian.has("etc/systemd/system/swsd.service")
    yield "leaves what is served", debian.has(page)
    os.rename(debian.path(page), debian.path("var/www/html/other.html"))
    debian.run(*install)
    yield "puts no page beside others", os.listdir(debian.path("var/www/html")) == ["other.html"]


CASES = {same_bytes: (), contents: ("dpkg-deb",), no_errors: ("dpkg-deb", "lintian"), unit: ("systemd-analyze",), calls: ("systemd-analyze", "strace"), runner: ()}


def main():
    words = argparse.ArgumentParser(description="Makes the tarball and the package, and looks at them.")
    words.add_argument("--only", default="")
    words.add_argument("--chroot", action="store_true")
    words.add_argument("--program", default=staying.SWSD)
    given = words.parse_args()
    staying.SWSD = os.path.abspath(given.program)
    clients.limit(600 if given.chroot else 240, "package")
    cases = CASES | ({installed: ("dpkg-deb", "debootstrap", "chroot")} if given.chroot else {})
    right, wrong, absent = clients.run_all({case.__name__: (case, needs) for case, needs in cases.items()}, given.only, False)
    print(clients.summary("cases", right, wrong, absent))
    sys.exit(1 if wrong or not right else 0)


if __name__ == "__main__":
    main()
