#!/usr/bin/env python3
"""Tries the recipes of `dist/tls` and `dist/several` with the programs that they are for, in front of `swsd`, on this machine's loopback, and says a line a case.

    bench/recipes.py [--only WORD] [--quick] [--program PATH]

It wants the program built (`./swsd --version`), openssl, curl and h2load. Each recipe is used as it stands, but for its ports, the paths of its
certificate, and what keeps a program in the foreground and among its own files; where a recipe no longer has what is replaced, that is said. A
program that isn't installed (nginx, haproxy, stunnel, caddy) is named, and left out. Each is asked as clients would: GET, HEAD, a range, 404, a
file of 16 MiB, several requests on a connection, one after another and all at once, a page again, unchanged and changed, HTTP/2, what comes by
plain HTTP; and under load while generations of `swsd` change all the time. Those that can name their clients to `swsd` are tried so too. Then two servers
behind HAProxy, of which one is stopped under load and comes back. The status is 0 where all that was tried came out as expected, else 1. It takes some two minutes, with `--quick` less than one.
"""
import argparse
import functools
import os
import re
import shutil
import socket
import ssl
import subprocess
import sys
import threading
import time

import clients
import staying
from clients import LARGE, digest, end_group, load, noise, room, use, write
from staying import Server, put, site

HOST = "example.org"
CHALLENGE = ".well-known/acme-challenge/token"
# Each connection takes two descriptors of HAProxy, which a machine to try things on may not have.
FEWER = ("maxconn 20000", "maxconn 2000")
# Who isn't root can't become somebody else.
AS_IT_IS = [] if os.geteuid() == 0 else [("    user haproxy\n    group haproxy\n", "")]
STUNNEL_AS_IT_IS = [] if os.geteuid() == 0 else [("setuid = stunnel4\nsetgid = stunnel4\n", "")]
# How long a change of the folder may take to be served, in seconds: one to be looked for, one that a front keeps its connections, and a little more.
SEEN = 5.0
# Generations that are short, so that connections of the front are closed under it all the time.
SHORT = ["--connections", "100", "--age", "1", "--grace", "5", "--lanes", "16"]


# ---- ports, certificates and programs in front

def free_port():
    with socket.socket() as it:
        it.bind(("127.0.0.1", 0))
        return it.getsockname()[1]


def make_certificate(own):
    """A certificate of the name, its key, and both in one file."""
    certificate, key = os.path.join(own, "fullchain.pem"), os.path.join(own, "privkey.pem")
    subprocess.run(["openssl", "req", "-x509", "-newkey", "ec", "-pkeyopt", "ec_paramgen_curve:prime256v1", "-nodes", "-days", "2", "-subj", f"/CN={HOST}",
                    "-addext", f"subjectAltName=DNS:{HOST}", "-keyout", key, "-out", certificate], check=True, capture_output=True)
    texts = [open(path, "rb").read() for path in (certificate, key)]
    return certificate, key, write(own, "both.pem", b"".join(texts))


def fitted(name, pairs):
    """The recipe, with each of these texts replaced, all of which it has."""
    with open(os.path.join(staying.TOP, "dist", name)) as file:
        text = file.read()
    for old, new in pairs:
        if old not in text:
            raise RuntimeError(f"dist/{name} has no {old!r}")
        text = text.replace(old, new)
    return text


class Place:
    """What a front is told: the ports of its clients, that of the server behind it, and its certificate; and a folder for what it keeps."""

    def __init__(self, own, server):
        self.own, self.server, self.tls, self.plain = own, server, free_port(), free_port()
        self.certificate, self.key, self.both = make_certificate(own)


def nginx(place):
    recipe = fitted("tls/nginx.conf", [
        ("127.0.0.1:8080", f"127.0.0.1:{place.server}"), ("listen 443", f"listen 127.0.0.1:{place.tls}"), ("listen 80", f"listen 127.0.0.1:{place.plain}"),
        ("listen [::]:443 ssl http2;", ""), ("listen [::]:80;", ""), ("/etc/letsencrypt/live/example.org/fullchain.pem", place.certificate),
        ("/etc/letsencrypt/live/example.org/privkey.pem", place.key),
    ])
    paths = "".join(f"{name}_temp_path {place.own}/{name};\n" for name in ("client_body", "proxy", "fastcgi", "uwsgi", "scgi"))
    user = "user root;\n" if os.geteuid() == 0 else ""
    whole = f"daemon off;\n{user}pid {place.own}/pid;\nerror_log {place.own}/error.log;\nworker_processes 2;\nevents {{ worker_connections 2048; }}\n" \
        f"http {{\naccess_log off;\n{paths}{recipe}}}\n"
    return ["nginx", "-c", write(place.own, "nginx.conf", whole.encode()), "-p", place.own, "-e", f"{place.own}/error.log"]


def haproxy(place, *more):
    recipe = fitted("tls/haproxy.cfg", [
        *more, ("127.0.0.1:8080", f"127.0.0.1:{place.server}"), ("bind :::443 v4v6", f"bind 127.0.0.1:{place.tls}"), ("bind :::80 v4v6", f"bind 127.0.0.1:{place.plain}"),
        ("/etc/haproxy/example.org.pem", place.both), FEWER, *AS_IT_IS,
    ])
    return ["haproxy", "-db", "-f", write(place.own, "haproxy.cfg", recipe.encode())]


def stunnel(place, *more):
    recipe = fitted("tls/stunnel.conf", [
        *more, ("127.0.0.1:8080", f"127.0.0.1:{place.server}"), (":::443", f"127.0.0.1:{place.tls}"),
        ("/etc/letsencrypt/live/example.org/fullchain.pem", place.certificate), ("/etc/letsencrypt/live/example.org/privkey.pem", place.key), *STUNNEL_AS_IT_IS,
    ])
    return ["stunnel", write(place.own, "stunnel.conf", recipe.encode())]


def caddy(place):
    recipe = fitted("tls/Caddyfile", [
        ("127.0.0.1:8080", f"127.0.0.1:{place.server}"), (f"{HOST} {{", f"{HOST} {{\n\tbind 127.0.0.1\n\ttls {place.certificate} {place.key}"),
    ])
    settings = f"{{\n\tadmin off\n\thttp_port {place.plain}\n\thttps_port {place.tls}\n}}\n"
    return ["caddy", "run", "--adapter", "caddyfile", "--config", write(place.own, "Caddyfile", (settings + recipe).encode())]


class Front:
    """A program in front of a server, while it is used as a context."""

    def __init__(self, name, make, own, server):
        self.place = Place(own, server.port)
        self.said = os.path.join(own, "said")
        words = make(self.place)
        with open(self.said, "wb") as said:
            self.child = subprocess.Popen([shutil.which(words[0]), *words[1:]], stdin=subprocess.DEVNULL, stdout=said, stderr=said, start_new_session=True, cwd=own,
                                          env=os.environ | {"HOME": own, "XDG_DATA_HOME": own, "XDG_CONFIG_HOME": own})
        until = time.monotonic() + 15
        while not is_open(self.place.tls):
            if self.child.poll() is not None or time.monotonic() > until:
                end_group(self.child)
                raise RuntimeError(f"{name} doesn't listen: {open(self.said).read()[-400:]}")
            time.sleep(0.05)

    def __enter__(self):
        return self

    def __exit__(self, *_):
        self.child.terminate()
        try:
            self.child.wait(5)
        except subprocess.TimeoutExpired:
            pass
        end_group(self.child)


def is_open(port):
    with socket.socket() as it:
        it.settimeout(1)
        return it.connect_ex(("127.0.0.1", port)) == 0


# ---- what a front is asked

class Client:
    """curl, and sockets, that speak to a front by TLS as if it were the name's machine."""

    def __init__(self, place):
        self.place, self.told_after = place, 0.0
        self.base = ["curl", "-sS", "-m", "30", "--cacert", place.certificate, "--resolve", f"{HOST}:{place.tls}:127.0.0.1", "--resolve", f"{HOST}:{place.plain}:127.0.0.1"]

    def url(self, path):
        return f"https://{HOST}:{self.place.tls}/{path}"

    def told(self, shown, *words):
        """What curl tells of an answer in this form; the body goes into a file."""
        status, said = use([*self.base, "-o", "body", "-w", shown, *words], self.place.own)
        return said if status == 0 else f"curl: {status} {said.strip()}"

    def body(self):
        with open(os.path.join(self.place.own, "body"), "rb") as file:
            return file.read()

    def pipelined(self, count):
        """As many requests in one piece: the bodies that come, in order."""
        context = ssl.create_default_context(cafile=self.place.certificate)
        context.set_alpn_protocols(["http/1.1"])
        asked = "".join(f"GET /{'ab'[number % 2]}.txt HTTP/1.1\r\nHost: {HOST}\r\n{'Connection: close' if number == count - 1 else 'X: y'}\r\n\r\n" for number in range(count))
        got = b""
        with socket.create_connection(("127.0.0.1", self.place.tls), timeout=20) as it, context.wrap_socket(it, server_hostname=HOST) as it:
            it.sendall(asked.encode())
            while piece := it.recv(1 << 16):
                got += piece
        return re.findall(rb"\r\n\r\n(0123456789|b)", got)


def page(client, _):
    yield "GET", client.told("%{http_code}", client.url("a.txt")) == "200" and client.body() == b"0123456789"
    yield "HEAD", client.told("%{http_code} %header{content-length} %{size_download}", "-I", "--http1.1", client.url("a.txt")) == "200 10 0"
    yield "a range", client.told("%{http_code} %header{content-range}", "-r", "2-5", client.url("a.txt")) == "206 bytes 2-5/10" and client.body() == b"2345"
    yield "404", client.told("%{http_code}", client.url("none.txt")) == "404"
    yield "a folder", client.told("%{http_code} %header{location}", client.url("docs")) == "301 /docs/"


def large(client, folder):
    is_told = client.told("%{http_code}", client.url("large.bin")) == "200"
    yield "16 MiB", is_told and digest(os.path.join(client.place.own, "body")) == digest(os.path.join(folder, "large.bin"))


def together(client, _):
    yield "kept", client.told("%{num_connects} ", "--http1.1", client.url("a.txt"), "-o", "other", client.url("b.txt")) == "1 0 "
    yield "all at once", client.pipelined(8) == [b"0123456789", b"b"] * 4


def again(client, folder):
    """A page that the client has: unchanged, and then changed, behind another page on its connection, as fronts may use an old one of theirs for it."""
    asked = ["-z", "have", client.url("a.txt"), "-o", "page", client.url("c.txt")]
    client.told("", "-R", client.url("c.txt"))
    os.replace(os.path.join(client.place.own, "body"), os.path.join(client.place.own, "have"))
    yield "304", client.told("%{http_code} ", *asked) == "304 304 "
    put(folder, "c.txt", b"changed")
    began, told = time.monotonic(), ""
    while told != "200 200 " and time.monotonic() < began + SEEN:
        time.sleep(0.1)
        told = client.told("%{http_code} ", *asked)
    client.told_after = time.monotonic() - began
    yield f"a change within {SEEN:.0f} s", told == "200 200 "


def second_version(client, _):
    yield "HTTP/2", client.told("%{http_version} %{http_code}", "--http2", client.url("a.txt")) == "2 200" and client.body() == b"0123456789"


def plain(client, _):
    port = client.place.plain
    code, _, location = client.told("%{http_code} %header{location}", "-H", f"Host: {HOST}", f"http://{HOST}:{port}/a.txt?q").partition(" ")
    yield "to HTTPS", code in ("301", "308") and location == f"https://{HOST}/a.txt?q"


def challenge(client, _):
    yield "a challenge", client.told("%{http_code}", f"http://{HOST}:{client.place.plain}/{CHALLENGE}") == "200" and client.body() == b"proof"


def compressed(client, _):
    is_told = client.told("%{http_code} %header{content-encoding}", "-H", "Accept-Encoding: gzip", client.url("long.txt")) == "200 gzip"
    yield "gzip", is_told and client.told("%{http_code}", "--compressed", client.url("long.txt")) == "200" and client.body() == b"a line of a text\n" * 1000


ASKED = [page, large, together, again]
FRONTS = {
    "nginx": (nginx, [*ASKED, second_version, plain, challenge]), "haproxy": (haproxy, [*ASKED, second_version, plain, challenge]),
    "stunnel": (stunnel, ASKED), "caddy": (caddy, [*ASKED, second_version, plain, compressed]),
}


def make_site(folder):
    for name, text in (("c.txt", b"c"), ("large.bin", noise(LARGE)), ("docs/index.html", b"here"), (CHALLENGE, b"proof"), ("long.txt", b"a line of a text\n" * 1000),
                       ("index.html", b"<html></html>")):
        write(folder, name, text)


def front(name, is_quick):
    """A recipe asked for all that it has to pass on, and then under load."""
    make, asked = FRONTS[name]
    with site() as folder, room() as own:
        make_site(folder)
        with Server(folder) as server, Front(name, make, own, server) as it:
            client = Client(it.place)
            seen = [one for some in asked for one in some(client, folder)]
        with Server(folder, *SHORT) as server:
            with Front(name, make, own, server) as it:
                count = 3_000 if is_quick else 10_000
                words = ["-c", "32", "-t", "1", f"--connect-to=127.0.0.1:{it.place.tls}"]
                loads = [load(own, Client(it.place).url("a.txt"), count, "--h1", *words)]
                if second_version in asked:
                    loads.append(load(own, Client(it.place).url("a.txt"), count, "-m", "8", *words))
            status, told = server.end()
    wrong = [what for what, is_right in seen if not is_right]
    is_right = status == 0 and not wrong and all(is_well for is_well, _ in loads)
    yield is_right, f"{', '.join(what for what, _ in seen)}, and {count} requests under load by {' and '.join(['HTTP/1.1', 'HTTP/2'][:len(loads)])}", \
        f"otherwise {', '.join(wrong) or 'none'}; the change after {client.told_after:.1f} s; {'; '.join(text for _, text in loads)} ({told})"


# ---- whose a connection is

# What a recipe says of how `swsd` learns its clients' addresses, and what is to stand there for that.
NAMING = {
    "haproxy": (haproxy, ("    server swsd 127.0.0.1:8080\n    # ", "    ")),
    "stunnel": (stunnel, ("; protocol = proxy", "protocol = proxy")),
}


def naming(name):
    """A recipe that names its clients by the PROXY protocol, and one of an address of its own: the line of the log has that."""
    make, line = NAMING[name]
    with site() as folder, room() as own:
        make_site(folder)
        with Server(folder, "--proxy", "127.0.0.1", "--log", output=os.path.join(own, "log")) as server:
            with Front(name, lambda place: make(place, line), own, server) as it:
                client = Client(it.place)
                code = client.told("%{http_code}", "--interface", "127.0.0.2", client.url("a.txt"))
            status, _ = server.end()
            first = next(iter(server.log()), "")
    is_right = status == 0 and code == "200" and first.startswith("127.0.0.2 ") and '"GET /a.txt HTTP/1.1" 200' in first
    yield is_right, "the log names the client", f"{code}, {first}"


# ---- several machines

class Machine:
    """A server at one port, which is stopped and begun again."""

    def __init__(self, folder, words):
        self.folder, self.words, self.port, self.served = folder, words, 0, []
        self.begin()

    def begin(self):
        self.server = Server(self.folder, *self.words, port=self.port)
        if not self.server.port:
            raise RuntimeError(f"a server doesn't listen: {self.server.lines()[-200:]}")
        self.port = self.server.port

    def stop(self):
        """Whether it ended well."""
        status, told = self.server.end()
        self.server.__exit__()
        self.served.append(told.get("connections", 0))
        return status == 0

    def abandon(self):
        if self.server.child.poll() is None:
            self.server.__exit__()


def haproxy_before(machines, place):
    recipe = fitted("several/haproxy.cfg", [
        ("bind :::80 v4v6", f"bind 127.0.0.1:{place.tls}"), ("192.0.2.1:8080", f"127.0.0.1:{machines[0].port}"),
        ("192.0.2.2:8080", f"127.0.0.1:{machines[1].port}"), FEWER, *AS_IT_IS,
    ])
    return ["haproxy", "-db", "-f", write(place.own, "haproxy.cfg", recipe.encode())]


def several(is_quick):
    """Two servers behind HAProxy, each of which is stopped under load and comes back: no request fails."""
    length = 12 if is_quick else 24
    with site() as folder, room() as own:
        make_site(folder)
        machines = [Machine(folder, ["--grace", "1"]) for _ in range(2)]
        try:
            with Front("haproxy", functools.partial(haproxy_before, machines), own, machines[0].server) as it:
                seen = {}
                loader = threading.Thread(target=lambda: seen.update(load=load_for(own, it.place.tls, length)))
                loader.start()
                ended = []
                for machine in machines:
                    time.sleep(length / 6)
                    ended.append(machine.stop())
                    time.sleep(length / 12)
                    machine.begin()
                loader.join()
                ended += [machine.stop() for machine in machines]
        finally:
            for machine in machines:
                machine.abandon()
    is_well, text = seen["load"]
    served = [machine.served for machine in machines]
    is_right = is_well and all(ended) and all(count > 0 for one in served for count in one)
    yield is_right, f"no request fails in {length} s, while each of two is stopped and comes back", f"{text}; connections that each had, before and after its stop: {served}"


def load_for(own, port, seconds):
    """A load by h2load for so long."""
    _, said = use(["h2load", "--h1", "-D", str(seconds), "-c", "32", "-t", "1", f"http://127.0.0.1:{port}/a.txt"], own, seconds + 30)
    requests = re.search(r"^requests: .* (\d+) succeeded, (\d+) failed, (\d+) errored, (\d+) timeout", said, re.M)
    codes = re.search(r"^status codes: (.*)", said, re.M)
    if not requests:
        return False, said.strip()[-200:]
    return int(requests[1]) > 0 and requests.groups()[1:] == ("0", "0", "0"), f"{requests[1]} succeeded, {requests[2]} failed ({codes[1]})"


# ---- all of them

# What each recipe is tried by.
NEEDED = ("openssl", "curl", "h2load")


def cases():
    """Each case by its name, with the programs that it needs."""
    fronts = {name: (lambda is_quick, name=name: front(name, is_quick), (name, *NEEDED)) for name in FRONTS}
    fronts |= {f"{name}_naming": (lambda _, name=name: naming(name), (name, *NEEDED)) for name in NAMING}
    return fronts | {"several": (several, ("haproxy", *NEEDED))}


def main():
    words = argparse.ArgumentParser(description="Tries the recipes with the programs that they are for.")
    words.add_argument("--only", default="")
    words.add_argument("--quick", action="store_true")
    words.add_argument("--program", default=staying.SWSD)
    given = words.parse_args()
    staying.SWSD = os.path.abspath(given.program)
    if not os.access(staying.SWSD, os.X_OK):
        sys.exit("recipes: the program isn't built")
    clients.limit(60 if given.quick else 240, "recipes")
    right, wrong, absent = clients.run_all(cases(), given.only, given.quick)
    print(clients.summary("recipes", right, wrong, absent))
    sys.exit(1 if wrong or not right else 0)


if __name__ == "__main__":
    main()
