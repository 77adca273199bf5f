//! Random bytes for connections: heads good and bad, and what is no head at all.
use super::draw::Draw;

/// The files that are asked for: names with what a path spells in its own way, and bodies with every byte.
pub fn site_files() -> Vec<(&'static str, Vec<u8>)> {
    let mut draw = Draw::new(16);
    let mut noise = |count: usize| -> Vec<u8> { (0..count).map(|_| draw.byte()).collect() };
    vec![
        ("index.html", b"hi\n".to_vec()),
        ("a/b.txt", b"0123456789".to_vec()),
        ("empty.css", Vec::new()),
        ("a b.txt", b"one\r\ntwo\rthree\nfour~\\\t".to_vec()),
        ("%41.html", noise(1)),
        ("A.html", b"<p>A</p>\r\n".to_vec()),
        ("\u{fc}.js", noise(63)),
        ("deep/deeper/index.html", noise(300)),
        ("x.PNG", noise(1_000)),
        (".dot", b"\n\n\n".to_vec()),
        ("noext", b"\r\n\r\n".to_vec()),
        ("q?x.json", b"{}".to_vec()),
        ("page.pdf", noise(4_096)),
        ("more.wasm", noise(4_097)),
        ("large.bin", noise(70_000)),
    ]
}

#[rustfmt::skip]
const METHODS: [&str; 16] = [
    "HEAD", "OPTIONS", "POST", "PUT", "DELETE", "PATCH", "TRACE", "CONNECT", "get", "Get", "HEADS", "GE", "PROPFIND", "M-SEARCH", "!#$%&'*+", "G\u{e9}T",
];

#[rustfmt::skip]
const TARGETS: [&str; 44] = [
    "/", "/", "/index.html", "/a/b.txt", "/a/b.txt", "/empty.css", "/a%20b.txt", "/a%20b%2Etxt", "/%2541.html", "/%41.html", "/A.html",
    "/%c3%bc.js", "/\u{fc}.js", "/deep/deeper/", "/deep/deeper", "/deep//deeper/", "/x.PNG", "/x.png", "/.dot", "/noext", "/q%3fx.json",
    "/q?x.json", "/page.pdf", "/more.wasm", "/a/../index.html", "/..%2f..%2fetc/passwd", "/../../etc/passwd", "//", "//a/b.txt", "/%00", "/a%2fb.txt",
    "/a/b.txt%00", "/%", "/%4", "/%zz", "/index.html#part", "/?a=b", "http://x/a/b.txt", "HTTP://x", "http://x?/a/b.txt", "https://x/", "*", "x:80", "a/b.txt",
];

const VERSIONS: [&str; 9] =
    ["HTTP/1.0", "HTTP/1.2", "HTTP/2.0", "HTTP/0.9", "http/1.1", "HTTP/1.1 ", "HTTP/1.", "HTTP", ""];

#[rustfmt::skip]
const FIELDS: [&str; 62] = [
    "Connection: close", "connection: keep-alive", "Connection: Keep-Alive, CLOSE", "Connection:\t close\t,x", "Connection: closed", "Connection: close;q=1",
    "Connection:", "Content-Length: 0", "Content-Length: 000", "Content-Length: 5", "Content-Length:", "Content-Length: 0, 0", "Content-Length: +0",
    "Transfer-Encoding: chunked", "Transfer-Encoding: identity", "Host: y", "Host:", "HOST: [::1]:80", "Range: bytes=2-5", "Range: bytes=5-", "Range: bytes=-3",
    "Range: bytes=-0", "Range: bytes=9-99", "Range: bytes=10-", "Range: BYTES=0-0", "Range: bytes=5-2", "Range: bytes=0-1,3-4", "Range: lines=1-2",
    "Range: bytes=", "Range: bytes=-", "Range: bytes = 1-2", "Range: bytes=1 -2", "Range: bytes=0-999999999999999999", "Range: bytes=0-1000000000000000000",
    "Range: bytes=000000000000000001-000000000000000002", "Range: bytes=-999999999999999999", "If-Range: \"x\"", "If-None-Match: *",
    "If-Modified-Since: Sun, 06 Nov 1994 08:49:37 GMT", "If-Modified-Since: Sunday, 06-Nov-94 08:49:37 GMT", "If-Modified-Since: Sun Nov  6 08:49:37 1994",
    "If-Modified-Since: Sun, 06 Nov 1994 08:49:36 GMT", "If-Modified-Since: Sun, 06 Nov 1994 08:49:38 GMT", "If-Modified-Since: Tue, 19 Jan 2038 03:14:08 GMT",
    "If-Modified-Since: Thu, 01 Jan 1970 00:00:00 GMT", "If-Modified-Since: Sun, 06 Nov 1994 08:49:37", "If-Modified-Since: Mon, 30 Feb 2026 00:00:00 GMT",
    "If-Modified-Since: \u{fc}", "Accept: text/html,application/xhtml+xml;q=0.9,*/*;q=0.8", "User-Agent: Mozilla/5.0 (X11; Linux x86_64)", "Accept-Encoding: gzip, deflate",
    "X-Empty:", "X: a\tb", "X: \u{fc}\u{fe}", "X:a", "X : a", " X: a", "\tfolded", "no colon", ": no name", "X\u{e9}: a", "X: a\rb",
];

const ENDS: [&str; 3] = ["\n", "\r", "\r\r\n"];

fn push(to: &mut Vec<u8>, text: &str, draw: &mut Draw) {
    // A letter over 0x7F goes out as UTF-8 or as one byte.
    if draw.in_hundred(50) {
        to.extend_from_slice(text.as_bytes());
    } else {
        to.extend(text.chars().map(|letter| letter as u32 as u8));
    }
}

fn push_end(to: &mut Vec<u8>, oddly: usize, draw: &mut Draw) {
    let end = if oddly > 0 && draw.in_hundred(oddly) { *draw.of(&ENDS) } else { "\r\n" };
    to.extend_from_slice(end.as_bytes());
}

/// Adds a head. Of a hundred choices so many are bad ones.
fn push_head(to: &mut Vec<u8>, bad: usize, draw: &mut Draw) {
    let oddly = if draw.in_hundred(bad) { *draw.of(&[5, 30, 100]) } else { 0 };
    let blank = if draw.in_hundred(bad / 4) { *draw.of(&["  ", "\t", ""]) } else { " " };
    let method = if draw.in_hundred(15 + bad / 4) { *draw.of(&METHODS) } else { "GET" };
    let version = if draw.in_hundred(3 + bad / 4) { *draw.of(&VERSIONS) } else { "HTTP/1.1" };
    for _ in 0..(if draw.in_hundred(5) { draw.between(1, 3) } else { 0 }) {
        push_end(to, oddly, draw);
    }
    push(to, method, draw);
    to.extend_from_slice(blank.as_bytes());
    if draw.in_hundred(1) {
        to.extend_from_slice(b"/large.bin");
    } else {
        push(to, *draw.of(&TARGETS), draw);
    }
    to.extend_from_slice(blank.as_bytes());
    push(to, version, draw);
    push_end(to, oddly, draw);
    push_fields(to, bad, oddly, draw);
    push_end(to, oddly, draw);
}

fn push_fields(to: &mut Vec<u8>, bad: usize, oddly: usize, draw: &mut Draw) {
    let count = if draw.in_hundred(2) { draw.between(60, 66) } else { draw.below(5) };
    let host_at = if draw.in_hundred(3 + bad / 4) { usize::MAX } else { draw.below(count + 1) };
    for at in 0..=count {
        if at == host_at {
            push(to, "Host: x", draw);
            push_end(to, oddly, draw);
        }
        if at < count {
            let field = if draw.in_hundred(60) { FIELDS[48 + draw.below(5)] } else { *draw.of(&FIELDS) };
            push(to, field, draw);
            push_end(to, oddly, draw);
        }
    }
}

/// Adds one short and good head.
fn push_short_head(to: &mut Vec<u8>, draw: &mut Draw) {
    let target = *draw.of(&["/", "/a/b.txt", "/empty.css", "/none"]);
    to.extend_from_slice(format!("GET {target} HTTP/1.1\r\nHost: x\r\n\r\n").as_bytes());
}

/// Adds a head of about as many bytes as a head may have: a long target, a long field, or many empty lines in front.
fn push_long_head(to: &mut Vec<u8>, draw: &mut Draw) {
    let length = draw.between(8_186, 8_198);
    let (before, after) = match draw.below(4) {
        0 => (&b"GET /"[..], &b" HTTP/1.1\r\nHost: x\r\n\r\n"[..]),
        1 => (&b"GET / HTTP/1.1\r\nHost: x\r\nX: "[..], &b"\r\n\r\n"[..]),
        2 => (&b"GET / HTTP/1.1\r\nHost: "[..], &b"\r\n\r\n"[..]),
        _ => (&b""[..], &b"GET / HTTP/1.1\r\nHost: x\r\n\r\n"[..]),
    };
    let filling = if before.is_empty() { b'\n' } else { b'a' };
    to.extend_from_slice(before);
    to.resize(to.len() + length - before.len() - after.len(), filling);
    to.extend_from_slice(after);
}

fn noise(count: usize, draw: &mut Draw) -> Vec<u8> {
    let alphabet: &[u8] =
        *draw.of(&[&b""[..], b"\r\n", b"GET / HTTP/1.1\r\n\r\nHost:x", b"\r\n\t :/%aZ09", b"\0\x7f\x80\xff\n\r G"]);
    (0..count).map(|_| if alphabet.is_empty() { draw.byte() } else { *draw.of(alphabet) }).collect()
}

/// Changes some places of the bytes: others in their place, more, fewer, or the same again.
fn spoil(bytes: &mut Vec<u8>, draw: &mut Draw) {
    for _ in 0..draw.between(1, 4) {
        let at = draw.below(bytes.len() + 1);
        let end = (at + draw.between(1, 8)).min(bytes.len());
        match draw.below(4) {
            0 => bytes[at..end].fill_with(|| draw.byte()),
            1 => drop(bytes.splice(at..at, noise(3, draw))),
            2 => drop(bytes.drain(at..end)),
            _ => drop(bytes.splice(at..at, bytes[at..end].to_vec())),
        }
    }
}

/// More than 65,536 bytes, or nearly so many: heads that go on and on, so that the last byte that counts falls anywhere.
fn long_input(draw: &mut Draw) -> Vec<u8> {
    let mut bytes = Vec::new();
    let length = draw.between(65_500, 66_000);
    while bytes.len() < length {
        if draw.in_hundred(85) {
            push_padded_head(&mut bytes, draw);
        } else {
            push_short_head(&mut bytes, draw);
        }
    }
    bytes.truncate(length);
    bytes
}

fn push_padded_head(to: &mut Vec<u8>, draw: &mut Draw) {
    to.extend_from_slice(b"GET / HTTP/1.1\r\nHost: x\r\nX: ");
    to.resize(to.len() + draw.between(1_000, 7_000), b'a');
    to.extend_from_slice(b"\r\n\r\n");
}

/// The bytes of a connection.
pub fn text(draw: &mut Draw) -> Vec<u8> {
    let mut bytes = Vec::new();
    match draw.below(1_000) {
        0..=19 => {}
        20..=24 => return long_input(draw),
        25..=54 => (0..draw.between(62, 67)).for_each(|_| push_short_head(&mut bytes, draw)),
        55..=74 => push_long_head(&mut bytes, draw),
        75..=84 => bytes.resize(draw.between(8_100, 8_300), *draw.of(b"a\n\0")),
        85..=164 => bytes = noise(draw.between(1, 400), draw),
        165..=599 => (0..draw.between(1, 4)).for_each(|_| push_head(&mut bytes, 0, draw)),
        _ => (0..draw.between(1, 6)).for_each(|_| push_head(&mut bytes, 20, draw)),
    }
    if draw.in_hundred(15) {
        spoil(&mut bytes, draw);
    }
    if draw.in_hundred(15) {
        bytes.truncate(draw.below(bytes.len() + 1));
    }
    bytes
}
