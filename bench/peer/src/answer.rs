//! `answer FOLDER [DATE]`: the work of `sws answer` in plain Rust, as a peer to measure it by.
//!
//! It loads a folder once, reads one connection from standard input, and writes the responses. It makes the same
//! decisions by the same crates in their original form; no promise is proved of it.
mod media_types;

use media_types::media_type;
use std::borrow::Cow;
use std::collections::HashMap;
use std::io::{self, Read, Write};
use std::path::Path;
use std::time::{Duration, SystemTime, UNIX_EPOCH};
use std::{env, fs};

const INPUT_LIMIT: usize = 65_536;
const HEAD_LIMIT: usize = 8_192;
const ANSWER_LIMIT: usize = 64;

struct Page {
    body: Vec<u8>,
    open_head: Vec<u8>,
    closing_head: Vec<u8>,
}

struct Site {
    pages: HashMap<Vec<u8>, Page>,
    date: Option<SystemTime>,
}

fn head(code: u16, reason: &str, closes: bool, date: Option<SystemTime>, content: Option<(&str, usize)>) -> Vec<u8> {
    let mut text = format!("HTTP/1.1 {code} {reason}\r\nServer: sws\r\n");
    if closes {
        text.push_str("Connection: close\r\n");
    }
    if let Some(date) = date {
        text.push_str(&format!("Last-Modified: {}\r\n", httpdate::fmt_http_date(date)));
    }
    if code == 405 {
        text.push_str("Allow: GET, HEAD\r\n");
    }
    if let Some((kind, length)) = content {
        text.push_str(&format!("Content-Type: {kind}\r\nContent-Length: {length}\r\n"));
    }
    text.push_str("\r\n");
    text.into_bytes()
}

fn load(site: &mut Site, folder: &Path, prefix: &str) -> io::Result<()> {
    for entry in fs::read_dir(folder)? {
        let entry = entry?;
        let kind = entry.file_type()?;
        let name = format!("{prefix}{}", entry.file_name().to_str().expect("a name in UTF-8"));
        if kind.is_dir() {
            load(site, &entry.path(), &format!("{name}/"))?;
        } else if kind.is_file() {
            let body = fs::read(entry.path())?;
            let content = Some((media_type(name.as_bytes()), body.len()));
            let open_head = head(200, "OK", false, site.date, content);
            let closing_head = head(200, "OK", true, site.date, content);
            site.pages.insert(name.into_bytes(), Page { body, open_head, closing_head });
        }
    }
    Ok(())
}

/// The length of the head that the bytes begin with.
fn cut(bytes: &[u8]) -> Option<usize> {
    let mut start = 0;
    let mut seen_line = false;
    for end in memchr::memchr_iter(b'\n', bytes) {
        let line = &bytes[start..end];
        let is_empty = line.is_empty() || line == b"\r";
        start = end + 1;
        if is_empty && seen_line {
            return (start <= HEAD_LIMIT).then_some(start);
        }
        seen_line |= !is_empty;
    }
    None
}

fn name_of(target: &str) -> Option<Cow<'_, [u8]>> {
    let absolute = target.len() >= 7 && target.as_bytes()[..7].eq_ignore_ascii_case(b"http://");
    let path = if target.starts_with('/') {
        target
    } else if absolute {
        let rest = &target[7..];
        &rest[rest.find(['/', '?', '#']).unwrap_or(rest.len())..]
    } else {
        return None;
    };
    let path = &path[..path.find(['?', '#']).unwrap_or(path.len())];
    let decoded: Cow<'_, [u8]> = percent_encoding::percent_decode(path.as_bytes()).into();
    let mut name = decoded.into_owned();
    if !name.is_empty() {
        name.remove(0);
    }
    if name.is_empty() || name.ends_with(b"/") {
        name.extend_from_slice(b"index.html");
    }
    Some(Cow::Owned(name))
}

enum Answer<'s> {
    Page(&'s [u8], &'s [u8]),
    NotModified,
    Fixed(u16, &'static str),
}

struct Fields<'b> {
    hosts: usize,
    closes: bool,
    since: Option<&'b [u8]>,
    sinces: usize,
    none_match: bool,
}

fn fields_of<'b>(request: &httparse::Request<'_, 'b>) -> Fields<'b> {
    let mut fields =
        Fields { hosts: 0, closes: request.version == Some(0), since: None, sinces: 0, none_match: false };
    for field in request.headers.iter() {
        if field.name.eq_ignore_ascii_case("host") {
            fields.hosts += 1;
        } else if field.name.eq_ignore_ascii_case("connection") {
            fields.closes |= field.value.split(|byte| *byte == b',').any(|member| {
                let text = std::str::from_utf8(member).unwrap_or("");
                text.trim_matches([' ', '\t']).eq_ignore_ascii_case("close")
            });
        } else if field.name.eq_ignore_ascii_case("transfer-encoding") {
            fields.closes = true;
        } else if field.name.eq_ignore_ascii_case("content-length") {
            fields.closes |= field.value.is_empty() || field.value.iter().any(|byte| *byte != b'0');
        } else if field.name.eq_ignore_ascii_case("if-modified-since") {
            fields.since = Some(field.value);
            fields.sinces += 1;
        } else if field.name.eq_ignore_ascii_case("if-none-match") {
            fields.none_match = true;
        }
    }
    fields
}

fn is_unmodified(site: &Site, fields: &Fields<'_>) -> bool {
    let (Some(date), Some(since)) = (site.date, fields.since) else {
        return false;
    };
    let text = std::str::from_utf8(since).unwrap_or("");
    !fields.none_match && fields.sinces == 1 && httpdate::parse_http_date(text).is_ok_and(|since| date <= since)
}

fn answer<'s>(site: &'s Site, request: &httparse::Request<'_, '_>, fields: &Fields<'_>, last: bool) -> Answer<'s> {
    let method = request.method.unwrap_or("");
    if fields.hosts > 1 || (fields.hosts == 0 && request.version == Some(1)) {
        return Answer::Fixed(400, "Bad Request");
    }
    if ["OPTIONS", "POST", "PUT", "DELETE", "PATCH", "TRACE", "CONNECT"].contains(&method) {
        return Answer::Fixed(405, "Method Not Allowed");
    }
    if method != "GET" && method != "HEAD" {
        return Answer::Fixed(501, "Not Implemented");
    }
    let Some(name) = name_of(request.path.unwrap_or("")) else {
        return Answer::Fixed(400, "Bad Request");
    };
    let Some(page) = site.pages.get(name.as_ref()) else {
        return Answer::Fixed(404, "Not Found");
    };
    if is_unmodified(site, fields) {
        return Answer::NotModified;
    }
    let head = if fields.closes || last { &page.closing_head } else { &page.open_head };
    Answer::Page(head, &page.body)
}

fn write_fixed(out: &mut impl Write, code: u16, reason: &str, closes: bool, is_head: bool) -> io::Result<()> {
    let body = format!("{code} {reason}\n");
    out.write_all(&head(code, reason, closes, None, Some(("text/plain", body.len()))))?;
    if is_head {
        return Ok(());
    }
    out.write_all(body.as_bytes())
}

fn respond(site: &Site, input: &[u8], out: &mut impl Write) -> io::Result<()> {
    let mut rest = input;
    for number in 1..=ANSWER_LIMIT {
        let Some(length) = cut(rest) else {
            if rest.len() >= HEAD_LIMIT {
                write_fixed(out, 431, "Request Header Fields Too Large", true, false)?;
            }
            return Ok(());
        };
        let mut slots = [httparse::EMPTY_HEADER; 64];
        let mut request = httparse::Request::new(&mut slots);
        match request.parse(&rest[..length]) {
            Ok(httparse::Status::Complete(parsed)) if parsed == length => {}
            _ => return write_fixed(out, 400, "Bad Request", true, false),
        }
        rest = &rest[length..];
        let fields = fields_of(&request);
        let last = number == ANSWER_LIMIT;
        let is_head = request.method == Some("HEAD");
        let mut closes = fields.closes || last;
        match answer(site, &request, &fields, last) {
            Answer::Page(head, body) => {
                out.write_all(head)?;
                if !is_head {
                    out.write_all(body)?;
                }
            }
            Answer::NotModified => out.write_all(&head(304, "Not Modified", closes, site.date, None))?,
            Answer::Fixed(code, reason) => {
                closes |= code == 400;
                write_fixed(out, code, reason, closes, is_head)?;
            }
        }
        if closes {
            return Ok(());
        }
    }
    Ok(())
}

fn main() -> io::Result<()> {
    let words: Vec<String> = env::args().skip(1).collect();
    let date = words.get(1).and_then(|word| word.parse().ok()).map(|secs| UNIX_EPOCH + Duration::from_secs(secs));
    let mut site = Site { pages: HashMap::new(), date };
    load(&mut site, Path::new(&words[0]), "")?;
    let mut input = Vec::new();
    io::stdin().take(INPUT_LIMIT as u64).read_to_end(&mut input)?;
    let mut out = io::stdout().lock();
    respond(&site, &input, &mut out)?;
    out.flush()
}
