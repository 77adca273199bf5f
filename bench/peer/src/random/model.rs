//! What the server owes, by its definitions: the responses to a list of bytes, and the outcome of a scripted connection.
//!
//! Written from the documents, and plainly: every line of a response is built anew, and a connection is looked at as a whole.
use crate::media_types::media_type;
use super::head::{request, without_blanks, Request};
use super::script::{self, Connection, End, Item};
use std::collections::HashMap;
use std::time::{Duration, SystemTime, UNIX_EPOCH};

pub const INPUT_LIMIT: usize = 65_536;
const HEAD_LIMIT: usize = 8_192;
const ANSWER_LIMIT: usize = 64;
/// The most bytes of a target that a log shows.
const BRIEF: usize = 64;
/// A link that isn't ready so many times in a row is given up.
const IDLE_AT: usize = 30;

#[derive(Clone)]
pub struct Site {
    pub files: HashMap<Vec<u8>, Vec<u8>>,
    /// When the files were last modified, in seconds after the beginning of 1970.
    pub date: Option<u64>,
}

/// The responses to some bytes, and whether the last of them ends the connection.
#[derive(Default)]
pub struct Responses {
    pub bytes: Vec<u8>,
    pub closes: bool,
    pub codes: Vec<u16>,
    /// How long each of them is, and what was asked for, `-` where that was no request.
    pub asked: Vec<(usize, Vec<u8>)>,
}

enum Cut {
    Head(usize),
    TooLong,
    NotYet,
}

/// The shortest front that is any number of empty lines, another line, and all lines up to the next empty one.
fn cut(bytes: &[u8]) -> Cut {
    let mut end = 0;
    let mut has_line = false;
    for line in bytes.split_inclusive(|byte| *byte == b'\n') {
        if !line.ends_with(b"\n") {
            break;
        }
        end += line.len();
        let is_empty = line == b"\n" || line == b"\r\n";
        if is_empty && has_line {
            return if end <= HEAD_LIMIT { Cut::Head(end) } else { Cut::TooLong };
        }
        has_line |= !is_empty;
    }
    if bytes.len() >= HEAD_LIMIT {
        Cut::TooLong
    } else {
        Cut::NotYet
    }
}

fn without_empty_lines(mut head: &[u8]) -> &[u8] {
    while let Some(rest) = head.strip_prefix(b"\n").or_else(|| head.strip_prefix(b"\r\n")) {
        head = rest;
    }
    head
}

fn reason_of(code: u16) -> &'static str {
    match code {
        200 => "OK",
        206 => "Partial Content",
        304 => "Not Modified",
        400 => "Bad Request",
        404 => "Not Found",
        405 => "Method Not Allowed",
        416 => "Range Not Satisfiable",
        431 => "Request Header Fields Too Large",
        501 => "Not Implemented",
        _ => unreachable!("a code of the table"),
    }
}

fn closes(request: &Request<'_>, is_last: bool) -> bool {
    let has_close = |value: &[u8]| {
        let mut members = value.split(|byte| *byte == b',');
        members.any(|member| without_blanks(member).eq_ignore_ascii_case(b"close"))
    };
    let is_zeros = |value: &[u8]| !value.is_empty() && value.iter().all(|byte| *byte == b'0');
    is_last
        || request.minor == 0
        || request.values("connection").any(has_close)
        || request.has("transfer-encoding")
        || request.values("content-length").any(|value| !is_zeros(value))
}

/// The file that a target names; none where it is no path and no `http` address.
fn name_of(target: &[u8]) -> Option<Vec<u8>> {
    let is_absolute = target.len() >= 7 && target[..7].eq_ignore_ascii_case(b"http://");
    let path = if is_absolute {
        let rest = &target[7..];
        let end = rest.iter().position(|byte| b"/?#".contains(byte)).unwrap_or(rest.len());
        let rest = &rest[end..];
        if rest.starts_with(b"/") {
            rest.to_vec()
        } else {
            [b"/", rest].concat()
        }
    } else if target.starts_with(b"/") {
        target.to_vec()
    } else {
        return None;
    };
    let end = path.iter().position(|byte| b"?#".contains(byte)).unwrap_or(path.len());
    let decoded: Vec<u8> = percent_encoding::percent_decode(&path[..end]).collect();
    let mut name = decoded[1..].to_vec();
    if name.is_empty() || name.ends_with(b"/") {
        name.extend_from_slice(b"index.html");
    }
    Some(name)
}

fn is_unmodified(date: Option<u64>, request: &Request<'_>) -> bool {
    let since: Vec<&[u8]> = request.values("if-modified-since").collect();
    let (Some(date), [since]) = (date, since.as_slice()) else {
        return false;
    };
    let Ok(since) = std::str::from_utf8(since) else {
        return false;
    };
    let date = UNIX_EPOCH + Duration::from_secs(date);
    let is_since = |read: SystemTime| read >= date;
    !request.has("if-none-match") && httpdate::parse_http_date(since).is_ok_and(is_since)
}

/// What a request asks for of a file: all of it, bytes from a first to a last one, or bytes that it doesn't have.
enum Selected {
    Whole,
    Bytes(usize, usize),
    Nothing,
}

fn digits(text: &[u8]) -> Option<u64> {
    let is_number = (1..=18).contains(&text.len()) && text.iter().all(u8::is_ascii_digit);
    is_number.then(|| std::str::from_utf8(text).ok()?.parse().ok())?
}

fn selected(request: &Request<'_>, length: usize) -> Selected {
    let ranges: Vec<&[u8]> = request.values("range").collect();
    let (b"GET", [value], false) = (request.method, ranges.as_slice(), request.has("if-range")) else {
        return Selected::Whole;
    };
    let value = without_blanks(value);
    if value.len() < 6 || !value[..6].eq_ignore_ascii_case(b"bytes=") {
        return Selected::Whole;
    }
    let Some(dash) = value.iter().position(|byte| *byte == b'-') else {
        return Selected::Whole;
    };
    let (first, last) = (&value[6.min(dash)..dash], &value[dash + 1..]);
    let from_to = |first: u64, last: u64| match usize::try_from(first) {
        Ok(first) if first < length => Selected::Bytes(first, (last as usize).min(length - 1)),
        _ => Selected::Nothing,
    };
    match (first.is_empty(), digits(first), last.is_empty(), digits(last)) {
        (false, Some(first), true, _) => from_to(first, u64::MAX),
        (false, Some(first), false, Some(last)) if first <= last => from_to(first, last),
        (true, _, false, Some(0)) => Selected::Nothing,
        (true, _, false, Some(_)) if length == 0 => Selected::Whole,
        (true, _, false, Some(count)) => Selected::Bytes(length - (count as usize).min(length), length - 1),
        _ => Selected::Whole,
    }
}

/// One response: its lines in order, and the body where one is sent.
struct Response<'b> {
    code: u16,
    closes: bool,
    modified: Option<u64>,
    range: Option<String>,
    /// The media type and the body as for `GET`.
    content: Option<(&'static str, &'b [u8])>,
    sends_body: bool,
}

impl Response<'_> {
    fn write(&self, to: &mut Vec<u8>) {
        let mut lines = vec![format!("HTTP/1.1 {} {}", self.code, reason_of(self.code)), "Server: sws".to_string()];
        if self.closes {
            lines.push("Connection: close".to_string());
        }
        if let Some(date) = self.modified {
            let date = UNIX_EPOCH + Duration::from_secs(date);
            lines.push(format!("Last-Modified: {}", httpdate::fmt_http_date(date)));
        }
        if self.code == 405 {
            lines.push("Allow: GET, HEAD".to_string());
        }
        lines.extend(self.range.clone());
        if let Some((kind, body)) = self.content {
            lines.push(format!("Content-Type: {kind}"));
            lines.push(format!("Content-Length: {}", body.len()));
        }
        for line in lines {
            to.extend_from_slice(line.as_bytes());
            to.extend_from_slice(b"\r\n");
        }
        to.extend_from_slice(b"\r\n");
        if let (Some((_, body)), true) = (self.content, self.sends_body) {
            to.extend_from_slice(body);
        }
    }
}

/// The response that tells its code alone.
fn write_plain(to: &mut Vec<u8>, code: u16, closes: bool, sends_body: bool, range: Option<String>) {
    let body = format!("{code} {}\n", reason_of(code));
    let content = Some(("text/plain", body.as_bytes()));
    Response { code, closes, modified: None, range, content, sends_body }.write(to);
}

fn refusal_of(request: &Request<'_>) -> Option<u16> {
    let hosts = request.values("host").count();
    if hosts > 1 || hosts == 0 && request.minor == 1 {
        return Some(400);
    }
    match request.method {
        b"GET" | b"HEAD" => None,
        b"OPTIONS" | b"POST" | b"PUT" | b"DELETE" | b"PATCH" | b"TRACE" | b"CONNECT" => Some(405),
        _ => Some(501),
    }
}

/// Answers a request: the code, and whether the connection ends.
fn answer(site: &Site, request: &Request<'_>, is_last: bool, to: &mut Vec<u8>) -> (u16, bool) {
    let sends_body = request.method != b"HEAD";
    let name = name_of(request.target);
    let file = name.as_ref().and_then(|name| site.files.get(name));
    let refused = refusal_of(request).or(name.is_none().then_some(400)).or(file.is_none().then_some(404));
    let closes = closes(request, is_last) || refused == Some(400);
    if let Some(code) = refused {
        write_plain(to, code, closes, sends_body, None);
        return (code, closes);
    }
    let (name, file) = (name.expect("a name"), file.expect("a file"));
    let whole = Response {
        code: 200,
        closes,
        modified: site.date,
        range: None,
        content: Some((media_type(&name), file)),
        sends_body,
    };
    let response = match selected(request, file.len()) {
        _ if is_unmodified(site.date, request) => Response { code: 304, content: None, ..whole },
        Selected::Whole => whole,
        Selected::Bytes(first, last) => {
            let range = Some(format!("Content-Range: bytes {first}-{last}/{}", file.len()));
            Response { code: 206, range, content: Some((media_type(&name), &file[first..=last])), ..whole }
        }
        Selected::Nothing => {
            write_plain(to, 416, closes, sends_body, Some(format!("Content-Range: bytes */{}", file.len())));
            return (416, closes);
        }
    };
    response.write(to);
    (response.code, closes)
}

/// The responses to the bytes of a connection.
pub fn responses(site: &Site, input: &[u8]) -> Responses {
    let mut rest = &input[..input.len().min(INPUT_LIMIT)];
    let mut all = Responses::default();
    while !all.closes {
        let length = match cut(rest) {
            Cut::Head(length) => length,
            Cut::TooLong => {
                let before = all.bytes.len();
                write_plain(&mut all.bytes, 431, true, true, None);
                all.codes.push(431);
                all.asked.push((all.bytes.len() - before, b"-".to_vec()));
                all.closes = true;
                break;
            }
            Cut::NotYet => break,
        };
        let head = without_empty_lines(&rest[..length]);
        rest = &rest[length..];
        let is_last = all.codes.len() + 1 == ANSWER_LIMIT;
        let before = all.bytes.len();
        let (code, closes, target) = match request(head) {
            Some(request) => {
                let (code, closes) = answer(site, &request, is_last, &mut all.bytes);
                (code, closes, request.target.to_vec())
            }
            None => {
                write_plain(&mut all.bytes, 400, true, true, None);
                (400, true, b"-".to_vec())
            }
        };
        all.codes.push(code);
        all.asked.push((all.bytes.len() - before, target));
        all.closes = closes;
    }
    all
}

/// The lines of the access log of a connection of which so many bytes of these responses were written: one for each
/// that was written whole.
pub fn log(number: usize, full: &Responses, written: usize) -> Vec<String> {
    let mut lines = Vec::new();
    let mut sum = 0;
    for (turn, (code, (length, target))) in full.codes.iter().zip(&full.asked).enumerate() {
        sum += length;
        if sum > written {
            break;
        }
        let mut line = format!("log {number} {} {code} {length} ", turn + 1);
        script::write_text(&mut line, &target[..target.len().min(BRIEF)]);
        lines.push(line);
    }
    lines
}

enum Stop {
    Fault,
    Pause,
    /// The end of the connection, or its 65,536th byte.
    End,
}

/// The bytes of a scripted connection before its first stop, and that stop.
fn bytes_before_stop(connection: &Connection) -> (Vec<u8>, Stop) {
    let mut bytes = Vec::new();
    for item in &connection.items {
        if bytes.len() >= INPUT_LIMIT {
            break;
        }
        match item {
            Item::Send(piece) => bytes.extend_from_slice(piece),
            Item::Fill(count) => bytes.resize(bytes.len() + count, b'a'),
            Item::Pause(count) if *count >= IDLE_AT => return (bytes, Stop::Pause),
            Item::Pause(_) => {}
            Item::Fault => return (bytes, Stop::Fault),
        }
    }
    bytes.truncate(INPUT_LIMIT);
    (bytes, Stop::End)
}

/// What a scripted connection is to be sent, and how it ends, where the responses to its bytes are these.
pub fn outcome<'r>(connection: &Connection, text: &[u8], full: &'r [u8], closes: bool) -> (&'r [u8], End) {
    let (bytes, stop) = bytes_before_stop(connection);
    assert_eq!(
        bytes,
        text[..text.len().min(INPUT_LIMIT)],
        "a connection whose bytes before its stop are another text's"
    );
    if let Some(cut) = connection.cut.filter(|cut| *cut < full.len()) {
        return (&full[..cut], End::Fault);
    }
    let end = match stop {
        _ if closes => End::Done,
        Stop::End => End::Done,
        Stop::Fault => End::Fault,
        Stop::Pause => End::Idle,
    };
    (full, end)
}
