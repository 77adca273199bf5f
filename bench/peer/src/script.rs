//! `script < FILE`: reads a script in plain Rust, as a peer to measure `parse` by.
use std::io::{self, Read};

enum Item {
    Send(Vec<u8>),
    Fill(u32),
    Pause(u16),
    Fault,
}

#[derive(Default)]
struct Conn {
    step: Option<u32>,
    cut: Option<u64>,
    items: Vec<Item>,
}

/// A number without leading zeros from 1 to the most.
fn number(text: &[u8], most: u64) -> Option<u64> {
    if text.is_empty() || text[0] == b'0' || !text.iter().all(u8::is_ascii_digit) {
        return None;
    }
    let value = std::str::from_utf8(text).ok()?.parse().ok()?;
    (value <= most).then_some(value)
}

fn hex(digit: u8) -> Option<u8> {
    match digit {
        b'0'..=b'9' => Some(digit - b'0'),
        b'a'..=b'f' => Some(digit - b'a' + 10),
        _ => None,
    }
}

/// The bytes that a text stands for.
fn bytes_of(mut text: &[u8]) -> Option<Vec<u8>> {
    let mut bytes = Vec::new();
    loop {
        text = match text {
            [] => return Some(bytes),
            [b'~', rest @ ..] => {
                bytes.extend_from_slice(b"\r\n");
                rest
            }
            [b'\\', b'x', high, low, rest @ ..] => {
                bytes.push(hex(*high)? * 16 + hex(*low)?);
                rest
            }
            [b'\\', sign, rest @ ..] => {
                bytes.push(match sign {
                    b'n' => b'\n',
                    b'r' => b'\r',
                    b't' => b'\t',
                    b'\\' | b'~' => *sign,
                    _ => return None,
                });
                rest
            }
            [byte @ 0x20..=0x7e, rest @ ..] => {
                bytes.push(*byte);
                rest
            }
            _ => return None,
        };
    }
}

/// What the reads of a connection give next, by a line.
fn item(line: &[u8]) -> Option<Item> {
    if let Some(text) = line.strip_prefix(b"send ") {
        let bytes = bytes_of(text)?;
        return (1..=4096).contains(&bytes.len()).then_some(Item::Send(bytes));
    }
    if let Some(text) = line.strip_prefix(b"fill ") {
        return Some(Item::Fill(number(text, 65_536)? as u32));
    }
    if let Some(text) = line.strip_prefix(b"pause ") {
        return Some(Item::Pause(number(text, 1000)? as u16));
    }
    (line == b"fault").then_some(Item::Fault)
}

fn parse(text: &[u8]) -> Option<Vec<Conn>> {
    let text = text.strip_suffix(b"\n").unwrap_or(text);
    let mut lines = text.split(|byte| *byte == b'\n');
    if lines.next()? != b"sws-script 1" {
        return None;
    }
    let mut conns: Vec<Conn> = Vec::new();
    for line in lines {
        if line == b"conn" {
            conns.push(Conn::default());
            continue;
        }
        let conn = conns.last_mut()?;
        if let Some(text) = line.strip_prefix(b"step ") {
            conn.step = Some(number(text, 65_536)? as u32);
        } else if let Some(text) = line.strip_prefix(b"cut ") {
            conn.cut = Some(number(text, 1_000_000_000)?);
        } else {
            conn.items.push(item(line)?);
        }
    }
    (conns.len() <= 1024).then_some(conns)
}

fn main() -> io::Result<()> {
    let mut text = Vec::new();
    io::stdin().read_to_end(&mut text)?;
    let conns = parse(&text).expect("a script");
    let mut items = 0;
    let mut bytes = 0;
    for conn in &conns {
        items += conn.items.len();
        for item in &conn.items {
            bytes += match item {
                Item::Send(bytes) => bytes.len() as u64,
                Item::Fill(count) => *count as u64,
                Item::Pause(count) => *count as u64,
                Item::Fault => 0,
            };
        }
        bytes += conn.step.unwrap_or(0) as u64 + conn.cut.unwrap_or(0);
    }
    std::hint::black_box(bytes);
    println!("{} connections, {items} items", conns.len());
    Ok(())
}
