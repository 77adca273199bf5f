//! Scripted connections: what they are, how a script spells them, and how a transcript shows what each was sent.
use super::draw::Draw;
use std::fmt::{self, Write};

pub enum Item {
    Send(Vec<u8>),
    Fill(usize),
    Pause(usize),
    Fault,
}

#[derive(Default)]
pub struct Connection {
    pub step: Option<usize>,
    pub cut: Option<usize>,
    pub items: Vec<Item>,
    /// Which of the texts of its script its bytes before the first stop are.
    pub text: usize,
}

pub enum End {
    Done,
    Idle,
    Fault,
}

impl fmt::Display for End {
    fn fmt(&self, to: &mut fmt::Formatter<'_>) -> fmt::Result {
        to.write_str(match self {
            End::Done => "done",
            End::Idle => "idle",
            End::Fault => "fault",
        })
    }
}

/// How many bytes the text begins with that are spelled together: CR LF is, else one.
fn spelled_together(bytes: &[u8]) -> usize {
    if bytes.starts_with(b"\r\n") {
        2
    } else {
        1
    }
}

/// The spelling of one byte, or of CR LF.
fn spell(to: &mut String, bytes: &[u8]) {
    match bytes {
        b"\r\n" => to.push('~'),
        b"\n" => to.push_str("\\n"),
        b"\r" => to.push_str("\\r"),
        b"\t" => to.push_str("\\t"),
        b"\\" => to.push_str("\\\\"),
        b"~" => to.push_str("\\~"),
        [byte @ 0x20..=0x7E] => to.push(char::from(*byte)),
        bytes => spell_by_number(to, bytes),
    }
}

fn spell_by_number(to: &mut String, bytes: &[u8]) {
    for byte in bytes {
        write!(to, "\\x{byte:02x}").expect("a string takes what is written");
    }
}

/// Writes a piece as a script may spell it: mostly as a transcript would, and now and then by the number of a byte.
fn write_piece(to: &mut String, piece: &[u8], draw: &mut Draw) {
    let by_number = *draw.of(&[0, 0, 0, 2, 100]);
    let mut rest = piece;
    while !rest.is_empty() {
        let (now, later) = rest.split_at(spelled_together(rest));
        if by_number > 0 && draw.in_hundred(by_number) {
            spell_by_number(to, now);
        } else {
            spell(to, now);
        }
        rest = later;
    }
}

/// Writes the lines of a connection.
pub fn write_connection(to: &mut String, connection: &Connection, draw: &mut Draw) {
    let mut line = |words: fmt::Arguments<'_>| writeln!(to, "{words}").expect("a string takes what is written");
    line(format_args!("conn"));
    if let Some(step) = connection.step {
        line(format_args!("step {step}"));
    }
    if let Some(cut) = connection.cut {
        line(format_args!("cut {cut}"));
    }
    for item in &connection.items {
        match item {
            Item::Send(piece) => {
                let mut text = String::new();
                write_piece(&mut text, piece, draw);
                line(format_args!("send {text}"));
            }
            Item::Fill(count) => line(format_args!("fill {count}")),
            Item::Pause(count) => line(format_args!("pause {count}")),
            Item::Fault => line(format_args!("fault")),
        }
    }
}

/// Writes the lines of a transcript that show what a connection was sent.
pub fn write_sent(to: &mut String, number: usize, end: &End, sent: &[u8]) {
    writeln!(to, "conn {number} {end} {}", sent.len()).expect("a string takes what is written");
    for line in sent.split_inclusive(|byte| *byte == b'\n') {
        to.push_str("| ");
        write_text(to, line);
        to.push('\n');
    }
}

/// Writes bytes as a transcript and a log show them.
pub fn write_text(to: &mut String, bytes: &[u8]) {
    let mut rest = bytes;
    while !rest.is_empty() {
        let (now, later) = rest.split_at(spelled_together(rest));
        spell(to, now);
        rest = later;
    }
}
