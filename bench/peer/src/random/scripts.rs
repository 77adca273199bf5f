//! Random scripts: the options that a script is run by, its texts, and its connections over them.
use super::draw::Draw;
use super::model::{self, Responses, Site, INPUT_LIMIT};
use super::script::{self, Connection, Item};
use super::texts;

pub const MAX_CONNECTIONS: usize = 1_024;
const MAX_BYTES: usize = 16_777_216;
const PIECE: usize = 4_096;
/// Sun, 06 Nov 1994 08:49:37 GMT.
const DATE: u64 = 784_111_777;

pub struct Shape {
    pub workers: usize,
    pub shards: usize,
    pub batch: usize,
    pub cost: usize,
    pub group: usize,
}

#[derive(PartialEq)]
pub enum Kind {
    Plain,
    Journal,
    Schedule,
}

pub struct Script {
    pub shape: Shape,
    pub kind: Kind,
    pub log: bool,
    pub date: Option<u64>,
    /// What the connections have as their bytes before their stops, and the responses by the definition.
    pub texts: Vec<(Vec<u8>, Responses)>,
    pub connections: Vec<Connection>,
    pub source: String,
}

impl Script {
    /// The words behind `replay FOLDER`.
    pub fn words(&self) -> Vec<String> {
        let mut words = self.date_words();
        let Shape { workers, shards, batch, cost, group } = &self.shape;
        for (name, value) in
            [("workers", workers), ("shards", shards), ("batch", batch), ("cost", cost), ("group", group)]
        {
            words.push(format!("--{name}={value}"));
        }
        match self.kind {
            Kind::Plain => {}
            Kind::Journal => words.push("--journal".to_string()),
            Kind::Schedule => words.push("--schedule".to_string()),
        }
        words.extend(self.log.then(|| "--log".to_string()));
        words
    }

    pub fn date_words(&self) -> Vec<String> {
        self.date.iter().map(|date| format!("--date={date}")).collect()
    }
}

fn draw_shape(draw: &mut Draw) -> Shape {
    let some = draw.between(1, 64);
    Shape {
        workers: *draw.of(&[1, 1, 2, 2, 3, 4, 4, 8, 16, 64, some]),
        shards: *draw.of(&[1, 1, 2, 4, 8, 64, some]),
        batch: *draw.of(&[1, 2, 10, 10, 1_000, some]),
        cost: *draw.of(&[0, 1, 20, 20, 100, 1_000_000, some]),
        group: *draw.of(&[1, 2, 4, 4, 64, some]),
    }
}

/// How many connections the script of this number has.
pub fn count_of(seed: u64, number: u64) -> usize {
    let mut draw = Draw::of_part(seed, number);
    if draw.in_hundred(80) {
        MAX_CONNECTIONS
    } else {
        draw.between(1, MAX_CONNECTIONS)
    }
}

/// The script of this number; each of its texts is that of so many connections.
pub fn draw_script(seed: u64, number: u64, uses: usize, site: &mut Site) -> Script {
    let count = count_of(seed, number);
    let mut draw = Draw::of_part(!seed, number);
    let mut shape = draw_shape(&mut draw);
    let kind = match draw.below(10) {
        0..=7 => Kind::Plain,
        8 => Kind::Journal,
        _ => Kind::Schedule,
    };
    if kind == Kind::Schedule {
        shape.workers = shape.workers.min(2);
    }
    site.date = draw.in_hundred(40).then_some(DATE);
    let texts: Vec<_> = (0..count.div_ceil(uses))
        .map(|_| {
            let text = texts::text(&mut draw);
            let full = model::responses(site, &text);
            (text, full)
        })
        .collect();
    let mut source = String::new();
    if kind == Kind::Schedule {
        push_schedule(&mut source, shape.workers, &mut draw);
    }
    source.push_str("sws-script 1\n");
    let mut connections = Vec::new();
    for at in 0..count {
        let text = at % texts.len();
        let connection = draw_connection(text, &texts[text], &mut draw);
        script::write_connection(&mut source, &connection, &mut draw);
        connections.push(connection);
    }
    assert!(source.len() <= MAX_BYTES, "a script of {} bytes", source.len());
    let log = draw.in_hundred(50);
    Script { shape, kind, log, date: site.date, texts, connections, source }
}

fn push_schedule(source: &mut String, workers: usize, draw: &mut Draw) {
    source.push_str("sws-schedule 1\n");
    for _ in 0..draw.below(40) {
        source.push_str(&format!("step {} {}\n", draw.below(workers), draw.between(1, 200)));
    }
    source.push_str("end\n");
}

/// A connection whose bytes before its first stop are the text, as far as they count.
fn draw_connection(number: usize, (text, full): &(Vec<u8>, Responses), draw: &mut Draw) -> Connection {
    let length = full.bytes.len();
    let some = draw.between(1, INPUT_LIMIT);
    let step = draw.in_hundred(25).then(|| *draw.of(&[1, 2, 7, 64, 1_000, INPUT_LIMIT, some]));
    let within = draw.below(length + 1);
    let cut = draw
        .in_hundred(20)
        .then(|| *draw.of(&[0, 1, length.saturating_sub(1), length, length + 1, within, within, 1_000_000_000]));
    let mut connection = Connection { step, cut, items: Vec::new(), text: number };
    push_pieces(&mut connection.items, text, draw);
    push_stop(&mut connection.items, draw);
    connection
}

/// How a text is cut into pieces.
enum Cutting {
    UpTo(usize),
    Lines,
}

fn push_pieces(items: &mut Vec<Item>, text: &[u8], draw: &mut Draw) {
    let least = if text.len() > 1_000 { 64 } else { 1 };
    let cutting = match draw.below(6) {
        0 => Cutting::Lines,
        1 => Cutting::UpTo(least),
        _ => Cutting::UpTo((*draw.of(&[2, 7, 64, 500, PIECE])).max(least)),
    };
    let pausing = *draw.of(&[0, 0, 0, 2, 30]);
    let longest_pause = *draw.of(&[1, 2, 29]);
    let filling = *draw.of(&[0, 20, 100]);
    let mut rest = text;
    while !rest.is_empty() {
        if pausing > 0 && draw.in_hundred(pausing) {
            items.push(Item::Pause(draw.between(1, longest_pause)));
        }
        let run = rest.iter().take_while(|byte| **byte == b'a').count();
        let length = if run > 0 && draw.in_hundred(filling) {
            let count = draw.between(1, run);
            items.push(Item::Fill(count));
            count
        } else {
            let count = piece_length(rest, &cutting, draw);
            items.push(Item::Send(rest[..count].to_vec()));
            count
        };
        rest = &rest[length..];
    }
}

fn piece_length(rest: &[u8], cutting: &Cutting, draw: &mut Draw) -> usize {
    match cutting {
        Cutting::Lines => rest.iter().position(|byte| *byte == b'\n').map_or(rest.len(), |end| end + 1).min(PIECE),
        Cutting::UpTo(1) => 1,
        Cutting::UpTo(most) => draw.between(1.max(most / 4), *most).min(rest.len()),
    }
}

/// Ends the connection, or stops it before its last lines.
fn push_stop(items: &mut Vec<Item>, draw: &mut Draw) {
    match draw.below(20) {
        0..=11 => {}
        12..=14 => items.push(Item::Fault),
        _ => {
            if let Some(Item::Pause(_)) = items.last() {
                items.pop();
            }
            items.push(Item::Pause(*draw.of(&[30, 31, 100, 1_000])));
            for _ in 0..draw.below(3) {
                items.push(Item::Send(b"GET / HTTP/1.1\r\nHost: x\r\n\r\n".to_vec()));
            }
            if draw.in_hundred(20) {
                items.push(Item::Fault);
            }
        }
    }
}
