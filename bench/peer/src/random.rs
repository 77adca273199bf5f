//! `random PROGRAM [--connections N] [--jobs N] [--seed N] [--uses N] [--only N] [--seconds N]`: random connections by
//! `sws replay` against `sws answer` of the same bytes.
//!
//! It draws scripts of up to 1,024 connections, with heads good and bad and bytes that are no heads, in pieces, with pauses,
//! faults, cuts and steps, and runs each with its own number of workers and shards, batch, cost and group. What `replay`
//! prints must be, byte by byte, what `answer` writes for the bytes of each connection, up to where its link fails, with the
//! end that follows from its lines; and what `answer` writes must be what the definition in `random/model.rs` says. With the log
//! the lines of each connection must be those that the definition gives, in order. A journal
//! must be one of legal and drained histories. Each run must end with status 0 and print nothing on standard error.
//!
//! A script follows from the seed and its number, so `--only` makes one again. What went wrong is kept in a folder that is named at
//! the end; the status is 1 then. It ends by itself: a run of the program that doesn't end within `--seconds` is ended and
//! told as wrong.
mod media_types;

#[path = "random/draw.rs"]
mod draw;
#[path = "random/head.rs"]
mod head;
#[path = "random/journal.rs"]
mod journal;
#[path = "random/model.rs"]
mod model;
#[path = "random/script.rs"]
mod script;
#[path = "random/scripts.rs"]
mod scripts;
#[path = "random/texts.rs"]
mod texts;

use model::Site;
use scripts::{Kind, Script};
use std::collections::BTreeMap;
use std::fs::{self, File};
use std::io::{self, Read};
use std::path::{Path, PathBuf};
use std::process::{exit, Child, Command, Stdio};
use std::sync::{Arc, Mutex};
use std::time::{Duration, Instant};
use std::{env, process, thread};

struct Order {
    program: PathBuf,
    connections: usize,
    jobs: usize,
    seed: u64,
    uses: usize,
    only: Option<u64>,
    seconds: u64,
}

fn read_order() -> Option<Order> {
    let mut words = env::args().skip(1);
    let program = PathBuf::from(words.next()?);
    let mut order = Order { program, connections: 20_000, jobs: 2, seed: 1, uses: 8, only: None, seconds: 120 };
    while let Some(name) = words.next() {
        let value: u64 = words.next()?.parse().ok()?;
        match name.as_str() {
            "--connections" => order.connections = value as usize,
            "--jobs" => order.jobs = (value as usize).max(1),
            "--seed" => order.seed = value,
            "--uses" => order.uses = (value as usize).max(1),
            "--only" => order.only = Some(value),
            "--seconds" => order.seconds = value,
            _ => return None,
        }
    }
    Some(order)
}

/// Ends the programs that run for too long.
#[derive(Default)]
struct Watch {
    running: Mutex<Vec<(Instant, Arc<Mutex<Child>>)>>,
}

impl Watch {
    fn add(&self, until: Instant, child: &Arc<Mutex<Child>>) {
        self.running.lock().unwrap().push((until, Arc::clone(child)));
    }

    fn look(&self) {
        self.running.lock().unwrap().retain(|(until, child)| {
            if *until < Instant::now() {
                let _ = child.lock().unwrap().kill();
            }
            Arc::strong_count(child) > 1
        });
    }
}

#[derive(Default)]
struct Counts {
    scripts: usize,
    connections: usize,
    answers: usize,
    ends: BTreeMap<String, usize>,
    codes: BTreeMap<u16, usize>,
    wrong: Vec<String>,
}

/// What all jobs share.
struct All {
    order: Order,
    folder: PathBuf,
    site: Site,
    watch: Watch,
    /// The number of the next script, and how many connections were given out.
    next: Mutex<(u64, usize)>,
    counts: Mutex<Counts>,
}

/// Runs the program on an input: what it wrote, or what was wrong.
fn run(all: &All, input: &Path, words: &[String]) -> Result<Vec<u8>, String> {
    let told = |error: io::Error| format!("{error}");
    let (given, site) = (File::open(input).map_err(told)?, all.folder.join("site"));
    let (command, options) = words.split_first().expect("a command");
    let mut child = Command::new(&all.order.program)
        .arg(command)
        .arg(site)
        .args(options)
        .stdin(given)
        .stdout(Stdio::piped())
        .stderr(Stdio::piped())
        .spawn()
        .map_err(told)?;
    let (mut written, mut complaint) = (Vec::new(), Vec::new());
    let (out, err) = (child.stdout.take(), child.stderr.take());
    let child = Arc::new(Mutex::new(child));
    all.watch.add(Instant::now() + Duration::from_secs(all.order.seconds), &child);
    out.expect("a pipe").read_to_end(&mut written).map_err(told)?;
    err.expect("a pipe").read_to_end(&mut complaint).map_err(told)?;
    let status = child.lock().unwrap().wait().map_err(told)?;
    if status.code() != Some(0) || !complaint.is_empty() {
        return Err(format!("{command} ended with {status} and said `{}`", String::from_utf8_lossy(&complaint)));
    }
    Ok(written)
}

/// Asks `answer` for each text: what it wrote, each compared with the definition.
fn answers(all: &All, script: &Script, input: &Path) -> Result<Vec<Vec<u8>>, String> {
    let mut words = vec!["answer".to_string()];
    words.extend(script.date_words());
    let mut written = Vec::new();
    for (number, (text, full)) in script.texts.iter().enumerate() {
        fs::write(input, text).map_err(|error| format!("{error}"))?;
        let sent = run(all, input, &words).map_err(|wrong| format!("text {number}: {wrong}"))?;
        if sent != full.bytes {
            let shown =
                (String::from_utf8_lossy(text), String::from_utf8_lossy(&full.bytes), String::from_utf8_lossy(&sent));
            return Err(format!(
                "text {number} is answered otherwise than defined: {:?}, defined {:?}, answered {:?}",
                shown.0, shown.1, shown.2
            ));
        }
        written.push(sent);
    }
    Ok(written)
}

/// What a run owes: the transcript, how often each end comes in it, and the lines of the log of each connection.
struct Owed {
    transcript: String,
    ends: BTreeMap<String, usize>,
    logs: Vec<Vec<String>>,
}

/// What the run of a script owes.
fn owed_of(script: &Script, answers: &[Vec<u8>]) -> Owed {
    let (mut owed, mut ends, mut logs) = (String::new(), BTreeMap::new(), Vec::new());
    for (number, connection) in script.connections.iter().enumerate() {
        let (text, full) = &script.texts[connection.text];
        let (sent, end) = model::outcome(connection, text, &answers[connection.text], full.closes);
        script::write_sent(&mut owed, number, &end, sent);
        *ends.entry(end.to_string()).or_insert(0) += 1;
        logs.push(if script.log { model::log(number, full, sent.len()) } else { Vec::new() });
    }
    Owed { transcript: owed, ends, logs }
}

/// Takes the lines of a log off the front of a text: the connections that they are of, in order, and the rest; or what is
/// wrong with them.
fn take_log<'t>(owed: &Owed, text: &'t str) -> Result<(Vec<usize>, &'t str), String> {
    let mut rest = text;
    let mut shown = vec![Vec::new(); owed.logs.len()];
    let mut order = Vec::new();
    while let Some((line, later)) = rest.split_once('\n').filter(|(line, _)| line.starts_with("log ")) {
        let number = line.split(' ').nth(1).and_then(|number| number.parse::<usize>().ok());
        let Some(lines) = number.and_then(|number| shown.get_mut(number)) else {
            return Err(format!("`{line}` in the log"));
        };
        lines.push(line.to_string());
        order.extend(number);
        rest = later;
    }
    match owed.logs.iter().zip(&shown).position(|(owed, shown)| owed != shown) {
        Some(number) => {
            Err(format!("the log of connection {number} is {:?}, owed is {:?}", shown[number], owed.logs[number]))
        }
        None => Ok((order, rest)),
    }
}

/// What is wrong with the text of a replay, if anything is.
fn fault_of(script: &Script, all_owed: &Owed, written: &[u8]) -> Option<String> {
    let owed = all_owed.transcript.as_str();
    let Ok(written) = std::str::from_utf8(written) else {
        return Some("a byte over 0x7E is printed".to_string());
    };
    let Some(rest) = written.strip_prefix(owed) else {
        let same = owed.lines().zip(written.lines()).take_while(|(owed, written)| owed == written).count();
        return Some(format!(
            "line {} is {:?}, owed is {:?}",
            same + 1,
            written.lines().nth(same),
            owed.lines().nth(same)
        ));
    };
    let (logged, rest) = match take_log(all_owed, rest) {
        Ok(log) => log,
        Err(wrong) => return Some(wrong),
    };
    match script.kind {
        Kind::Plain => (!rest.is_empty()).then(|| "more than the transcript and the log is printed".to_string()),
        Kind::Journal | Kind::Schedule => {
            let logged = script.log.then_some(logged.as_slice());
            journal::fault_of(rest, &script.shape, script.connections.len(), logged)
        }
    }
}

/// Draws a script, runs it and compares: how often each end came, or what was wrong.
fn try_script(all: &All, number: u64, input: &Path) -> Result<(Script, BTreeMap<String, usize>), String> {
    let script = scripts::draw_script(all.order.seed, number, all.order.uses, &mut all.site.clone());
    let answers = answers(all, &script, input)?;
    let owed = owed_of(&script, &answers);
    fs::write(input, &script.source).map_err(|error| format!("{error}"))?;
    let mut words = vec!["replay".to_string()];
    words.extend(script.words());
    let written = run(all, input, &words);
    let wrong = match &written {
        Ok(written) => fault_of(&script, &owed, written),
        Err(wrong) => Some(wrong.clone()),
    };
    let Some(wrong) = wrong else {
        return Ok((script, owed.ends));
    };
    let kept = |what: &str, bytes: &[u8]| fs::write(all.folder.join(format!("{number}.{what}")), bytes);
    let _ = kept("script", script.source.as_bytes())
        .and(kept("owed", owed.transcript.as_bytes()))
        .and(kept("written", &written.unwrap_or_default()));
    Err(format!("{}: {wrong}", words.join(" ")))
}

/// The number of the next script, while fewer connections were given out than are wanted.
fn next_script(all: &All) -> Option<u64> {
    let mut next = all.next.lock().unwrap();
    let number = next.0;
    if next.1 >= all.order.connections || all.order.only.is_some() && number > 0 {
        return None;
    }
    *next = (number + 1, next.1 + scripts::count_of(all.order.seed, number));
    Some(all.order.only.unwrap_or(number))
}

fn work(all: &All, job: usize) {
    let input = all.folder.join(format!("input-{job}"));
    while let Some(number) = next_script(all) {
        let done = try_script(all, number, &input);
        let mut counts = all.counts.lock().unwrap();
        counts.scripts += 1;
        match done {
            Ok((script, ends)) => {
                counts.connections += script.connections.len();
                counts.answers += script.texts.len();
                ends.into_iter().for_each(|(end, many)| *counts.ends.entry(end).or_insert(0) += many);
                for connection in &script.connections {
                    for code in &script.texts[connection.text].1.codes {
                        *counts.codes.entry(*code).or_insert(0) += 1;
                    }
                }
            }
            Err(wrong) => {
                println!("wrong: seed {} script {number}: {wrong}", all.order.seed);
                counts.wrong.push(wrong);
            }
        }
        if counts.scripts % 50 == 0 {
            println!("{} scripts, {} connections, {} wrong", counts.scripts, counts.connections, counts.wrong.len());
        }
    }
}

fn write_site(folder: &Path) -> io::Result<Site> {
    let mut site = Site { files: Default::default(), date: None };
    for (name, body) in texts::site_files() {
        let path = folder.join("site").join(name);
        fs::create_dir_all(path.parent().expect("a folder"))?;
        fs::write(path, &body)?;
        site.files.insert(name.as_bytes().to_vec(), body);
    }
    Ok(site)
}

fn main() -> io::Result<()> {
    let Some(order) = read_order() else {
        eprintln!("usage: random PROGRAM [--connections N] [--jobs N] [--seed N] [--uses N] [--only N] [--seconds N]");
        exit(2);
    };
    let folder = env::temp_dir().join(format!("sws-random-{}", process::id()));
    let site = write_site(&folder)?;
    println!("seed {}, {} connections, {} jobs", order.seed, order.connections, order.jobs);
    let all = All { order, folder, site, watch: Watch::default(), next: Mutex::default(), counts: Mutex::default() };
    let began = Instant::now();
    thread::scope(|scope| {
        let jobs: Vec<_> = (0..all.order.jobs)
            .map(|job| {
                scope.spawn({
                    let all = &all;
                    move || work(all, job)
                })
            })
            .collect();
        while !jobs.iter().all(|job| job.is_finished()) {
            all.watch.look();
            thread::sleep(Duration::from_millis(100));
        }
    });
    let counts = all.counts.lock().unwrap();
    println!(
        "{} scripts, {} connections, {} texts answered, {} seconds",
        counts.scripts,
        counts.connections,
        counts.answers,
        began.elapsed().as_secs()
    );
    println!("ends {:?}, responses {:?}", counts.ends, counts.codes);
    if counts.wrong.is_empty() {
        println!("nothing was wrong");
        return fs::remove_dir_all(&all.folder);
    }
    println!(
        "{} scripts went wrong; what was given, owed and written is in {}",
        counts.wrong.len(),
        all.folder.display()
    );
    exit(1);
}
