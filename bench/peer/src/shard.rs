//! `shard EVENTS BATCH`: the loop of one shard in plain Rust, as a peer to measure it by.
//!
//! It registers the events on 1,024 colours in turn, and then takes each colour that is ready in batches, runs an empty
//! handler on each event, and goes on until nothing is queued. It keeps no history, and no promise is proved of it.
use std::collections::VecDeque;
use std::env;

const COLOURS: usize = 1024;

#[derive(Clone, Copy)]
struct Event {
    handler: u8,
    arg: u16,
}

#[derive(Default)]
struct Colour {
    queue: VecDeque<Event>,
    ran: u64,
}

fn run(state: &mut u64, event: Event) {
    *state = state.wrapping_add(u64::from(event.handler) + u64::from(event.arg));
}

fn main() {
    let words: Vec<usize> = env::args().skip(1).map(|word| word.parse().expect("a number")).collect();
    let (events, batch) = (words[0], words[1]);
    let mut colours: Vec<Colour> = (0..COLOURS).map(|_| Colour::default()).collect();
    let mut ready: VecDeque<usize> = VecDeque::new();
    let mut state = 0;
    for number in 0..events {
        let colour = &mut colours[number % COLOURS];
        if colour.queue.is_empty() {
            ready.push_back(number % COLOURS);
        }
        colour.queue.push_back(Event { handler: 0, arg: (number % 65_536) as u16 });
    }
    while let Some(number) = ready.pop_front() {
        let colour = &mut colours[number];
        let count = batch.min(colour.queue.len());
        let turn: Vec<Event> = colour.queue.drain(..count).collect();
        for event in turn {
            run(&mut state, event);
            colour.ran += 1;
        }
        if !colour.queue.is_empty() {
            ready.push_back(number);
        }
    }
    let ran: u64 = colours.iter().map(|colour| colour.ran).sum();
    println!("{ran} {state}");
}
