//! `shard_history EVENTS BATCH`: the loop of one shard in plain Rust with the records that a shard keeps, as the honest floor.
//!
//! It does what the peer `shard` does, and keeps beside it what `mely_shard` must hand out: a history of entries (registered,
//! taken, finished), the trail of each colour, and the time left of each queue. No promise is proved of it.
use std::collections::VecDeque;
use std::env;

const COLOURS: usize = 1024;

#[derive(Clone, Copy)]
struct Event {
    handler: u8,
    arg: u16,
}

#[derive(Clone, Copy)]
#[allow(dead_code)]
enum Entry {
    Reg { colour: u16, event: Event, by: u16 },
    Take { colour: u16, core: u16, count: u16 },
    Fin { colour: u16, core: u16, count: u16 },
}

#[derive(Default)]
struct Colour {
    queue: VecDeque<(Event, Option<u32>, u32)>,
    time_left: u128,
    started: u64,
    finished: u64,
    trail: Vec<Event>,
}

fn main() {
    let words: Vec<usize> = env::args().skip(1).map(|word| word.parse().expect("a number")).collect();
    let (events, batch) = (words[0], words[1]);
    let mut colours: Vec<Colour> = (0..COLOURS).map(|_| Colour::default()).collect();
    let mut history: Vec<Entry> = Vec::new();
    let mut ready: VecDeque<u16> = VecDeque::new();
    for number in 0..events {
        let place = (number % COLOURS) as u16;
        let event = Event { handler: 0, arg: 0 };
        let colour = &mut colours[place as usize];
        if colour.queue.is_empty() {
            ready.push_back(place);
        }
        colour.queue.push_back((event, None, 1));
        colour.time_left += 1;
        history.push(Entry::Reg { colour: place, event, by: 0 });
    }
    while let Some(place) = ready.pop_front() {
        let colour = &mut colours[place as usize];
        let count = batch.min(colour.queue.len());
        colour.trail.reserve(count);
        let turn: Vec<(Event, Option<u32>, u32)> = colour.queue.drain(..count).collect();
        colour.time_left -= turn.iter().map(|&(_, _, weight)| u128::from(weight)).sum::<u128>();
        colour.started += count as u64;
        history.push(Entry::Take { colour: place, core: 0, count: count as u16 });
        for (event, _load, _weight) in turn {
            colour.trail.push(event);
        }
        colour.finished += count as u64;
        history.push(Entry::Fin { colour: place, core: 0, count: count as u16 });
        if !colour.queue.is_empty() {
            ready.push_back(place);
        }
    }
    let ran: usize = colours.iter().map(|colour| colour.trail.len()).sum();
    let args: u64 = colours.iter().flat_map(|colour| &colour.trail).map(|event| u64::from(event.handler) + u64::from(event.arg)).sum();
    let done: u64 = colours.iter().map(|colour| colour.started + colour.finished + colour.time_left as u64).sum();
    println!("{ran} {args} {done} {}", history.len());
}
