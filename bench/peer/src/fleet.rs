//! `fleet WORKERS SHARDS COLOURS PASSES ROUNDS BATCH`: what `measure fleet` does in plain Rust, as a peer to measure a fleet by.
//!
//! A std mutex stands round each shard, and one round the chain of each core; a colour has a deque of events. Workers take
//! batches, and a worker that finds nothing in its chain steals whole colours that are worth more than a steal costs. It keeps no
//! history and no trail, and no promise is proved of it.
use std::collections::VecDeque;
use std::env;
use std::sync::atomic::{AtomicU64, Ordering::SeqCst};
use std::sync::{Condvar, Mutex};
use std::thread;

/// What a steal costs, and an event weighs.
const COST: u64 = 20;
const WEIGHT: u64 = 10;

/// How many hunts in a row find nothing before a worker waits.
const HUNTS: u32 = 100;

struct Colour {
    queue: VecDeque<u16>,
    owner: usize,
    is_running: bool,
    seed: u32,
}

struct Mark {
    colour: u16,
    worth: u64,
}

struct Fleet {
    shards: Vec<Mutex<Vec<Colour>>>,
    chains: Vec<Mutex<VecDeque<Mark>>>,
    unfinished: AtomicU64,
    sleepers: AtomicU64,
    rings: Mutex<u64>,
    rung: Condvar,
    colours: u16,
    rounds: u32,
    batch: usize,
    stays: bool,
}

fn next(seed: u32) -> u32 {
    seed.wrapping_mul(1_664_525).wrapping_add(1_013_904_223)
}

impl Fleet {
    /// The shard of a colour, and the colour's place in it.
    fn place(&self, colour: u16) -> (usize, usize) {
        let shards = self.shards.len();
        (colour as usize % shards, colour as usize / shards)
    }

    fn post(&self, colour: u16, arg: u16) {
        self.unfinished.fetch_add(1, SeqCst);
        let (shard, place) = self.place(colour);
        let woken = {
            let mut shard = self.shards[shard].lock().expect("no thread panics");
            let found = &mut shard[place];
            found.queue.push_back(arg);
            (!found.is_running && found.queue.len() == 1).then_some(found.owner)
        };
        if let Some(owner) = woken {
            self.push(owner, Mark { colour, worth: WEIGHT });
        }
    }

    fn push(&self, core: usize, mark: Mark) {
        self.chains[core].lock().expect("no thread panics").push_back(mark);
        self.ring();
    }

    fn ring(&self) {
        if self.sleepers.load(SeqCst) > 0 {
            *self.rings.lock().expect("no thread panics") += 1;
            self.rung.notify_all();
        }
    }

    /// Takes a batch of a colour, runs it and finishes.
    fn turn(&self, core: usize, colour: u16, ran: &mut u64) {
        let (shard, place) = self.place(colour);
        let (events, mut seed) = {
            let mut shard = self.shards[shard].lock().expect("no thread panics");
            let found = &mut shard[place];
            if found.owner != core || found.is_running || found.queue.is_empty() {
                return;
            }
            found.is_running = true;
            let count = found.queue.len().min(self.batch);
            (found.queue.drain(..count).collect::<Vec<u16>>(), found.seed)
        };
        let count = events.len() as u64;
        *ran += count;
        for arg in events {
            seed = next(seed);
            for _ in 0..self.rounds {
                seed = next(seed);
            }
            if arg > 0 {
                let to = if self.stays { colour } else { (seed >> 16) as u16 % self.colours };
                self.post(to, arg - 1);
            }
        }
        let left = {
            let mut shard = self.shards[shard].lock().expect("no thread panics");
            let found = &mut shard[place];
            found.is_running = false;
            found.seed = seed;
            found.queue.len() as u64
        };
        if self.unfinished.fetch_sub(count, SeqCst) == count {
            self.ring();
        }
        if left > 0 {
            self.push(core, Mark { colour, worth: WEIGHT * left });
        }
    }

    fn steal(&self, core: usize, colour: u16) {
        let (shard, place) = self.place(colour);
        let worth = {
            let mut shard = self.shards[shard].lock().expect("no thread panics");
            let found = &mut shard[place];
            let worth = WEIGHT * found.queue.len() as u64;
            if found.owner == core || found.is_running || worth <= COST {
                return;
            }
            found.owner = core;
            worth
        };
        self.push(core, Mark { colour, worth });
    }

    /// Looks at the own chain, and then at the others. Whether there was something to do.
    fn hunt(&self, core: usize, ran: &mut u64) -> bool {
        let own = self.chains[core].lock().expect("no thread panics").pop_front();
        if let Some(mark) = own {
            self.turn(core, mark.colour, ran);
            return true;
        }
        for step in 1..self.chains.len() {
            let picked = {
                let mut chain = self.chains[(core + step) % self.chains.len()].lock().expect("no thread panics");
                let place = chain.iter().position(|mark| mark.worth > COST);
                place.and_then(|place| chain.remove(place))
            };
            if let Some(mark) = picked {
                self.steal(core, mark.colour);
                return true;
            }
        }
        false
    }

    /// The work of one core, which answers how many events it ran.
    fn work(&self, core: usize) -> u64 {
        let mut ran = 0;
        let mut missed = 0;
        let mut seen = None;
        loop {
            if self.hunt(core, &mut ran) {
                missed = 0;
                if seen.take().is_some() {
                    self.sleepers.fetch_sub(1, SeqCst);
                }
                continue;
            }
            if self.unfinished.load(SeqCst) == 0 {
                if seen.is_some() {
                    self.sleepers.fetch_sub(1, SeqCst);
                }
                self.ring();
                return ran;
            }
            missed += 1;
            if missed < HUNTS {
                continue;
            }
            match seen.take() {
                None => {
                    self.sleepers.fetch_add(1, SeqCst);
                    seen = Some(*self.rings.lock().expect("no thread panics"));
                }
                Some(before) => {
                    let rings = self.rings.lock().expect("no thread panics");
                    drop(self.rung.wait_while(rings, |rings| *rings == before).expect("no thread panics"));
                    self.sleepers.fetch_sub(1, SeqCst);
                    missed = 0;
                }
            }
        }
    }
}

fn main() {
    let stays = env::args().any(|word| word == "stay");
    let words: Vec<u32> = env::args().skip(1).filter_map(|word| word.parse().ok()).collect();
    let (workers, shards, colours, passes) = (words[0] as usize, words[1] as usize, words[2] as u16, words[3] as u16);
    let mut made: Vec<Vec<Colour>> = (0..shards).map(|_| Vec::new()).collect();
    for colour in 0..colours as usize {
        made[colour % shards].push(Colour {
            queue: VecDeque::new(),
            owner: colour % workers,
            is_running: false,
            seed: colour as u32,
        });
    }
    let fleet = Fleet {
        shards: made.into_iter().map(Mutex::new).collect(),
        chains: (0..workers).map(|_| Mutex::new(VecDeque::new())).collect(),
        unfinished: AtomicU64::new(0),
        sleepers: AtomicU64::new(0),
        rings: Mutex::new(0),
        rung: Condvar::new(),
        colours,
        rounds: words[4],
        batch: words[5] as usize,
        stays,
    };
    for colour in 0..colours {
        fleet.post(colour, passes);
    }
    let fleet = &fleet;
    let ran: u64 = thread::scope(|scope| {
        let crew: Vec<_> = (0..workers).map(|core| scope.spawn(move || fleet.work(core))).collect();
        crew.into_iter().map(|worker| worker.join().expect("no thread panics")).sum()
    });
    println!("{ran} events ran");
}
