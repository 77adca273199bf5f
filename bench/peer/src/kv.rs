//! `kv WORKERS MESSAGES ROUNDS HOW [out]`: what `measure kv` does in plain Rust, as a peer to measure it by.
//!
//! HOW is `one`, a std mutex round one `HashMap`, or `sharded`, 64 such maps by the key's remainder. Each of 64 clients has so many
//! messages, every other one a put, and a thread takes a message of each of its clients in turn. The rounds of a message are computed
//! under the lock, as a handler of its colour does, or with `out` beside it.
use std::collections::HashMap;
use std::env;
use std::hint::black_box;
use std::sync::Mutex;
use std::thread;

const CLIENTS: u64 = 64;
const BUCKETS: u64 = 64;

#[derive(Default)]
struct Bucket {
    map: HashMap<u64, u64>,
    received: u64,
    sum: u32,
}

fn drawn_after(mut seed: u32, rounds: u32) -> u32 {
    for _ in 0..rounds + 1 {
        seed = seed.wrapping_mul(1_664_525).wrapping_add(1_013_904_223);
    }
    seed
}

fn main() {
    let words: Vec<String> = env::args().skip(1).collect();
    let workers: u64 = words[0].parse().expect("a number of workers");
    let messages: u64 = words[1].parse().expect("a number of messages");
    let rounds: u32 = words[2].parse().expect("a number of rounds");
    let shards = if words[3] == "sharded" { BUCKETS } else { 1 };
    let beside = words.get(4).is_some_and(|word| word == "out");
    let store: Vec<Mutex<Bucket>> = (0..shards).map(|_| Mutex::default()).collect();
    thread::scope(|scope| {
        for worker in 0..workers {
            let store = &store;
            scope.spawn(move || {
                for left in (1..=messages).rev() {
                    for client in (worker..CLIENTS).step_by(workers as usize) {
                        let key = BUCKETS + client + left;
                        let drawn = if beside { drawn_after(key as u32, rounds) } else { 0 };
                        let mut bucket = store[(key % shards) as usize].lock().expect("no thread panics");
                        if left % 2 == 1 {
                            bucket.map.insert(key, left);
                        } else {
                            black_box(bucket.map.get(&key));
                        }
                        let drawn = if beside { drawn } else { drawn_after(key as u32, rounds) };
                        bucket.sum = bucket.sum.wrapping_add(drawn);
                        bucket.received += 1;
                    }
                }
            });
        }
    });
    let buckets: Vec<Bucket> = store.into_iter().map(|bucket| bucket.into_inner().expect("no thread panics")).collect();
    let received: u64 = buckets.iter().map(|bucket| bucket.received).sum();
    let sum = buckets.iter().fold(0u32, |sum, bucket| sum.wrapping_add(bucket.sum));
    println!("{received} messages received, sum {sum}");
}
