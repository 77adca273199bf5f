//! `lock THREADS COUNT`: threads that go into std's mutex and out again, so many times each, as a peer to measure a lock by.
use std::env;
use std::sync::Mutex;
use std::thread;

fn main() {
    let words: Vec<u64> = env::args().skip(1).map(|word| word.parse().expect("a number")).collect();
    let (threads, count) = (words[0], words[1]);
    let value = Mutex::new(0u64);
    thread::scope(|scope| {
        for _ in 0..threads {
            scope.spawn(|| {
                for _ in 0..count {
                    let mut value = value.lock().expect("no thread panics");
                    *value = value.wrapping_add(1);
                }
            });
        }
    });
    println!("{threads} threads went in {count} times each");
}
