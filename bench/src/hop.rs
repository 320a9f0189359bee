//! What it takes to move a cache line from one processor to another.

use std::hint;
use std::sync::atomic::{AtomicU64, Ordering::SeqCst};
use std::thread;
use std::time::Instant;

/// After this many looks in vain a thread yields, in case both have one processor.
const LOOKS: u32 = 10_000;

/// A word that has a cache line for itself, and its neighbor, too.
#[repr(align(128))]
struct Word(AtomicU64);

/// Waits until the word has this value, and writes the next one.
fn pass(word: &Word, value: u64) {
    let mut looks = 0;
    while word.0.load(SeqCst) != value {
        hint::spin_loop();
        looks += 1;
        if looks % LOOKS == 0 {
            thread::yield_now();
        }
    }
    word.0.store(value + 1, SeqCst);
}

/// Two threads pass a word to and fro, this many times each. The answer is how many nanoseconds a hop takes.
pub fn nanoseconds(times: u64) -> f64 {
    let word = Word(AtomicU64::new(0));
    let start = Instant::now();
    thread::scope(|scope| {
        for first in [0, 1] {
            let word = &word;
            scope.spawn(move || (0..times).for_each(|it| pass(word, 2 * it + first)));
        }
    });
    start.elapsed().as_nanos() as f64 / (2 * times) as f64
}
