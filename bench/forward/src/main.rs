//! The plain Rust twin of `works forward-N SIZE`: so many threads claim the words of all
//! objects by a compare-exchange from 0, and each keeps what it has won.

use std::sync::atomic::{AtomicU64, Ordering::SeqCst};
use std::thread;

fn claim_all(words: &[AtomicU64], copiers: u64, copier: u64) -> Vec<(usize, u64)> {
    let mut won = Vec::with_capacity(words.len());
    for (index, word) in words.iter().enumerate() {
        let place = (index as u64 + 1) * copiers + copier;
        if word.compare_exchange(0, place, SeqCst, SeqCst).is_ok() {
            won.push((index, place));
        }
    }
    won
}

fn main() {
    let words: Vec<String> = std::env::args().collect();
    let objects: usize = words[1].parse().expect("the size is a number");
    let copiers: u64 = words[2].parse().expect("so many threads");
    let words: Vec<AtomicU64> = (0..objects).map(|_| AtomicU64::new(0)).collect();
    let count: usize = thread::scope(|scope| {
        let threads: Vec<_> = (0..copiers)
            .map(|copier| {
                let words = &words;
                scope.spawn(move || claim_all(words, copiers, copier).len())
            })
            .collect();
        threads.into_iter().map(|thread| thread.join().expect("no panic")).sum()
    });
    println!("forward-{copiers} {objects} wins {count}");
}
