//! The loop of the pool in plain Rust, with the same words as `bench_pool`: two atomic words, a vector of misses
//! for each worker, and the misses put in the order of their indices.
use std::sync::atomic::{AtomicU64, Ordering::SeqCst};

const MOST: u64 = 65535;

fn spun(seed: u64, turns: u64) -> u64 {
    let mut value = seed;
    for _ in 0..turns {
        value = value
            .wrapping_mul(value.wrapping_mul(2).wrapping_add(1))
            .wrapping_add(1442695040888963407);
    }
    value
}

struct Words {
    next: AtomicU64,
    least: AtomicU64,
}

fn work(words: &Words, count: u64, turns: u64, hit_at: u64) -> Vec<(u64, u64)> {
    let mut misses = Vec::new();
    loop {
        let index = words.next.fetch_add(1, SeqCst);
        if index >= count || words.least.load(SeqCst) < index {
            return misses;
        }
        let found = spun(index, turns);
        if index == hit_at {
            words.least.fetch_min(index, SeqCst);
            return misses;
        }
        misses.push((index, found));
    }
}

/// The sum of the misses, in order, where no index hits.
fn decided(count: u64, workers: u64, turns: u64) -> (usize, u64) {
    let count = count.min(MOST);
    let words = Words {
        next: AtomicU64::new(0),
        least: AtomicU64::new(u64::MAX),
    };
    let founds: Vec<Vec<(u64, u64)>> = std::thread::scope(|scope| {
        let handles: Vec<_> = (0..workers.clamp(1, 16))
            .map(|_| scope.spawn(|| work(&words, count, turns, MOST)))
            .collect();
        handles.into_iter().map(|h| h.join().unwrap()).collect()
    });
    let mut slots: Vec<Option<u64>> = vec![None; count as usize];
    for misses in founds {
        for (index, found) in misses {
            slots[index as usize] = Some(found);
        }
    }
    let misses: Vec<u64> = slots.into_iter().map(|slot| slot.unwrap()).collect();
    (misses.len(), misses.iter().fold(0u64, |sum, x| sum.wrapping_add(*x)))
}

fn main() {
    let words: Vec<String> = std::env::args().skip(1).collect();
    let number = |place: usize| words.get(place).and_then(|w| w.parse::<u64>().ok()).unwrap_or(0);
    match words.first().map(String::as_str) {
        Some("jobs") => {
            let (misses, sum) = decided(number(1), number(2), number(3));
            println!("{misses} misses, sum {sum}");
        }
        Some("claims") => {
            let rounds = number(1);
            let mut sum = 0u64;
            for _ in 0..rounds {
                sum = sum.wrapping_add(decided(MOST, 1, 0).1);
            }
            println!("{rounds} rounds, sum {sum}");
        }
        _ => println!("usage: pool_yardstick [jobs COUNT WORKERS TURNS | claims ROUNDS]"),
    }
}
