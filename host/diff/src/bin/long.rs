//! Differential runs of any length, on all processors: cargo run --offline --release --bin long [steps] [first seed].
//! Every thread takes the next seed, runs its share of each subject and says what it did; the first difference panics.
use diff::{bench, destination::CHOICES, frames, ids, receive};
use std::sync::atomic::{AtomicU64, Ordering};
use std::time::Instant;

/// Steps of one seed.
const SHARE: u64 = 1_000_000;

fn main() {
    let number = |k: usize, other: u64| std::env::args().nth(k).and_then(|x| x.parse().ok()).unwrap_or(other);
    let (wanted, first) = (number(1, 100_000_000), number(2, 1000));
    let (seed, done) = (AtomicU64::new(first), AtomicU64::new(0));
    let from = Instant::now();
    std::thread::scope(|s| {
        let threads: Vec<_> = (0..std::thread::available_parallelism().map_or(1, usize::from))
            .map(|_| {
                s.spawn(|| {
                    while done.load(Ordering::SeqCst) < wanted {
                        let k = seed.fetch_add(1, Ordering::SeqCst);
                        let mut steps = 0;
                        for chosen in CHOICES {
                            steps += receive::traffic(chosen, k, SHARE / 10);
                            steps += receive::any_pool(chosen, k, SHARE / 20);
                            if !chosen.addressed {
                                steps += receive::batches(chosen, k, SHARE / 10);
                            }
                            steps += receive::slots_chosen(chosen, k, SHARE / 80);
                            steps += receive::impossible_pools(chosen, k, SHARE / 80);
                        }
                        steps += frames::random(k, SHARE / 20);
                        steps += ids::random(k, SHARE / 20);
                        steps += bench::random(k, SHARE / 20);
                        done.fetch_add(steps, Ordering::SeqCst);
                    }
                })
            })
            .collect();
        for t in threads {
            if t.join().is_err() {
                std::process::exit(1);
            }
        }
    });
    println!("long run, seeds {first} to {}: {} steps alike, {} s", seed.load(Ordering::SeqCst) - 1, done.load(Ordering::SeqCst), from.elapsed().as_secs());
}
