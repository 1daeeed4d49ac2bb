//! The peer: a load, a compare-exchange and a fetch-sub on a plain atomic behind an `Arc`, as leases.rt.txt makes them
//! through purses and leases. It prints the same lines.
use std::sync::Arc;
use std::sync::atomic::{AtomicU64, Ordering::SeqCst};
use std::time::Instant;

const TIMES: u64 = 10_000_000;

#[inline(never)]
fn lease_often(word: &Arc<AtomicU64>, capacity: u64, times: u64) -> u64 {
    let mut leases = 0;
    for _ in 0..times {
        let used = word.load(SeqCst);
        if 64 > capacity - used {
            continue;
        }
        if word.compare_exchange(used, used + 64, SeqCst, SeqCst).is_ok() {
            leases += 1;
            word.fetch_sub(64, SeqCst);
        }
    }
    leases
}

fn main() {
    let word = Arc::new(AtomicU64::new(0));
    let start = Instant::now();
    let leases = lease_often(&word, 128, TIMES);
    println!("1 {TIMES} {leases} {}", start.elapsed().as_nanos());

    let start = Instant::now();
    let others: Vec<_> = (0..3)
        .map(|_| {
            let word = word.clone();
            std::thread::spawn(move || lease_often(&word, 128, TIMES))
        })
        .collect();
    let mut leases = lease_often(&word, 128, TIMES);
    for other in others {
        leases += other.join().unwrap();
    }
    println!("4 {} {leases} {}", 4 * TIMES, start.elapsed().as_nanos());
}
