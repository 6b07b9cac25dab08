// A Mutex round a Vec, and a counter for the ids: what the threads of seats_speed do, without a proof.
use std::hint::black_box;
use std::sync::atomic::{AtomicU64, Ordering};
use std::sync::Mutex;
use std::time::{Duration, Instant};

const ENTRIES: u64 = 100_000;

#[derive(Clone, Copy)]
enum Event {
    Make(u64),
}

#[derive(Clone, Copy)]
struct Entry {
    thread: u32,
    event: Event,
}

fn run(threads: u32) -> Duration {
    let next = AtomicU64::new(1);
    let log = Mutex::new(Vec::new());
    let start = Instant::now();
    std::thread::scope(|scope| {
        for thread in 0..threads {
            let (next, log) = (&next, &log);
            scope.spawn(move || {
                let mut batch = Vec::new();
                for _ in 0..ENTRIES {
                    batch.clear();
                    batch.push(Event::Make(next.fetch_add(1, Ordering::SeqCst)));
                    let mut log = log.lock().unwrap();
                    for &event in black_box(&batch) {
                        log.push(Entry { thread, event });
                    }
                }
            });
        }
    });
    let taken = start.elapsed();
    let log = log.into_inner().unwrap();
    assert_eq!(log.len() as u64, ENTRIES * u64::from(threads));
    black_box(log.iter().map(|entry| match entry.event {
        Event::Make(id) => id ^ u64::from(entry.thread),
    }).fold(0, |a, b| a ^ b));
    taken
}

fn main() {
    for threads in [1, 2, 4, 8] {
        let best = (0..5).map(|_| run(threads)).min().unwrap();
        let rate = f64::from(threads) * ENTRIES as f64 / best.as_secs_f64();
        println!("{threads} threads, a Mutex: {rate:.0} entries a second");
    }
}
