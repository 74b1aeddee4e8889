// The same loop over std's Mutex and over a plain ticket lock, for comparison with the proved lock. The ticket lock waits in two ways: with pauses that
// grow, as crossbeam's Backoff does, and with equal ones. After some pauses it yields.
use std::cell::UnsafeCell;
use std::sync::Mutex;
use std::sync::atomic::{AtomicU64, Ordering::SeqCst};
use std::thread;
use std::time::Instant;

const ROUNDS: u64 = 200_000;

struct TicketLock {
    serving: AtomicU64,
    next: AtomicU64,
    value: UnsafeCell<Option<u64>>,
}

unsafe impl Sync for TicketLock {}

impl TicketLock {
    fn enter(&self, grows: bool) -> u64 {
        let ticket = self.next.fetch_add(1, SeqCst);
        let mut looks = 0;
        while self.serving.load(SeqCst) != ticket {
            if looks < if grows { 7 } else { 16 } {
                for _ in 0..if grows { 1u32 << looks } else { 8 } {
                    std::hint::spin_loop();
                }
                looks += 1;
            } else {
                thread::yield_now();
            }
        }
        unsafe { (*self.value.get()).take().unwrap() }
    }

    fn leave(&self, value: u64) {
        unsafe { *self.value.get() = Some(value) };
        self.serving.fetch_add(1, SeqCst);
    }
}

fn measure<F: Fn() + Sync>(threads: u64, round: F) -> u128 {
    let start = Instant::now();
    thread::scope(|scope| {
        for _ in 0..threads {
            scope.spawn(|| {
                for _ in 0..ROUNDS {
                    round();
                }
            });
        }
    });
    start.elapsed().as_nanos() / u128::from(threads * ROUNDS)
}

fn main() {
    for grows in [false, true] {
        for threads in 1..=4 {
            let lock = TicketLock {
                serving: AtomicU64::new(0),
                next: AtomicU64::new(0),
                value: UnsafeCell::new(Some(0)),
            };
            let nanos = measure(threads, || {
                let value = lock.enter(grows);
                lock.leave(value + 1);
            });
            let pauses = if grows { "growing" } else { "equal" };
            println!("plain ticket lock in Rust with {pauses} pauses, {threads} threads: {nanos} ns a hand-over");
        }
    }
    for threads in 1..=4 {
        let lock = Mutex::new(0u64);
        let nanos = measure(threads, || {
            *lock.lock().unwrap() += 1;
        });
        println!("plain Rust's Mutex, {threads} threads: {nanos} ns a hand-over");
    }
}
