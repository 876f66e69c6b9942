// The same plays and halts at a plain book under a mutex.
use std::sync::Mutex;
use std::time::Instant;

const CALLS: u64 = 200_000;
const RING: usize = 1 << 20;
const CAPACITY: u64 = 1 << 40;

struct Plan {
    segments: Vec<(u64, u64)>,
}

impl Plan {
    fn new() -> Plan {
        let mut segments = Vec::with_capacity(2);
        segments.push((150, 400_000));
        segments.push((150, 200_000));
        Plan { segments }
    }

    // calls `each` with the bytes of each slot, in order
    fn slots(&self, mut each: impl FnMut(u64) -> bool) {
        for &(slots, bytes) in &self.segments {
            let mut sent = 0;
            for j in 0..slots {
                let next = (j + 1) * bytes / slots;
                if !each(next - sent) {
                    return;
                }
                sent = next;
            }
        }
    }
}

#[allow(dead_code)]
enum Entry {
    Play { maker: u32, slot: u64, plan: Plan, start: Option<u64> },
    Halt { maker: u32, number: usize, keep: u64 },
}

struct Book {
    now: u64,
    totals: Vec<u64>,
    entries: Vec<Entry>,
}

impl Book {
    fn play(&mut self, maker: u32, slot: u64, plan: Plan) -> Option<usize> {
        self.now = self.now.max(slot);
        let start = self.now + 1;
        let mut at = start;
        let mut fits = true;
        plan.slots(|bytes| {
            fits = self.totals[at as usize % RING] + bytes <= CAPACITY;
            at += 1;
            fits
        });
        if fits {
            let mut at = start;
            let totals = &mut self.totals;
            plan.slots(|bytes| {
                totals[at as usize % RING] += bytes;
                at += 1;
                true
            });
        }
        self.entries.push(Entry::Play { maker, slot, plan, start: fits.then_some(start) });
        fits.then(|| self.entries.len() - 1)
    }

    fn halt(&mut self, maker: u32, number: usize, keep: u64) {
        let Entry::Play { plan, start: Some(start), .. } = &self.entries[number] else { return };
        let (mut at, mut sent, now) = (*start, 0u64, self.now);
        let totals = &mut self.totals;
        plan.slots(|bytes| {
            let kept = (sent + bytes).min(keep) - sent.min(keep);
            if at >= now {
                totals[at as usize % RING] -= bytes - kept;
            }
            sent += bytes;
            at += 1;
            true
        });
        self.entries.push(Entry::Halt { maker, number, keep });
    }
}

/// 64 threads take the lock, the first of them for a second.
fn hold() {
    let lock = Mutex::new(());
    std::thread::scope(|scope| {
        for thread in 0..64 {
            let lock = &lock;
            scope.spawn(move || {
                let _held = lock.lock().unwrap();
                if thread == 0 {
                    std::thread::sleep(std::time::Duration::from_secs(1));
                }
            });
        }
    });
}

fn main() {
    if std::env::args().nth(1).is_some() {
        return hold();
    }
    for threads in [1u32, 2, 4, 16, 64] {
        let book = Mutex::new(Book { now: 0, totals: vec![0; RING], entries: Vec::with_capacity(1_048_576) });
        let start = Instant::now();
        std::thread::scope(|scope| {
            for maker in 0..threads {
                let book = &book;
                scope.spawn(move || {
                    for _ in 0..CALLS / 2 / u64::from(threads) {
                        let plan = Plan::new();
                        let number = book.lock().unwrap().play(maker, 0, plan);
                        if let Some(number) = number {
                            book.lock().unwrap().halt(maker, number, 0);
                        }
                    }
                });
            }
        });
        println!("{threads} threads: {} ns a call", start.elapsed().as_nanos() / u128::from(CALLS));
    }
}
