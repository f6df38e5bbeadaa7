// Takes the cases of a test on all processors.

use std::sync::atomic::{AtomicU64, Ordering};
use std::sync::Mutex;
use std::thread;

/// What a run gave.
pub struct Outcome<Counts> {
    pub counts: Counts,
    pub taken: u64,
    /// What is to be said of the first difference.
    pub difference: Option<String>,
}

/// Takes the cases 0 to `total` - 1, up to the first that differs. Each worker counts for itself
/// with what `new` gives, and at its end the counts are added up.
pub fn take_all<Counts: Send>(
    total: u64,
    new: fn() -> Counts,
    add: fn(&mut Counts, &Counts),
    take: impl Fn(u64, &mut Counts) -> Result<(), String> + Sync,
) -> Outcome<Counts> {
    let next = AtomicU64::new(0);
    let shared = Mutex::new(Outcome { counts: new(), taken: 0, difference: None });
    let workers = thread::available_parallelism().map_or(2, |count| count.get());
    thread::scope(|scope| {
        for _ in 0..workers {
            scope.spawn(|| {
                let (mut counts, mut taken, mut told) = (new(), 0, Ok(()));
                while told.is_ok() {
                    let case = next.fetch_add(1, Ordering::Relaxed);
                    if case >= total {
                        break;
                    }
                    told = take(case, &mut counts);
                    taken += 1;
                }
                let mut shared = shared.lock().expect("no worker panics");
                add(&mut shared.counts, &counts);
                shared.taken += taken;
                if let Err(told) = told {
                    next.store(total, Ordering::Relaxed);
                    shared.difference.get_or_insert(told);
                }
            });
        }
    });
    shared.into_inner().expect("no worker panics")
}
