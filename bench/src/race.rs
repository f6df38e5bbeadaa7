// Two pieces of code timed side by side, and the table of what came out.

use std::time::{Duration, Instant};

/// Rounds that each side runs. The best one counts: whatever else runs only makes a round slower.
const ROUNDS: u32 = 1000;

/// A race of long rounds ends after this long, but not before each side has run so many of them.
const RACE: Duration = Duration::from_millis(600);
const FEWEST_ROUNDS: u32 = 5;

/// What a round should take at least, so reading the clock does not show, and a quiet round is likely.
const ROUND: Duration = Duration::from_micros(300);

/// Whether a row is asked for: all are, unless words follow the program's name; then those that have one of them. A profile
/// wants one row alone.
pub fn wanted(what: &str) -> bool {
    let mut words = std::env::args().skip(1).peekable();
    words.peek().is_none() || words.any(|word| what.contains(&word))
}

/// Nanoseconds for one unit of work.
pub struct Times {
    pub proved: f64,
    pub plain: f64,
}

/// Times both sides on the same `shared` buffers, in turn, so a slow spell meets both alike.
/// Each call of a side does `units` of work.
pub fn race<T: ?Sized>(
    units: u64,
    shared: &mut T,
    proved: impl Fn(&mut T),
    plain: impl Fn(&mut T),
) -> Times {
    let once = time(1, shared, &proved).min(time(1, shared, &plain));
    let calls = (ROUND.as_nanos() / once.as_nanos().max(1) + 1) as u32;
    let (mut best_proved, mut best_plain) = (Duration::MAX, Duration::MAX);
    let begun = Instant::now();
    for round in 0..ROUNDS {
        if round >= FEWEST_ROUNDS && begun.elapsed() > RACE {
            break;
        }
        best_proved = best_proved.min(time(calls, shared, &proved));
        best_plain = best_plain.min(time(calls, shared, &plain));
    }
    let all_units = (u64::from(calls) * units) as f64;
    let for_one = |best: Duration| best.as_nanos() as f64 / all_units;
    Times { proved: for_one(best_proved), plain: for_one(best_plain) }
}

fn time<T: ?Sized>(calls: u32, shared: &mut T, work: &impl Fn(&mut T)) -> Duration {
    let started = Instant::now();
    for _ in 0..calls {
        work(shared);
    }
    started.elapsed()
}

/// Starts a table: what a row is about, and the unit of its times.
pub fn print_heading(about: &str, unit: &str) {
    println!("{:<40}{:>10}{:>12}{:>9}", format!("{about}: {unit}"), "proved", "Rust", "ratio");
}

pub fn print_row(what: &str, times: &Times) {
    let ratio = times.proved / times.plain;
    println!("{what:<40}{:>10.2}{:>12.2}{ratio:>9.2}", times.proved, times.plain);
}
