// The monitor: `belikumba_bus_clock` of the C library beside the independent program's monitor.

use crate::race::{print_heading, print_row, race, wanted};
use independent::monitor::Monitor;
use shared::clocks::{GOOD_CACHE, OUT_OF_RESET, READY, VALID};
use shared::interface::{belikumba_bus_clock, Clock, Clocked, MONITOR_WORDS};
use shared::random::Random;
use shared::words::{self, of_monitor, MonitorWords};
use std::hint::black_box;

const WIDTH: u32 = 4;
const BEATS: u32 = 16;

fn proved(monitor: &mut MonitorWords, clock: &Clock) -> Clocked {
    // SAFETY: include/belikumba.h: it reaches the 14 words alone, whatever the numbers are.
    unsafe { belikumba_bus_clock(monitor.as_mut_ptr(), WIDTH, BEATS, *clock) }
}

fn plain(monitor: &mut Monitor, clock: &independent::monitor::Clock) -> Clocked {
    match monitor.clock(WIDTH, BEATS, clock) {
        0 => Clocked { answer: 0, count: monitor.count(), lowest: monitor.lowest() },
        answer => Clocked { answer, count: 0, lowest: 0 },
    }
}

// ---- Clocks

const CLOCKS: usize = 100_000;

/// Ready or not.
fn any_ready(random: &mut Random) -> u32 {
    random.pick(&[0, READY])
}

/// A valid clock that breaks no rule of its own.
fn legal(random: &mut Random) -> Clock {
    let size = random.below(3);
    let length = random.pick(&[1, 3, 7, 15]);
    let burst_bytes = (length + 1) << size;
    Clock {
        bits: OUT_OF_RESET | VALID | any_ready(random),
        // A multiple of the burst's bytes, which divide a page.
        address: random.below(1 << 20) * burst_bytes,
        length,
        size,
        burst: random.below(3),
        cache: random.pick(&GOOD_CACHE),
        prot: random.below(8),
        qos: random.below(16),
        region: random.below(16),
        id: random.below(256),
    }
}

/// A clock that breaks no rule after `before`: not valid after one in reset, and the same after one that waits.
fn legal_after(random: &mut Random, before: &Clock) -> Clock {
    let in_reset = before.bits & OUT_OF_RESET == 0;
    let waits = before.bits & (VALID | READY) == VALID;
    if !in_reset && waits {
        Clock { bits: before.bits | any_ready(random), ..*before }
    } else if in_reset || random.one_in(4) {
        Clock { bits: OUT_OF_RESET, ..*before }
    } else {
        legal(random)
    }
}

/// One in 256 clocks is in reset, one is out of range and four have another field than they should.
fn spoil(random: &mut Random, clock: &mut Clock) {
    match random.below(256) {
        0 => clock.bits &= !OUT_OF_RESET,
        1 => clock.length = 256,
        2 => clock.address += 4092,
        3 => clock.burst = random.below(4),
        4 => clock.cache = random.below(16),
        5 => clock.bits ^= VALID,
        _ => (),
    }
}

/// The same clocks as the C library and as the independent program take them.
struct Clocks {
    proved: Vec<Clock>,
    plain: Vec<independent::monitor::Clock>,
}

fn clocks(spoiled: bool) -> Clocks {
    let mut random = Random::new(1, 0);
    let mut before = Clock::default();
    let mut clocks = vec![before];
    while clocks.len() < CLOCKS {
        let mut clock = legal_after(&mut random, &before);
        if spoiled {
            spoil(&mut random, &mut clock);
        }
        clocks.push(clock);
        // A clock out of range is no clock.
        if clock.length <= 255 {
            before = clock;
        }
    }
    Clocks { plain: clocks.iter().map(words::clock).collect(), proved: clocks }
}

// ---- Races

/// After each clock both have answered the same and hold the same; gives how often a flag was up.
fn compare(clocks: &Clocks) -> usize {
    let (mut words, mut monitor) = ([0; MONITOR_WORDS], Monitor::fresh());
    let mut flagged = 0;
    for (clock, same) in clocks.proved.iter().zip(&clocks.plain) {
        let clocked = proved(&mut words, clock);
        assert_eq!(clocked, plain(&mut monitor, same), "the two monitors answer differently");
        assert_eq!(words, of_monitor(&monitor), "the two monitors differ");
        flagged += usize::from(clocked.count > 0);
    }
    flagged
}

fn watch_proved(clocks: &mut Clocks) {
    let mut monitor = [0; MONITOR_WORDS];
    for clock in &clocks.proved {
        black_box(proved(&mut monitor, clock));
    }
}

fn watch_plain(clocks: &mut Clocks) {
    let mut monitor = Monitor::fresh();
    for clock in &clocks.plain {
        black_box(plain(&mut monitor, clock));
    }
}

pub fn bench() {
    print_heading("bus clock", "nanoseconds a clock");
    for (name, spoiled) in [("all legal", false), ("some not legal", true)] {
        let what = format!("100,000 clocks, {name}");
        if !wanted(&what) {
            continue;
        }
        let mut clocks = clocks(spoiled);
        let flagged = compare(&clocks);
        assert_eq!(flagged > 0, spoiled, "clocks, {name}: a flag was up after {flagged} of them");
        let times = race(CLOCKS as u64, &mut clocks, watch_proved, watch_plain);
        print_row(&what, &times);
    }
}
