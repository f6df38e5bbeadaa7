// The numbers that stand for an engine and for a monitor, as include/belikumba.h lists them, and
// the independent program's own engine and monitor.

use independent::engine::{Engine, Outcome, Phase, Transfer};
use independent::monitor::{self, Monitor};

use crate::interface::{Clock, ENGINE_WORDS, MONITOR_WORDS};

pub type EngineWords = [u32; ENGINE_WORDS];
pub type MonitorWords = [u32; MONITOR_WORDS];

// Places of an engine's words.
pub const WIDTH: usize = 0;
pub const BEATS: usize = 1;
pub const CHAIN_MODE: usize = 2;
pub const COMPLETE_ENABLE: usize = 3;
pub const ERROR_ENABLE: usize = 4;
pub const ERROR_BIT: usize = 5;
pub const COMPLETE_INTERRUPT: usize = 6;
pub const ERROR_INTERRUPT: usize = 7;
pub const CURRENT: usize = 8;
pub const TAIL: usize = 9;
pub const NEXT: usize = 10;
pub const HELD_NEXT: usize = 11;
pub const SOURCE_REGISTER: usize = 12;
pub const DESTINATION_REGISTER: usize = 13;
pub const COUNT_REGISTER: usize = 14;
pub const PHASE: usize = 15;
pub const SOURCE: usize = 16;
pub const DESTINATION: usize = 17;
pub const TOTAL: usize = 18;
pub const MOVED: usize = 19;
pub const KEY_HOLE_READ: usize = 20;
pub const KEY_HOLE_WRITE: usize = 21;

pub const TRUTHS: [usize; 7] = [
    CHAIN_MODE,
    COMPLETE_ENABLE,
    ERROR_ENABLE,
    COMPLETE_INTERRUPT,
    ERROR_INTERRUPT,
    KEY_HOLE_READ,
    KEY_HOLE_WRITE,
];
pub const ERROR_BITS: [u32; 6] = [4, 5, 6, 8, 9, 10];

// Numbers of the phases.
pub const IDLE: u32 = 0;
pub const FETCH: u32 = 1;
pub const MOVE: u32 = 2;
pub const UPDATES: [u32; 4] = [28, 29, 30, 31];

/// Place of a monitor's word that no monitor has above 7: the bits of the clock before.
pub const BITS_BEFORE: usize = 4;

/// The engine of these words, or none where no engine has them.
pub fn engine(words: &EngineWords) -> Option<Engine> {
    if TRUTHS.iter().any(|at| words[*at] > 1) {
        return None;
    }
    let error = words[ERROR_BIT];
    if error != 0 && !ERROR_BITS.contains(&error) {
        return None;
    }
    let phase = match words[PHASE] {
        IDLE => Phase::Idle,
        FETCH => Phase::Fetch,
        MOVE => Phase::Move(Transfer {
            source: words[SOURCE],
            destination: words[DESTINATION],
            total: words[TOTAL],
            moved: words[MOVED],
        }),
        28 => Phase::Update(Outcome::Internal),
        29 => Phase::Update(Outcome::Slave),
        30 => Phase::Update(Outcome::Decode),
        31 => Phase::Update(Outcome::Complete),
        _ => return None,
    };
    if words[PHASE] != MOVE && words[SOURCE..=MOVED].iter().any(|word| *word != 0) {
        return None;
    }
    let truth = |at: usize| words[at] == 1;
    Some(Engine {
        width: words[WIDTH],
        beats: words[BEATS],
        errors: if error == 0 { 0 } else { 1 << error },
        sg_mode: truth(CHAIN_MODE),
        key_hole_read: truth(KEY_HOLE_READ),
        key_hole_write: truth(KEY_HOLE_WRITE),
        ioc_enable: truth(COMPLETE_ENABLE),
        err_enable: truth(ERROR_ENABLE),
        ioc_irq: truth(COMPLETE_INTERRUPT),
        err_irq: truth(ERROR_INTERRUPT),
        current: words[CURRENT],
        tail: words[TAIL],
        next: words[NEXT],
        held_next: words[HELD_NEXT],
        sa: words[SOURCE_REGISTER],
        da: words[DESTINATION_REGISTER],
        btt: words[COUNT_REGISTER],
        phase,
    })
}

/// The words of an engine.
pub fn of_engine(engine: &Engine) -> EngineWords {
    // One word holds the number of the error bit, so two at once would have no words.
    assert!(engine.errors.count_ones() <= 1, "two error bits at once");
    let error = if engine.errors == 0 { 0 } else { engine.errors.trailing_zeros() };
    let (phase, transfer) = match engine.phase {
        Phase::Idle => (IDLE, [0; 4]),
        Phase::Fetch => (FETCH, [0; 4]),
        Phase::Move(Transfer { source, destination, total, moved }) => {
            (MOVE, [source, destination, total, moved])
        }
        Phase::Update(Outcome::Internal) => (28, [0; 4]),
        Phase::Update(Outcome::Slave) => (29, [0; 4]),
        Phase::Update(Outcome::Decode) => (30, [0; 4]),
        Phase::Update(Outcome::Complete) => (31, [0; 4]),
    };
    [
        engine.width,
        engine.beats,
        u32::from(engine.sg_mode),
        u32::from(engine.ioc_enable),
        u32::from(engine.err_enable),
        error,
        u32::from(engine.ioc_irq),
        u32::from(engine.err_irq),
        engine.current,
        engine.tail,
        engine.next,
        engine.held_next,
        engine.sa,
        engine.da,
        engine.btt,
        phase,
        transfer[0],
        transfer[1],
        transfer[2],
        transfer[3],
        u32::from(engine.key_hole_read),
        u32::from(engine.key_hole_write),
    ]
}

/// A clock whose bits are at most 7, for the independent monitor.
pub fn clock(clock: &Clock) -> monitor::Clock {
    monitor::Clock {
        reset_high: clock.bits & 1 != 0,
        valid: clock.bits & 2 != 0,
        ready: clock.bits & 4 != 0,
        address: clock.address,
        length: clock.length,
        size: clock.size,
        burst: clock.burst,
        cache: clock.cache,
        prot: clock.prot,
        qos: clock.qos,
        region: clock.region,
        id: clock.id,
    }
}

/// The other way round.
fn of_clock(clock: &monitor::Clock) -> Clock {
    let monitor::Clock { address, length, size, burst, cache, prot, qos, region, id, .. } = *clock;
    let (reset_high, valid) = (u32::from(clock.reset_high), u32::from(clock.valid));
    let bits = reset_high | valid << 1 | u32::from(clock.ready) << 2;
    Clock { bits, address, length, size, burst, cache, prot, qos, region, id }
}

/// The clock before, as a monitor's words hold it.
pub fn clock_before(words: &MonitorWords) -> Clock {
    let [_, _, _, _, bits, address, length, size, burst, cache, prot, qos, region, id] = *words;
    Clock { bits, address, length, size, burst, cache, prot, qos, region, id }
}

pub fn flags(words: &MonitorWords) -> u64 {
    u64::from(words[1]) << 32 | u64::from(words[0])
}

pub fn snapshot(words: &MonitorWords) -> u64 {
    u64::from(words[3]) << 32 | u64::from(words[2])
}

/// The monitor of these words, or none where no monitor has them.
pub fn monitor(words: &MonitorWords) -> Option<Monitor> {
    let before = clock_before(words);
    if before.bits > 7 {
        return None;
    }
    Some(Monitor { flags: flags(words), snapshot: snapshot(words), before: clock(&before) })
}

/// The words of a monitor with these flags, this snapshot and this clock before.
pub fn monitor_words(flags: u64, snapshot: u64, before: &Clock) -> MonitorWords {
    let Clock { bits, address, length, size, burst, cache, prot, qos, region, id } = *before;
    let [low, high, low_of_snapshot, high_of_snapshot] =
        [flags, flags >> 32, snapshot, snapshot >> 32].map(|half| half as u32);
    [
        low,
        high,
        low_of_snapshot,
        high_of_snapshot,
        bits,
        address,
        length,
        size,
        burst,
        cache,
        prot,
        qos,
        region,
        id,
    ]
}

/// The words of a monitor.
pub fn of_monitor(monitor: &Monitor) -> MonitorWords {
    monitor_words(monitor.flags, monitor.snapshot, &of_clock(&monitor.before))
}
