// Well-formed engines of every phase, at the edges as often as within.

use independent::cut::LONGEST as MOST_BYTES;
use shared::interface::ENGINE_WORDS;
use shared::random::Random;
use shared::settings;
use shared::words::{
    EngineWords, BEATS, CHAIN_MODE, COMPLETE_ENABLE, COMPLETE_INTERRUPT, COUNT_REGISTER, CURRENT,
    DESTINATION, DESTINATION_REGISTER, ERROR_BIT, ERROR_BITS, ERROR_ENABLE, ERROR_INTERRUPT, FETCH,
    HELD_NEXT, IDLE, KEY_HOLE_READ, KEY_HOLE_WRITE, MOVE, MOVED, NEXT, PHASE, SOURCE,
    SOURCE_REGISTER, TAIL, TOTAL, UPDATES, WIDTH,
};

use crate::queues;

/// A fresh engine with these settings.
pub fn fresh(width: u32, beats: u32) -> EngineWords {
    let mut words = [0; ENGINE_WORDS];
    words[WIDTH] = width;
    words[BEATS] = beats;
    words
}

/// A well-formed engine whose addresses are mostly within `memory` bytes.
pub fn well_formed(random: &mut Random, memory: u32) -> EngineWords {
    let phase = match random.below(10) {
        0..=1 => IDLE,
        2..=3 => FETCH,
        4..=7 => MOVE,
        _ => random.pick(&UPDATES),
    };
    in_phase(random, memory, phase)
}

/// The same, in this phase.
pub fn in_phase(random: &mut Random, memory: u32, phase: u32) -> EngineWords {
    let (width, beats) = settings::listed(random);
    let mut words = fresh(width, beats);
    for at in [COMPLETE_ENABLE, ERROR_ENABLE, COMPLETE_INTERRUPT, ERROR_INTERRUPT] {
        words[at] = random.below(2);
    }
    for at in [CURRENT, TAIL, NEXT, HELD_NEXT] {
        words[at] = pointer(random, memory);
    }
    if random.chance(40) {
        words[TAIL] = words[CURRENT];
    }
    [words[KEY_HOLE_READ], words[KEY_HOLE_WRITE]] = queues::any_bits(random);
    let copy = [address(random, memory), address(random, memory), count(random) - random.below(2)];
    let [source, destination, total] = queues::fit(random, &words, copy);
    words[SOURCE_REGISTER] = source;
    words[DESTINATION_REGISTER] = destination;
    words[COUNT_REGISTER] = total.min(MOST_BYTES);
    words[PHASE] = phase;
    words[CHAIN_MODE] = match phase {
        IDLE | MOVE => random.below(2),
        _ => 1,
    };
    if phase == IDLE && random.chance(40) {
        words[ERROR_BIT] = random.pick(&ERROR_BITS);
    }
    if phase == MOVE && queues::any_fixed(&words) {
        queues::shape(random, &mut words, memory);
    } else if phase == MOVE {
        words[TOTAL] = count(random);
        words[MOVED] = match random.below(3) {
            0 => 0,
            1 => words[TOTAL] - 1,
            _ => random.below(words[TOTAL]),
        };
        for at in [SOURCE, DESTINATION] {
            // Where the next byte is to be: the transfer started as much lower as was moved, as far
            // as there is room.
            let next = address(random, memory);
            words[at] = next.saturating_sub(words[MOVED]);
        }
    }
    words
}

/// Bytes of a transfer: mostly few, sometimes all that are allowed.
pub fn count(random: &mut Random) -> u32 {
    match random.below(20) {
        0 => MOST_BYTES,
        1 => random.between(1, MOST_BYTES),
        2..=5 => random.between(1, 9000),
        6..=9 => random.between(1, 3),
        _ => random.between(1, 600),
    }
}

/// An address: mostly within memory, at its end, at page edges, at the top of 2^32, any.
pub fn address(random: &mut Random, memory: u32) -> u32 {
    match random.below(16) {
        0 => random.u32(),
        1 => u32::MAX - random.below(5000),
        2 => u32::MAX - random.below(4),
        3..=4 => memory.saturating_sub(random.below(300)),
        5 => (random.below(memory / 4096 + 1) * 4096).saturating_sub(random.below(9)),
        _ => random.below(memory.max(1)),
    }
}

/// A descriptor's place.
pub fn pointer(random: &mut Random, memory: u32) -> u32 {
    match random.below(16) {
        0 => u32::MAX - 63,
        1 => random.u32() & !63,
        2 => memory & !63,
        3 => memory.saturating_sub(random.below(64)) & !63,
        _ => random.below(memory / 64 + 1) * 64,
    }
}
