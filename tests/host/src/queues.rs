// Fixed sides of any engine: which they are, transfers that are on the multiples of W or not, and
// moving engines that no trace need reach.

use independent::cut::LONGEST as MOST_BYTES;
use shared::bursts::{MOST_FIXED_BEATS, PAGE};
use shared::random::Random;
use shared::words::{
    EngineWords, BEATS, DESTINATION, KEY_HOLE_READ, KEY_HOLE_WRITE, MOVED, SOURCE, TOTAL, WIDTH,
};

use crate::states::{address, count};

/// The two bits, each 0 or 1: half the time none, else any of the others.
pub fn any_bits(random: &mut Random) -> [u32; 2] {
    random.pick(&[[0, 0], [0, 0], [0, 0], [1, 0], [0, 1], [1, 1]])
}

pub fn any_fixed(words: &EngineWords) -> bool {
    words[KEY_HOLE_READ] == 1 || words[KEY_HOLE_WRITE] == 1
}

/// The width, or one near to it where the settings are off their lists.
fn width(words: &EngineWords) -> u32 {
    words[WIDTH].clamp(4, 128)
}

fn align(words: &EngineWords, number: u32) -> u32 {
    number - number % width(words)
}

/// Source, destination and count of a transfer: mostly on the multiples of W as far as a side is
/// fixed, else one of them off or all as they were.
pub fn fit(random: &mut Random, words: &EngineWords, transfer: [u32; 3]) -> [u32; 3] {
    if !any_fixed(words) || random.chance(12) {
        return transfer;
    }
    let [mut source, mut destination, count] = transfer;
    let all = random.chance(20);
    if all || words[KEY_HOLE_READ] == 1 {
        source = align(words, source);
    }
    if all || words[KEY_HOLE_WRITE] == 1 {
        destination = align(words, destination);
    }
    let mut fitted = [source, destination, fit_count(words, count)];
    if random.chance(12) {
        let at = random.below(3) as usize;
        fitted[at] = fitted[at].wrapping_add(random.between(1, width(words) - 1));
    }
    fitted
}

/// A multiple of W, which is 0 in its 23 bits only if the count was.
fn fit_count(words: &EngineWords, count: u32) -> u32 {
    let fitted = align(words, count);
    if count & MOST_BYTES != 0 && fitted & MOST_BYTES == 0 {
        fitted + width(words)
    } else {
        fitted
    }
}

/// Puts a transfer with a fixed side into the words of an engine that moves: about pieces long, its
/// sides near page ends, the memory's end and each other, mostly on the multiples of W.
pub fn shape(random: &mut Random, words: &mut EngineWords, memory: u32) {
    let width = width(words);
    let piece = width * words[BEATS].min(MOST_FIXED_BEATS);
    let on = random.chance(65);
    let left = match random.below(8) {
        0 => random.between(1, width),
        1 => piece - random.below(2) * width,
        2 => piece,
        3 => piece + width,
        4 => random.between(2, 4) * piece + random.below(2) * width,
        5 => random.between(1, 2 * piece),
        6 => count(random),
        _ => random.between(1, 4 * width),
    };
    let mut moved = match random.below(5) {
        0 => 0,
        1 => random.between(1, 3) * piece,
        2 => random.between(1, 20) * width,
        3 => random.below(width),
        _ => random.below(3 * piece),
    };
    let mut total = (moved + left).min(MOST_BYTES);
    if on {
        total = fit_count(words, total);
        if words[KEY_HOLE_WRITE] == 1 {
            moved = align(words, moved);
        }
    }
    words[TOTAL] = total;
    words[MOVED] = if moved < total { moved } else { 0 };
    place_sides(random, words, memory);
    if random.chance(45) {
        overlap(random, words, left.min(piece));
    }
    for (at, fixed) in [(SOURCE, KEY_HOLE_READ), (DESTINATION, KEY_HOLE_WRITE)] {
        words[at] = words[at].min(u32::MAX - words[MOVED]);
        if on && words[fixed] == 1 {
            words[at] = align(words, words[at]);
        }
    }
}

fn place_sides(random: &mut Random, words: &mut EngineWords, memory: u32) {
    let width = width(words);
    for (at, fixed) in [(SOURCE, KEY_HOLE_READ), (DESTINATION, KEY_HOLE_WRITE)] {
        if words[fixed] == 0 {
            // Where the next byte is to be.
            words[at] = address(random, memory).saturating_sub(words[MOVED]);
            continue;
        }
        let words_before = random.between(1, 3) * width;
        words[at] = match random.below(6) {
            0 => memory.saturating_sub(words_before),
            1 => memory.saturating_sub(random.below(2 * width)),
            2 => (random.between(1, memory / PAGE + 1) * PAGE).saturating_sub(words_before),
            3 => u32::MAX - random.below(2 * width),
            _ => address(random, memory),
        };
    }
}

/// Lets both sides have bytes in common, in the burst that is next or in one before it.
fn overlap(random: &mut Random, words: &mut EngineWords, bytes: u32) {
    let width = width(words);
    let (from, to) = match words[KEY_HOLE_READ..=KEY_HOLE_WRITE] {
        [1, 1] => {
            // The same word, or any that reaches into it or touches it.
            let shift = if random.chance(50) { width } else { random.below(2 * width + 1) };
            words[SOURCE] = words[DESTINATION].saturating_add(shift).saturating_sub(width);
            return;
        }
        [1, _] => (SOURCE, DESTINATION),
        _ => (DESTINATION, SOURCE),
    };
    let within = words[from].saturating_add(random.below(width));
    let ahead = if random.chance(70) { words[MOVED] } else { 0 };
    words[to] = within.saturating_sub(ahead + random.below(bytes));
}
