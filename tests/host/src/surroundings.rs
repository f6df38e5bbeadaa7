// What is lent beside an engine: windows around the bytes that its next step judges, and
// descriptors.

use crate::engine_desk::EngineDesk;
use crate::queues;
use crate::states::{address, count, pointer};
use shared::random::Random;
use shared::words::{
    EngineWords, CURRENT, DESTINATION, FETCH, IDLE, KEY_HOLE_READ, KEY_HOLE_WRITE, MOVE, MOVED,
    PHASE, SOURCE, WIDTH,
};

/// Numbers of windows: any number of them, sometimes more than are allowed, sometimes one over.
pub fn windows(random: &mut Random, words: &EngineWords, memory: u32) -> Vec<u32> {
    let windows = match random.below(40) {
        0 => random.between(18, 31),
        1 => 17,
        2..=5 => 16,
        6 => 15,
        7 => 8,
        8..=19 => random.between(1, 4),
        _ => 0,
    };
    // Many windows are mostly harmless, or a step would hardly ever be good.
    let harm = if windows > 4 { 3 } else { 25 };
    let mut numbers = Vec::new();
    for _ in 0..windows {
        numbers.extend(window(random, words, memory, harm));
    }
    if windows == 16 && random.chance(30) {
        numbers[30..].copy_from_slice(&[near(random, words), random.between(1, 40)]);
    }
    if random.chance(15) {
        numbers.push(near(random, words));
    }
    numbers
}

/// The start of a group that the next step judges.
fn near(random: &mut Random, words: &EngineWords) -> u32 {
    let at = match words[PHASE] {
        MOVE => {
            let (at, fixed) =
                random.pick(&[(SOURCE, KEY_HOLE_READ), (DESTINATION, KEY_HOLE_WRITE)]);
            if words[fixed] == 1 && random.chance(75) {
                return around_word(random, words[at], words[WIDTH]);
            }
            words[at].wrapping_add(words[MOVED])
        }
        FETCH | IDLE => words[CURRENT],
        _ => words[CURRENT].wrapping_add(28),
    };
    at.wrapping_add(if random.chance(50) { 0 } else { random.below(32) })
}

/// A byte of a fixed word, mostly its first or its last, or one next to it.
fn around_word(random: &mut Random, start: u32, width: u32) -> u32 {
    let within = random.below(width.max(1));
    start.wrapping_add(random.pick(&[0, 0, width.wrapping_sub(1), within, width, u32::MAX]))
}

fn window(random: &mut Random, words: &EngineWords, memory: u32, harm: u32) -> [u32; 2] {
    let near = near(random, words);
    if random.chance(harm) {
        return match random.below(5) {
            0 => [near, u32::MAX - random.below(3)],
            1 => [near.saturating_sub(random.below(70)), random.between(1, 140)],
            2 => [0, random.u32()],
            3 => [near, 1],
            _ => [near, random.between(1, 8)],
        };
    }
    match random.below(6) {
        0 => [near, 0],
        // Up to the group and no further.
        1 => {
            let length = random.between(1, 64).min(near);
            [near - length, length]
        }
        2 => [memory.saturating_add(random.below(3)), random.u32()],
        3 => [u32::MAX, random.pick(&[0, 1, 2, u32::MAX])],
        4 => [u32::MAX - random.below(100), u32::MAX],
        _ => [near.saturating_add(random.pick(&[4, 32, 33, 64, 600])), random.between(1, 9)],
    }
}

/// The 32 bytes of a descriptor for an engine with these words.
pub fn descriptor(random: &mut Random, next: u32, words: &EngineWords, memory: u32) -> Vec<u8> {
    let control = match random.below(12) {
        0 => 0,
        1 => random.u32() & !0x7f_ffff,
        2 => count(random) | random.u32() & !0x7f_ffff,
        _ => random.between(1, 300),
    };
    let status = match random.below(12) {
        0 => random.u32(),
        1 => random.u32() & !(1 << 31),
        _ => 0,
    };
    let copy = [address(random, memory), address(random, memory), control];
    let copy = queues::fit(random, words, copy);
    lay_out(random, next, copy, status)
}

/// A descriptor that is fresh and stays within memory.
pub fn calm_descriptor(
    random: &mut Random,
    next: u32,
    words: &EngineWords,
    memory: u32,
) -> Vec<u8> {
    let half = memory / 2 + 1;
    let control = random.between(1, half) | random.u32() & !0x7f_ffff;
    let copy = [random.below(half), random.below(half), control];
    let copy = queues::fit(random, words, copy);
    let status = random.u32() & !(1 << 31);
    lay_out(random, next, copy, status)
}

/// The words in their places, with anything in the upper halves and in the bits of the next pointer
/// that are dropped.
fn lay_out(random: &mut Random, next: u32, copy: [u32; 3], status: u32) -> Vec<u8> {
    let [source, destination, control] = copy;
    let next = next | random.below(64);
    let upper = [random.u32(), random.u32(), random.u32()];
    let words = [next, upper[0], source, upper[1], destination, upper[2], control, status];
    words.iter().flat_map(|word| word.to_le_bytes()).collect()
}

/// Puts a descriptor where the engine's next fetch would look for it.
pub fn put_descriptor(random: &mut Random, desk: &mut EngineDesk, place: u32) {
    let memory = desk.memory().len() as u32;
    let next = pointer(random, memory);
    let bytes = descriptor(random, next, &desk.words(), memory);
    desk.put(place, &bytes);
}
