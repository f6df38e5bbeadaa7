// The few cases that need much memory or many steps.

use independent::memory::LONGEST as MOST_MEMORY;

use crate::coverage::Coverage;
use crate::engine_desk::{Call, EngineDesk};
use crate::spoil::KINDS;
use crate::states::fresh;
use shared::random::Random;
use shared::words::{
    EngineWords, CHAIN_MODE, CURRENT, DESTINATION, FETCH, KEY_HOLE_READ, KEY_HOLE_WRITE, MOVE,
    MOVED, PHASE, SOURCE, TAIL, TOTAL, WIDTH,
};

/// A simple transfer with the largest settings, in its midst.
pub fn moving(source: u32, destination: u32, total: u32, moved: u32) -> EngineWords {
    let mut words = fresh(128, 256);
    words[PHASE] = MOVE;
    words[SOURCE] = source;
    words[DESTINATION] = destination;
    words[TOTAL] = total;
    words[MOVED] = moved;
    words
}

/// The same words with another destination and these sides fixed.
pub fn fix(mut words: EngineWords, destination: u32, [read, write]: [u32; 2]) -> EngineWords {
    words[DESTINATION] = destination;
    words[KEY_HOLE_READ] = read;
    words[KEY_HOLE_WRITE] = write;
    words
}

/// Memory of exactly the most bytes, and of one more, which is refused before windows and state but
/// after the settings.
pub fn most_memory(random: &mut Random, coverage: &mut Coverage) -> Result<(), String> {
    let last = MOST_MEMORY as u32 - 1;
    let mut desk = EngineDesk::new(&fresh(4, 16), MOST_MEMORY + 1);
    let bytes = random.bytes(5000);
    desk.put(last - 4999, &bytes);
    let mut spoiled = moving(0, 9000, 10, 0);
    (KINDS[0].spoil)(&mut spoiled, random);
    let mut unlisted = spoiled;
    unlisted[WIDTH] = 5;
    let mut chain = fresh(8, 4);
    chain[CHAIN_MODE] = 1;
    chain[PHASE] = FETCH;
    chain[CURRENT] = MOST_MEMORY as u32 - 64;
    chain[TAIL] = chain[CURRENT];
    let engines = [
        fresh(4, 16),
        // Up to the last byte, one past it, and from it.
        moving(last - 4000, last - 99, 100, 0),
        moving(last - 4000, last - 98, 100, 0),
        moving(last, 3, 1, 0),
        // A queue in the last word, and one a byte further on.
        fix(moving(5, 0, 4096, 2048), last - 127, [0, 1]),
        fix(moving(last - 127, 0, 4096, 2048), 5, [1, 0]),
        fix(moving(last - 126, 0, 4096, 2048), last - 126, [1, 1]),
        chain,
        spoiled,
        unlisted,
    ];
    let windows = [1; 34];
    for length in [MOST_MEMORY, MOST_MEMORY + 1] {
        desk.lend_memory(0, length, false);
        for words in &engines {
            for numbers in [0, 33, 34] {
                desk.lend_windows(&windows[..numbers], false);
                for call in [Call::Step, Call::Run { most: 9 }] {
                    desk.set_words(words);
                    desk.call(call, coverage)?;
                }
            }
        }
    }
    Ok(())
}

/// The longest transfer that memory has room for, to its end: overlapping upward, downward, and up
/// to a window.
pub fn longest_transfer(_: &mut Random, coverage: &mut Coverage) -> Result<(), String> {
    let mut desk = EngineDesk::new(&fresh(4, 16), MOST_MEMORY);
    let pattern: Vec<u8> =
        (0..MOST_MEMORY as u32).map(|at| (at.wrapping_mul(2_654_435_761) >> 24) as u8).collect();
    desk.put(0, &pattern);
    for (source, destination) in [(0, 100), (3000, 1), (0, 8_388_608)] {
        desk.set_words(&moving(source, destination, 8_388_607, 0));
        desk.call(Call::Run { most: u16::MAX }, coverage)?;
    }
    // With a fixed side: from a queue, to one within the source, and from one to another.
    let (most, queue) = (8_388_480, 4_194_304);
    for (destination, sides) in [(8_388_577, [1, 0]), (queue, [0, 1]), (queue, [1, 1])] {
        desk.set_words(&fix(moving(128, 0, most, 0), destination, sides));
        desk.call(Call::Run { most: u16::MAX }, coverage)?;
    }
    desk.lend_windows(&[16_000_000, 1], false);
    desk.set_words(&moving(0, 8_388_608, 8_388_607, 0));
    desk.call(Call::Run { most: u16::MAX }, coverage)?;
    Ok(())
}

/// Runs that take all the steps that a run can.
pub fn longest_runs(random: &mut Random, coverage: &mut Coverage) -> Result<(), String> {
    // Bursts of 8 bytes: one that ends with the last step, one that has a step left, one that is
    // long from done.
    let room = 600_000;
    let bytes = random.bytes(4096);
    for total in [65_535 * 8, 65_535 * 8 - 8, 65_536 * 8, 8_388_607] {
        for sides in [[0, 0], [1, 0], [0, 1], [1, 1]] {
            let mut desk = EngineDesk::new(&fresh(4, 2), room);
            desk.put(0, &bytes);
            let mut words = fix(moving(0, 0, total, 0), 8, sides);
            words[..2].copy_from_slice(&[4, 2]);
            desk.set_words(&words);
            for most in [u16::MAX, u16::MAX, 0, 1] {
                desk.call(Call::Run { most }, coverage)?;
            }
        }
    }
    Ok(())
}
