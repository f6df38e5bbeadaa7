// Cases of fixed sides that are gone through one by one: the two bits of CDMACR in every state,
// starts on the multiples of W and off them, and bursts with every small overlap, every sick byte,
// every two of them and every end of memory around their words.

use independent::cut::LONGEST as MOST_BYTES;

use crate::coverage::Coverage;
use crate::edges::states;
use crate::engine_desk::{Call, EngineDesk};
use crate::large::fix;
use crate::states::fresh;
use shared::random::Random;
use shared::record::descriptor;
use shared::registers::{BTT, CDMACR};
use shared::settings::{BEATS, WIDTHS};
use shared::words::{
    EngineWords, CHAIN_MODE, DESTINATION_REGISTER, FETCH, KEY_HOLE_READ, KEY_HOLE_WRITE, MOVE,
    MOVED, PHASE, SOURCE, SOURCE_REGISTER, TOTAL,
};

/// Which sides are fixed.
const SIDES: [[u32; 2]; 3] = [[1, 0], [0, 1], [1, 1]];

/// Every write of mode, key hole bits and enables in every state, then the bits read back.
pub fn control(random: &mut Random, coverage: &mut Coverage) -> Result<(), String> {
    let mut desk = EngineDesk::new(&fresh(4, 16), 0);
    for mut words in states(random) {
        for sides in [[0, 0], [1, 0], [0, 1], [1, 1]] {
            [words[KEY_HOLE_READ], words[KEY_HOLE_WRITE]] = sides;
            for bits in 0..32 {
                // Reset, mode and key hole bits, then both enables.
                let enables = (bits >> 4) * 0x5000;
                let value = (bits & 15) << 2 | enables;
                desk.set_words(&words);
                desk.call(Call::Write { offset: CDMACR, value }, coverage)?;
                desk.call(Call::Read { offset: CDMACR }, coverage)?;
            }
        }
    }
    Ok(())
}

/// Starts by BTT and by a descriptor: source, destination and count at a multiple of each width and
/// around it.
pub fn starts(_: &mut Random, coverage: &mut Coverage) -> Result<(), String> {
    for width in WIDTHS {
        let mut desk = EngineDesk::new(&fresh(width, 16), 64);
        let around = [0, 1, width / 2, width - 1, width];
        let counts = [0, 1, width - 1, width, width + 1, 6 * width, 1 << 22, MOST_BYTES, 1 << 23];
        for sides in SIDES {
            for (source, destination) in around.iter().flat_map(|at| around.map(|to| (*at, to))) {
                for count in counts {
                    start(&mut desk, width, sides, [source, destination, count], coverage)?;
                }
            }
        }
    }
    Ok(())
}

fn start(
    desk: &mut EngineDesk,
    width: u32,
    [read, write]: [u32; 2],
    [source, destination, count]: [u32; 3],
    coverage: &mut Coverage,
) -> Result<(), String> {
    let mut words = fresh(width, 16);
    [words[KEY_HOLE_READ], words[KEY_HOLE_WRITE]] = [read, write];
    let mut chain = words;
    [words[SOURCE_REGISTER], words[DESTINATION_REGISTER]] = [source, destination];
    desk.set_words(&words);
    desk.call(Call::Write { offset: BTT, value: count }, coverage)?;
    desk.put(0, &descriptor(0, source, destination, count, 0, 1));
    chain[CHAIN_MODE] = 1;
    chain[PHASE] = FETCH;
    desk.set_words(&chain);
    desk.call(Call::Step, coverage)?;
    Ok(())
}

/// A burst of these sides: source, destination, total and moved.
fn moving(
    (width, beats): (u32, u32),
    sides: [u32; 2],
    [source, destination, total, moved]: [u32; 4],
) -> EngineWords {
    let mut words = fix(fresh(width, beats), destination, sides);
    words[PHASE] = MOVE;
    words[SOURCE] = source;
    words[TOTAL] = total;
    words[MOVED] = moved;
    words
}

/// Each distance of two sides that can have bytes in common, with each part of a word and more.
pub fn overlaps(random: &mut Random, coverage: &mut Coverage) -> Result<(), String> {
    let middle = 64;
    let bytes = random.bytes(2 * middle);
    for (width, sides) in [4, 8].into_iter().flat_map(|width| SIDES.map(|sides| (width, sides))) {
        let mut desk = EngineDesk::new(&fresh(width, 2), 2 * middle as usize);
        for moved in 0..=width {
            for left in 1..=2 * width + 1 {
                for place in middle - 2 * width..=middle + 2 * width {
                    let start = |fixed: u32, at: u32| if fixed == 1 { at } else { at - moved };
                    let (source, destination) = (start(sides[0], place), start(sides[1], middle));
                    let transfer = [source, destination, moved + left, moved];
                    desk.put(0, &bytes);
                    desk.set_words(&moving((width, 2), sides, transfer));
                    desk.call(Call::Run { most: 2 }, coverage)?;
                }
            }
        }
    }
    Ok(())
}

/// One sick byte, and one end of memory, at each place around each word.
pub fn sick_words(random: &mut Random, coverage: &mut Coverage) -> Result<(), String> {
    let (source, destination) = (64, 256);
    let bytes = random.bytes(512);
    for (width, sides) in [4, 8].into_iter().flat_map(|width| SIDES.map(|sides| (width, sides))) {
        let mut desk = EngineDesk::new(&fresh(width, 4), 512);
        desk.put(0, &bytes);
        for (moved, left) in (0..width).flat_map(|moved| (1..=width).map(move |left| (moved, left)))
        {
            let words = moving((width, 4), sides, [source, destination, moved + left, moved]);
            for word in [source, destination] {
                for place in word - 1..=word + 2 * width {
                    desk.lend_windows(&[place, 1], false);
                    desk.set_words(&words);
                    desk.call(Call::Step, coverage)?;
                    desk.lend_windows(&[], false);
                    desk.lend_memory(0, place as usize, false);
                    desk.set_words(&words);
                    desk.call(Call::Step, coverage)?;
                    desk.lend_memory(0, 512, false);
                }
            }
        }
    }
    Ok(())
}

/// Two sick bytes, of one word or of both, in each part of a word that a burst can use.
pub fn two_sick_bytes(_: &mut Random, coverage: &mut Coverage) -> Result<(), String> {
    for (width, sides) in [4, 8].into_iter().flat_map(|width| SIDES.map(|sides| (width, sides))) {
        let mut desk = EngineDesk::new(&fresh(width, 4), 512);
        for (moved, left) in (0..width).flat_map(|moved| (1..=width).map(move |left| (moved, left)))
        {
            for [source, destination] in [[64, 256], [256, 64]] {
                let words = moving((width, 4), sides, [source, destination, moved + left, moved]);
                for (one, other) in (0..width).flat_map(|one| (0..width).map(move |at| (one, at))) {
                    for [first, second] in [[source; 2], [destination; 2], [source, destination]] {
                        desk.lend_windows(&[first + one, 1, second + other, 1], false);
                        desk.set_words(&words);
                        desk.call(Call::Step, coverage)?;
                    }
                }
            }
        }
    }
    Ok(())
}

/// Pieces with all settings: short of a full one, just one, and past one and three.
pub fn pieces(random: &mut Random, coverage: &mut Coverage) -> Result<(), String> {
    let room = 3 * 4096;
    let bytes = random.bytes(room);
    for (width, beats) in WIDTHS.into_iter().flat_map(|width| BEATS.map(|beats| (width, beats))) {
        let mut desk = EngineDesk::new(&fresh(width, beats), room as usize);
        let piece = width * beats.min(16);
        let queue = 4096 - width;
        for (sides, total) in SIDES.into_iter().flat_map(|sides| {
            [piece - width, piece, piece + width, 3 * piece + width].map(|total| (sides, total))
        }) {
            desk.put(0, &bytes);
            for destination in [queue, queue + 1] {
                let transfer = [128, destination, total, 0];
                desk.set_words(&moving((width, beats), sides, transfer));
                for most in [1, 2, 9] {
                    desk.call(Call::Run { most }, coverage)?;
                }
            }
        }
    }
    Ok(())
}
