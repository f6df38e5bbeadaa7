// Simple transfers, and a way to see memory: the listing never prints a byte of it, but a burst of
// one byte from a good source prints its destination, be it moved or failed. So a word is copied
// there, and a wrong copy shows.

use crate::maker::{Maker, MEMORY};
use crate::pokes::{count_value, look, ready, run};
use shared::record::descriptor;
use shared::registers::{kept, BTT, CDMACR, CHAIN, CURDESC, DA, RESET, SA, TAILDESC};

/// One simple transfer, mostly sound.
pub fn copy(maker: &mut Maker) {
    ready(maker, false);
    let value = count_value(maker);
    let count = value & 0x7f_ffff;
    let (source, destination) = ends(maker, count);
    let filled = count.min(1024).min(MEMORY.saturating_sub(source));
    if maker.random.chance(60) && filled > 0 {
        let bytes = maker.random.bytes(filled);
        maker.memory(source, bytes);
    }
    // SA and DA keep their values, so now and then one of them is left as it was.
    if maker.random.chance(93) {
        maker.write(SA, source);
    }
    if maker.random.chance(93) {
        maker.write(DA, destination);
    }
    maker.write(BTT, value);
    run(maker);
    look(maker);
    if maker.random.chance(35) {
        let last = destination.wrapping_add(count.min(600));
        for _ in 0..maker.random.between(1, 2) {
            let word = match maker.random.below(4) {
                0 => destination.wrapping_sub(maker.random.below(4)),
                1 => last.wrapping_sub(maker.random.below(5)),
                _ => destination.wrapping_add(maker.random.below(count.clamp(1, 600))),
            };
            peek(maker, word);
        }
    }
}

/// Source and destination of a copy of `count` bytes.
fn ends(maker: &mut Maker, count: u32) -> (u32, u32) {
    match maker.random.below(100) {
        0..=44 => (maker.sound_place(count), maker.sound_place(count)),
        45..=74 => {
            // Overlapping: by few bytes or by nearly all, upward or downward.
            let shift = if maker.random.chance(50) {
                maker.random.between(1, 9)
            } else {
                maker.random.between(1, count.max(1))
            };
            let low = maker.sound_place(count.saturating_add(shift));
            let high = low.wrapping_add(shift);
            if maker.random.chance(60) {
                (low, high)
            } else {
                (high, low)
            }
        }
        75..=77 => {
            let place = maker.sound_place(count);
            (place, place)
        }
        78..=83 => {
            // Over the memory's end: what lies before it stays as it was.
            let over = MEMORY - maker.random.between(1, count.clamp(1, 40));
            let other = maker.sound_place(count);
            if maker.random.chance(60) {
                (other, over)
            } else {
                (over, other)
            }
        }
        _ => (maker.place(), maker.place()),
    }
}

/// Shows the word at `address` as the destination of a descriptor for one byte. Its source is good,
/// or the fault would name that.
pub fn peek(maker: &mut Maker, address: u32) {
    if !maker.sound(address, 4) {
        return;
    }
    let place = maker.descriptor_place();
    if !maker.sound(place, 32) || (address + 4 > place && address < place + 32) {
        return;
    }
    if maker.busy() || maker.in_error() || kept(maker.replay.engine()) != 0 {
        maker.write(CDMACR, RESET);
    }
    let fill = maker.random.u32();
    maker.memory(place, descriptor(0, address, 0, 1, 0, fill));
    maker.start_copy(address, place + 0x10, 4);
    maker.steps(1);
    maker.write(CDMACR, CHAIN);
    maker.write(CURDESC, place);
    maker.write(TAILDESC, place);
    maker.steps(9);
    maker.write(CDMACR, RESET);
}

/// One copy whose listing has hundreds or thousands of lines, if the settings are narrow.
pub fn long_copy(maker: &mut Maker) {
    maker.long = true;
    ready(maker, false);
    let count = maker.random.between(5_000, 16_000);
    let (source, destination) = (maker.anywhere(count), maker.anywhere(count));
    maker.start_copy(source, destination, count);
    maker.steps(65_535);
    look(maker);
    peek(maker, destination + count - 4);
    maker.long = false;
}
