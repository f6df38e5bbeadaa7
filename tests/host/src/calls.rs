// Calls on engines with any arguments: register writes that do something, and all others.

use crate::engine_desk::Call;
use crate::queues;
use crate::states::{address, count, pointer};
use shared::random::Random;
use shared::words::{EngineWords, CHAIN_MODE, KEY_HOLE_READ, KEY_HOLE_WRITE};

const REGISTERS: [u32; 7] = [0x00, 0x04, 0x08, 0x10, 0x18, 0x20, 0x28];

/// Any of the five, on an engine with these words.
pub fn any(random: &mut Random, words: &EngineWords, memory: u32) -> Call {
    match random.below(5) {
        0 => Call::Read { offset: offset(random) },
        1 => write(random, words, memory),
        2 => Call::InterruptLine,
        3 => Call::Step,
        _ => Call::Run { most: most(random) },
    }
}

pub fn read(random: &mut Random) -> Call {
    Call::Read { offset: offset(random) }
}

pub fn write(random: &mut Random, words: &EngineWords, memory: u32) -> Call {
    let offset = offset(random);
    Call::Write { offset, value: value(random, offset, words, memory) }
}

/// Offsets of registers mostly, then those up to 0x30, then any.
fn offset(random: &mut Random) -> u32 {
    match random.below(10) {
        0 => random.below(0x31),
        // A register's offset in the low bits alone is none.
        1 => random.pick(&REGISTERS) | 1 << random.between(6, 31),
        2 => random.u32(),
        3 => random.below(11) * 4,
        _ => random.pick(&REGISTERS),
    }
}

/// Mode and key hole bits of CDMACR, as they are half the time.
fn mode(random: &mut Random, words: &EngineWords) -> u32 {
    let bits = [CHAIN_MODE, KEY_HOLE_READ, KEY_HOLE_WRITE].map(|at| words[at] & 1);
    let kept = bits[0] << 3 | bits[1] << 4 | bits[2] << 5;
    match random.below(4) {
        0 => kept ^ 1 << random.between(3, 5),
        1 => random.below(8) << 3,
        _ => kept,
    }
}

/// A value that fits the register at `offset`, as often as not with any other bits.
pub fn value(random: &mut Random, offset: u32, words: &EngineWords, memory: u32) -> u32 {
    let copy = [address(random, memory), address(random, memory), count(random)];
    let [source, destination, total] = queues::fit(random, words, copy);
    let fit = match offset {
        // Reset, mode and enables; a reset is rare, or nothing goes deep.
        0x00 => {
            let reset = u32::from(random.chance(8)) << 2;
            reset | mode(random, words) | random.below(2) << 12 | random.below(2) << 14
        }
        0x04 => random.below(2) << 12 | random.below(2) << 14,
        0x08 | 0x10 => pointer(random, memory) | random.below(64),
        0x28 if random.chance(8) => random.pick(&[0, 1 << 23, 0xff80_0000]),
        0x18 => source,
        0x20 => destination,
        0x28 => total,
        _ => address(random, memory),
    };
    match offset {
        0x00 if random.chance(50) => fit | random.u32() & !(0xf << 2),
        _ if random.chance(20) => random.u32(),
        _ => fit,
    }
}

pub fn most(random: &mut Random) -> u16 {
    match random.below(8) {
        0 => 0,
        1 => 1,
        2 => u16::MAX,
        3 => random.u32() as u16,
        _ => random.between(1, 12) as u16,
    }
}
