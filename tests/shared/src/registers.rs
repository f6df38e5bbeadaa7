// The registers by name, and the places of the register tables.

use independent::engine::{Engine, Phase};

// Offsets.
pub const CDMACR: u32 = 0x00;
pub const CDMASR: u32 = 0x04;
pub const CURDESC: u32 = 0x08;
pub const TAILDESC: u32 = 0x10;
pub const SA: u32 = 0x18;
pub const DA: u32 = 0x20;
pub const BTT: u32 = 0x28;

// Bits of CDMACR.
pub const RESET: u32 = 1 << 2;
pub const CHAIN: u32 = 1 << 3;
pub const KEY_HOLE_READ: u32 = 1 << 4;
pub const KEY_HOLE_WRITE: u32 = 1 << 5;
pub const KEY_HOLE: u32 = KEY_HOLE_READ | KEY_HOLE_WRITE;

/// Bits of CDMACR with which an engine writes itself: its mode and its fixed sides, no enables.
pub fn kept(engine: &Engine) -> u32 {
    let bit = |set: bool, bit: u32| if set { bit } else { 0 };
    bit(engine.sg_mode, CHAIN)
        | bit(engine.key_hole_read, KEY_HOLE_READ)
        | bit(engine.key_hole_write, KEY_HOLE_WRITE)
}

/// Columns of a register table.
pub const STATES: [&str; 7] = [
    "simple idle",
    "chain idle",
    "simple move",
    "chain fetch",
    "chain move",
    "chain update",
    "error",
];

/// Rows of a register table, by offset div 4, and one for offsets that are none.
pub const REGISTERS: [&str; 12] = [
    "00 CDMACR",
    "04 CDMASR",
    "08 CURDESC",
    "0C upper",
    "10 TAILDESC",
    "14 upper",
    "18 SA",
    "1C upper",
    "20 DA",
    "24 upper",
    "28 BTT",
    "none",
];

/// There is no register at this offset.
pub fn none_at(offset: u32) -> bool {
    !offset.is_multiple_of(4) || offset > BTT
}

pub fn row(offset: u32) -> usize {
    if none_at(offset) {
        REGISTERS.len() - 1
    } else {
        offset as usize / 4
    }
}

pub fn column(engine: &Engine) -> usize {
    match (engine.in_error(), engine.phase, engine.sg_mode) {
        (true, _, _) => 6,
        (_, Phase::Idle, false) => 0,
        (_, Phase::Idle, true) => 1,
        (_, _, false) => 2,
        (_, Phase::Fetch, true) => 3,
        (_, Phase::Move(_), true) => 4,
        (_, Phase::Update(_), true) => 5,
    }
}
