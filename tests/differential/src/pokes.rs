// Register accesses in every state, windows, and what may come between the steps of a transfer.

use independent::engine::{Phase, Transfer};

use crate::clocks;
use crate::maker::{Maker, MEMORY};
use shared::registers::{
    kept, BTT, CDMACR, CDMASR, CHAIN, CURDESC, DA, KEY_HOLE, KEY_HOLE_READ, KEY_HOLE_WRITE, RESET,
    SA, TAILDESC,
};

/// Offsets that are no register: between two of them, past the last, and far off.
pub const BAD_OFFSETS: [u32; 14] =
    [1, 2, 3, 5, 0x27, 0x29, 0x2a, 0x2b, 0x2c, 0x30, 0x40, 0x100, 0xfffc, 0xffff];

/// One access to any register, in whatever state the engine is.
pub fn poke(maker: &mut Maker) {
    let random = &mut maker.random;
    let offset = if random.chance(92) { random.below(11) * 4 } else { random.pick(&BAD_OFFSETS) };
    if random.chance(45) {
        maker.read(offset);
        return;
    }
    let value = match offset {
        CDMACR => control_value(maker),
        CDMASR => random.pick(&[0x1000, 0x4000, 0x5000, 0, u32::MAX, !0x5000]),
        CURDESC | TAILDESC => pointer(maker),
        BTT => count_value(maker),
        _ if random.chance(20) => random.u32(),
        _ => maker.place(),
    };
    maker.write(offset, value);
}

/// A CDMACR value: seldom the reset, often one that keeps the mode and the key hole bits.
fn control_value(maker: &mut Maker) -> u32 {
    let kept = kept(maker.replay.engine());
    let random = &mut maker.random;
    let enables = random.pick(&[0, 0x1000, 0x4000, 0x5000]);
    match random.below(100) {
        0..=39 => kept | enables,
        40..=54 => (kept ^ CHAIN) | enables,
        55..=69 => (kept ^ random.pick(&[KEY_HOLE_READ, KEY_HOLE_WRITE, KEY_HOLE])) | enables,
        70..=79 => RESET | random.u32(),
        _ => random.u32() & !RESET,
    }
}

fn pointer(maker: &mut Maker) -> u32 {
    let engine = maker.replay.engine();
    let near = [engine.current, engine.tail, engine.next, engine.held_next];
    let random = &mut maker.random;
    // The low six bits are dropped: they are garbage as often as not.
    let low = if random.chance(50) { random.below(64) } else { 0 };
    let base = match random.below(100) {
        0..=49 => random.pick(&near),
        50..=89 => random.below(MEMORY / 64) * 64,
        90..=95 => MEMORY - 64 + random.below(3) * 64,
        _ => random.u32() & !63,
    };
    base | low
}

/// A BTT value: the bits above 22 are of no account, and zero is judged without them.
pub fn count_value(maker: &mut Maker) -> u32 {
    let count = maker.count();
    let random = &mut maker.random;
    match random.below(100) {
        0..=3 => 0,
        4..=7 => random.u32() & !0x7f_ffff,
        8..=30 => count | random.u32() & !0x7f_ffff,
        _ => count,
    }
}

/// A sick window over something that will be read or written, or somewhere else.
pub fn window(maker: &mut Maker) {
    let engine = maker.replay.engine();
    let (current, next, sg_mode) = (engine.current, engine.held_next, engine.sg_mode);
    let (width, fixed) = (engine.width, [engine.key_hole_read, engine.key_hole_write]);
    let ahead = match engine.phase {
        Phase::Move(transfer) => Some(transfer),
        _ => None,
    };
    let target = match (maker.random.below(100), ahead) {
        (0..=49, Some(Transfer { source, destination, total, moved })) => {
            // The first byte ahead, the last one, or any between.
            let any = maker.random.between(moved, total - 1);
            let at = maker.random.pick(&[moved, total - 1, any]);
            let (start, fixed) = maker.random.pick(&[(source, fixed[0]), (destination, fixed[1])]);
            // Past its word a fixed side must not mind it.
            let within = fixed && maker.random.chance(70);
            start.wrapping_add(if within { at % width } else { at })
        }
        (50..=64, _) if sg_mode => current + 0x1c + maker.random.below(4),
        (65..=74, _) if sg_mode => next + maker.random.below(32),
        (75..=79, _) => maker.random.below(MEMORY / 64) * 64 + maker.random.below(32),
        _ => maker.place(),
    };
    let length = match maker.random.below(100) {
        0..=9 => 0,
        10..=49 => 1,
        50..=84 => maker.random.between(2, 16),
        85..=93 => maker.random.between(17, 200),
        94..=95 => u32::MAX - maker.random.below(600),
        _ => maker.random.u32() >> maker.random.between(8, 24),
    };
    // The target is the window's first byte, its last, or next to one of them.
    let start = match maker.random.below(4) {
        0 => target,
        1 => target.wrapping_sub(length.saturating_sub(1)),
        2 => target.wrapping_add(1),
        _ => target.wrapping_sub(length),
    };
    // Windows cannot be taken back: huge ones would leave nothing to copy.
    let start = if length > 4096 { start.max(MEMORY - 2048) } else { start };
    maker.window(start, length);
}

/// Bytes put into memory: over what a transfer is about to use, or anywhere.
pub fn memory(maker: &mut Maker) {
    let engine = maker.replay.engine();
    let (current, next, sg_mode) = (engine.current, engine.held_next, engine.sg_mode);
    let length = maker.random.pick(&[1, 2, 3, 4, 8, 32, 33, 64, 100]);
    let queue = match engine.phase {
        Phase::Move(Transfer { source, .. }) if engine.key_hole_read => Some(source),
        Phase::Move(Transfer { destination, .. }) if engine.key_hole_write => Some(destination),
        _ => None,
    };
    let place = match (maker.random.below(100), queue) {
        (0..=69, Some(queue)) => queue,
        (0..=29, _) if sg_mode => current + maker.random.pick(&[0, 0x08, 0x10, 0x18, 0x1c, 0x1f]),
        (30..=49, _) if sg_mode => next + maker.random.pick(&[0, 0x08, 0x10, 0x18, 0x1c, 0x1f]),
        (50..=54, _) => MEMORY - length,
        _ => maker.place(),
    };
    let place = place.min(MEMORY - length);
    let bytes = maker.random.bytes(length);
    maker.memory(place, bytes);
}

/// Something between two steps of a transfer.
pub fn interject(maker: &mut Maker) {
    match maker.random.below(100) {
        0..=49 => poke(maker),
        50..=59 => maker.read(CDMASR),
        60..=69 => move_tail(maker),
        70..=79 => memory(maker),
        80..=88 => window(maker),
        89..=92 => clocks::some(maker),
        93..=94 => {
            let other = maker.random.u32() & !RESET;
            maker.write(CDMACR, RESET | other);
        }
        _ => maker.write(CDMASR, 0x5000),
    }
}

/// A TAILDESC write: while a chain is busy it only replaces the tail.
fn move_tail(maker: &mut Maker) {
    let tail = pointer(maker);
    maker.write(TAILDESC, tail);
}

/// Takes the engine forward in pieces, with other records between them.
pub fn run(maker: &mut Maker) {
    let restless = maker.random.chance(60);
    for _ in 0..14 {
        // Few steps leave a chain before its update: that state is used when it comes.
        let updating = matches!(maker.replay.engine().phase, Phase::Update(_));
        while restless && maker.random.chance(if updating { 75 } else { 40 }) {
            interject(maker);
        }
        if !maker.busy() || maker.ended {
            break;
        }
        let ahead = maker.steps_ahead();
        let steps = match maker.random.below(100) {
            0..=2 => 0,
            3..=49 if restless => 1,
            50..=64 if restless => maker.random.between(2, 4),
            _ if ahead > 120 && !maker.long => maker.random.between(5, 60),
            65..=69 => ahead.min(65_535),
            70..=72 if maker.replay.engine().sg_mode => maker.random.between(5, 40),
            73..=90 => 65_535,
            _ => maker.random.between(5, 60).min(ahead + 5),
        };
        maker.steps(steps as u16);
        if ahead > 120 && !maker.long && maker.random.chance(60) {
            break;
        }
    }
    if !maker.busy() && maker.random.chance(10) {
        // An idle engine takes no step, whatever is asked.
        let steps = maker.random.pick(&[0, 1, 7, 65_535]);
        maker.steps(steps);
    }
}

/// Brings the engine to idle in the wanted mode. Now and then it does not, so the next
/// accesses meet a busy engine or one in error.
pub fn ready(maker: &mut Maker, chain: bool) {
    if maker.in_error() {
        while maker.random.chance(50) {
            poke(maker);
        }
        if maker.random.chance(10) {
            return;
        }
        maker.write(CDMACR, RESET);
    }
    if maker.busy() {
        if maker.random.chance(6) {
            return;
        }
        maker.write(CDMACR, RESET);
    }
    // Fixed sides would refuse most of what comes, so they are seldom left.
    let fixed = kept(maker.replay.engine()) & KEY_HOLE != 0 && maker.random.chance(90);
    if maker.replay.engine().sg_mode != chain || fixed || maker.random.chance(10) {
        let mode = if chain { CHAIN } else { 0 };
        let enables = maker.random.pick(&[0, 0, 0x1000, 0x4000, 0x5000]);
        maker.write(CDMACR, mode | enables);
    }
}

/// After a transfer: look at the registers, and clear the interrupts.
pub fn look(maker: &mut Maker) {
    if maker.random.chance(50) {
        maker.read(CDMASR);
    }
    if maker.random.chance(20) {
        let offset = maker.random.pick(&[CDMACR, CURDESC, TAILDESC, SA, DA, BTT]);
        maker.read(offset);
    }
    if maker.random.chance(30) {
        let value = maker.random.pick(&[0x1000, 0x4000, 0x5000, 0]);
        maker.write(CDMASR, value);
        if maker.random.chance(50) {
            maker.read(CDMASR);
        }
    }
}
