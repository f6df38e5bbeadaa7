// Transfers with a fixed side: a queue at one word is drained, filled or copied to another, in simple
// mode and by chains. Near page ends, the memory's end and each other, with windows around the
// queue's word, and with a start or a count off the multiples of W.

use crate::chains::{any_next, fill_windows, places, run_along};
use crate::copies::peek;
use crate::maker::{Maker, MEMORY};
use crate::pokes::{look, ready, run, window};
use shared::bursts::{full_piece, PAGE};
use shared::record::descriptor;
use shared::registers::{
    kept, BTT, CDMACR, CHAIN, CURDESC, DA, KEY_HOLE, KEY_HOLE_READ, KEY_HOLE_WRITE, SA, TAILDESC,
};

/// Bits of CDMACR: which sides are fixed.
const SIDES: [u32; 3] = [KEY_HOLE_READ, KEY_HOLE_WRITE, KEY_HOLE];

/// Source, destination and count.
struct Copy {
    source: u32,
    destination: u32,
    count: u32,
}

/// One scene: a simple transfer, or a chain of them.
pub fn queue(maker: &mut Maker) {
    let sides = maker.random.pick(&SIDES);
    if maker.random.chance(55) {
        simple(maker, sides);
    } else {
        chain(maker, sides);
    }
}

/// Brings the engine to idle in this mode, with these sides fixed.
fn prepare(maker: &mut Maker, mode: u32, sides: u32) {
    ready(maker, mode == CHAIN);
    let enables = maker.random.pick(&[0, 0, 0x1000, 0x4000, 0x5000]);
    maker.write(CDMACR, mode | sides | enables);
    if maker.random.chance(25) {
        maker.read(CDMACR);
    }
}

/// Starts a simple transfer and runs none of it.
pub fn begin(maker: &mut Maker) {
    let sides = maker.random.pick(&SIDES);
    prepare(maker, 0, sides);
    let copy = transfer(maker, sides);
    fill(maker, &copy, sides);
    maker.start_copy(copy.source, copy.destination, copy.count);
}

fn simple(maker: &mut Maker, sides: u32) {
    prepare(maker, 0, sides);
    let mut copy = transfer(maker, sides);
    if sides == KEY_HOLE_READ && maker.random.chance(20) {
        short_bursts(maker, &mut copy);
    }
    fill(maker, &copy, sides);
    if maker.random.chance(25) {
        windows(maker, &copy, sides);
    }
    maker.write(SA, copy.source);
    maker.write(DA, copy.destination);
    let high = if maker.random.chance(15) { maker.random.u32() & !0x7f_ffff } else { 0 };
    maker.write(BTT, copy.count | high);
    if maker.random.chance(30) {
        feed(maker, &copy, sides);
    }
    run(maker);
    look(maker);
    show(maker, &copy, sides);
}

fn chain(maker: &mut Maker, sides: u32) {
    prepare(maker, CHAIN, sides);
    let length = maker.random.pick(&[1, 1, 2, 3, 4]);
    let places = places(maker, length);
    let mut last = None;
    for at in 0..places.len() {
        let next = places.get(at + 1).copied().unwrap_or_else(|| any_next(maker, &places));
        let mut copy = transfer(maker, sides);
        // A queue within a descriptor of the chain: what is written there is fetched or written over.
        if sides != KEY_HOLE_READ && maker.random.chance(12) {
            let place = maker.random.pick(&places) + maker.random.below(32);
            copy.destination = maker.aligned(place);
        }
        fill(maker, &copy, sides);
        if maker.random.chance(8) {
            windows(maker, &copy, sides);
        }
        let status = if maker.random.chance(80) { 0 } else { maker.random.u32() & 0x7fff_ffff };
        let fill = maker.random.u32();
        let Copy { source, destination, count } = copy;
        let bytes = descriptor(next, source, destination, count, status, fill);
        maker.memory(places[at], bytes);
        last = Some(copy);
    }
    maker.write(CURDESC, places[0]);
    maker.write(TAILDESC, places[places.len() - 1]);
    run_along(maker, &places);
    look(maker);
    if let Some(copy) = last {
        show(maker, &copy, sides);
    }
}

/// A transfer with these sides fixed, on the multiples of W or with one number off them.
fn transfer(maker: &mut Maker, sides: u32) -> Copy {
    let (read, write) = (sides & KEY_HOLE_READ != 0, sides & KEY_HOLE_WRITE != 0);
    let mut count = count(maker);
    // Two queues never end, and a chain of many pieces would print each.
    if read && write && count > MEMORY {
        count = maker.replay.engine().width;
    }
    let mut copy = Copy {
        source: if read { word(maker) } else { maker.sound_place(count) },
        destination: if write { word(maker) } else { maker.sound_place(count) },
        count,
    };
    if maker.random.chance(30) {
        overlap(maker, &mut copy, read, write);
    }
    let width = maker.replay.engine().width;
    if maker.random.chance(4) {
        copy.count = 0;
    }
    if maker.random.chance(14) {
        let off = maker.random.between(1, width - 1);
        match maker.random.below(3) {
            0 => copy.source = copy.source.wrapping_add(off),
            1 => copy.destination = copy.destination.wrapping_add(off),
            _ => copy.count += width - off,
        }
    }
    copy
}

/// Few words to a page's end, so that both bursts use a part of the word: with a window over the
/// other part the first one is good, or the second one if the window comes between.
fn short_bursts(maker: &mut Maker, copy: &mut Copy) {
    let width = maker.replay.engine().width;
    let first = maker.random.between(1, width - 1);
    let queue = maker.random.below(MEMORY - PAGE);
    copy.source = maker.aligned(queue);
    copy.destination = maker.random.between(1, 7) * PAGE - first;
    copy.count = maker.random.pick(&[width, width, 2 * width]);
    let other = maker.random.between(first, width - 1);
    if maker.random.chance(60) {
        maker.window(copy.source + other, 1);
    }
}

/// A multiple of W, measured in pieces so listings stay small.
fn count(maker: &mut Maker) -> u32 {
    let engine = maker.replay.engine();
    let (width, piece) = (engine.width, full_piece(engine));
    let random = &mut maker.random;
    match random.below(100) {
        0..=19 => random.between(1, 3) * width,
        20..=29 => piece - width,
        30..=39 => piece,
        40..=49 => piece + width,
        50..=79 => random.between(2, 6) * piece + random.below(3) * width,
        80..=94 => random.between(1, 3000 / width) * width,
        95..=97 => random.between(1, 16 * piece / width) * width,
        _ => 8_388_608 - random.between(1, 3) * width,
    }
}

/// A word for a queue: mostly sound, at a page's end, at the memory's end, past it, at the top.
fn word(maker: &mut Maker) -> u32 {
    let width = maker.replay.engine().width;
    let place = match maker.random.below(100) {
        0..=59 => maker.sound_place(width),
        60..=74 => maker.random.between(1, 7) * PAGE - maker.random.between(1, 2) * width,
        75..=87 => MEMORY - maker.random.between(1, 2) * width,
        88..=90 => MEMORY,
        91..=93 => u32::MAX - maker.random.below(width),
        _ => maker.place(),
    };
    maker.aligned(place)
}

/// Lets both sides have bytes in common.
fn overlap(maker: &mut Maker, copy: &mut Copy, read: bool, write: bool) {
    let shift = maker.random.below(copy.count.clamp(1, 600));
    match (read, write) {
        (true, true) => copy.source = copy.destination,
        (true, false) => copy.destination = copy.source.saturating_sub(shift),
        _ => copy.source = copy.destination.saturating_sub(shift),
    }
}

/// Puts bytes where the source is.
fn fill(maker: &mut Maker, copy: &Copy, sides: u32) {
    let bytes = if sides & KEY_HOLE_READ == 0 { copy.count } else { maker.replay.engine().width };
    put(maker, copy.source, bytes.min(1024));
}

fn put(maker: &mut Maker, place: u32, count: u32) {
    let count = count.min(MEMORY.saturating_sub(place));
    if count > 0 {
        let bytes = maker.random.bytes(count);
        maker.memory(place, bytes);
    }
}

/// Steps between which the queue is filled anew, as a sensor would; and what may come beside it.
fn feed(maker: &mut Maker, copy: &Copy, sides: u32) {
    let width = maker.replay.engine().width;
    for _ in 0..maker.random.between(1, 4) {
        maker.steps(1);
        if !maker.busy() {
            break;
        }
        let queue = if sides & KEY_HOLE_READ != 0 { copy.source } else { copy.destination };
        match maker.random.below(10) {
            0 => window(maker),
            1 => windows(maker, copy, sides),
            2..=4 => control(maker),
            _ => put(maker, queue, width),
        }
    }
}

/// Writes CDMACR with the key hole bits as they are or with one of them changed, and reads it back.
fn control(maker: &mut Maker) {
    let kept = kept(maker.replay.engine());
    let change = maker.random.pick(&[0, KEY_HOLE_READ, KEY_HOLE_WRITE, KEY_HOLE, CHAIN]);
    let enables = maker.random.pick(&[0, 0x1000, 0x4000, 0x5000]);
    maker.write(CDMACR, kept ^ change | enables);
    maker.read(CDMACR);
}

/// A window at an end of a queue's word, next to it, or where the side would go if it incremented.
fn windows(maker: &mut Maker, copy: &Copy, sides: u32) {
    let width = maker.replay.engine().width;
    let queue = match sides {
        KEY_HOLE_READ => copy.source,
        KEY_HOLE_WRITE => copy.destination,
        _ => maker.random.pick(&[copy.source, copy.destination]),
    };
    let within = maker.random.below(width);
    let further = maker.random.between(width, copy.count.clamp(width, 4096));
    let (shift, length) = maker.random.pick(&[
        (0, 1),
        (width - 1, 1),
        (within, 1),
        (width, 1),
        (width, 40),
        (further, 1),
        (further, 9),
    ]);
    fill_windows(maker);
    if maker.random.chance(15) {
        let length = maker.random.between(1, 9);
        maker.window(queue.wrapping_sub(length), length);
    } else {
        maker.window(queue.wrapping_add(shift), length);
    }
}

/// Shows words of what was written: a listing never prints a byte of memory.
fn show(maker: &mut Maker, copy: &Copy, sides: u32) {
    let width = maker.replay.engine().width;
    if maker.random.chance(55) {
        return;
    }
    for _ in 0..maker.random.between(1, 3) {
        let reach = if sides & KEY_HOLE_WRITE == 0 { copy.count.min(600) } else { width };
        let within = maker.random.below(reach.max(1));
        let shift = maker.random.pick(&[0, reach.saturating_sub(4), within]);
        let about = if maker.random.chance(80) { 0 } else { maker.random.below(5) };
        peek(maker, copy.destination.wrapping_add(shift).wrapping_sub(about));
    }
}
