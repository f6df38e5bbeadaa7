// Transfers that fail, for the place in their fault line: a side past the memory's end or over it,
// windows over one side or both, several of them, and one trouble beside the other. Sides increment
// or are fixed, in simple mode and by descriptors.

use crate::chains::fill_windows;
use crate::maker::{Maker, MEMORY};
use crate::pokes::{look, ready, run};
use shared::bursts::{full_piece, PAGE};
use shared::record::descriptor;
use shared::registers::{
    CDMACR, CHAIN, CURDESC, KEY_HOLE, KEY_HOLE_READ, KEY_HOLE_WRITE, TAILDESC,
};

/// A transfer, and how its sides go on.
struct Copy {
    source: u32,
    destination: u32,
    count: u32,
    /// Key hole bits of CDMACR.
    sides: u32,
}

/// What is wrong with a side.
#[derive(Clone, Copy, PartialEq, Eq)]
enum Trouble {
    Nothing,
    Sick,
    Past,
}

/// One scene.
pub fn fault(maker: &mut Maker) {
    let sides = maker.random.pick(&[0, 0, 0, KEY_HOLE_READ, KEY_HOLE_WRITE, KEY_HOLE]);
    if sides == KEY_HOLE_READ && maker.random.chance(60) {
        go_round(maker);
    } else {
        start(maker, sides);
        if maker.random.chance(75) {
            maker.steps(99);
        } else {
            run(maker);
        }
    }
    look(maker);
}

/// Starts such a transfer and runs none of it.
pub fn begin(maker: &mut Maker) {
    let sides = maker.random.pick(&[0, 0, 0, KEY_HOLE_READ, KEY_HOLE_WRITE, KEY_HOLE]);
    start(maker, sides);
}

fn start(maker: &mut Maker, sides: u32) {
    let mode = mode(maker, sides);
    let mut copy = good_copy(maker, sides);
    use Trouble::{Nothing, Past, Sick};
    let [source, destination] = match maker.random.below(100) {
        0..=17 => [Sick, Nothing],
        18..=35 => [Nothing, Sick],
        36..=57 => [Sick, Sick],
        58..=65 => [Past, Nothing],
        66..=73 => [Nothing, Past],
        74..=81 => [Past, Past],
        82..=88 => [Past, Sick],
        89..=95 => [Sick, Past],
        _ => [Nothing, Nothing],
    };
    if source == Past {
        copy.source = past_the_end(maker, &copy, sides & KEY_HOLE_READ != 0);
        // A lower byte of the same side may be sick.
        let inside = MEMORY.saturating_sub(copy.source);
        if inside > 0 && maker.random.chance(40) {
            cover(maker, copy.source, inside);
        }
    }
    if destination == Past {
        copy.destination = past_the_end(maker, &copy, sides & KEY_HOLE_WRITE != 0);
    }
    if maker.random.chance(5) {
        fill_windows(maker);
    }
    let mut covered = Vec::new();
    if source == Sick {
        covered.push((copy.source, sides & KEY_HOLE_READ != 0));
    }
    if destination == Sick {
        covered.push((copy.destination, sides & KEY_HOLE_WRITE != 0));
    }
    if maker.random.chance(50) {
        covered.reverse();
    }
    for (start, fixed) in covered {
        let reach = reach(maker, &copy, fixed);
        cover(maker, start, reach);
    }
    begin_copy(maker, mode, &copy);
}

/// Brings the engine to idle in either mode with these sides fixed, and gives the mode.
fn mode(maker: &mut Maker, sides: u32) -> u32 {
    let mode = maker.random.pick(&[0, CHAIN]);
    ready(maker, mode == CHAIN);
    maker.write(CDMACR, mode | sides);
    mode
}

/// A transfer of few bursts within memory, on the multiples of W where a side is fixed.
fn good_copy(maker: &mut Maker, sides: u32) -> Copy {
    let (width, unit) = (maker.replay.engine().width, maker.unit());
    let mut count = match maker.random.below(4) {
        0 => maker.random.between(1, 3) * width,
        1 => unit.min(2048),
        2 => maker.random.between(1, 2 * unit.min(1024)),
        _ => maker.random.between(1, 60),
    };
    if sides != 0 {
        count = maker.aligned(count).max(width);
    }
    let mut places = [(); 2].map(|()| maker.anywhere(count));
    if maker.random.chance(15) {
        // Both near each other, so one window is over both.
        places[1] = places[0].saturating_sub(maker.random.below(count.min(64)));
    }
    for (place, fixed) in places.iter_mut().zip([KEY_HOLE_READ, KEY_HOLE_WRITE]) {
        if sides & fixed != 0 {
            *place = maker.aligned(*place);
        }
    }
    let [source, destination] = places;
    Copy { source, destination, count, sides }
}

/// How far the windows may lie: mostly within the first burst.
fn reach(maker: &mut Maker, copy: &Copy, fixed: bool) -> u32 {
    let engine = maker.replay.engine();
    if fixed {
        return engine.width;
    }
    let piece = full_piece(engine);
    let first = if copy.sides & KEY_HOLE_WRITE != 0 { piece } else { maker.unit() };
    if maker.random.chance(70) {
        copy.count.min(first)
    } else {
        copy.count
    }
}

/// A start from which a side is past the memory's end, or runs past it.
fn past_the_end(maker: &mut Maker, copy: &Copy, fixed: bool) -> u32 {
    let place = match maker.random.below(10) {
        0..=4 if !fixed => MEMORY - maker.random.below(copy.count.min(maker.unit())),
        0..=2 => MEMORY,
        3..=6 => MEMORY + maker.random.below(500),
        7..=8 => u32::MAX - maker.random.below(250),
        _ => maker.random.u32() | MEMORY,
    };
    if fixed {
        maker.aligned(place)
    } else {
        place
    }
}

/// Windows over some of the `reach` bytes from `start` on.
fn cover(maker: &mut Maker, start: u32, reach: u32) {
    let within = maker.random.below(reach);
    let low = start + maker.random.pick(&[0, within, within, reach - 1]);
    let above = low + maker.random.below(reach - (low - start));
    let few = maker.random.between(1, 9);
    match maker.random.below(10) {
        0 => maker.window(low, 1),
        1 => maker.window(low, few),
        // From before the side on.
        2 => maker.window(start.saturating_sub(few), few + low - start + 1),
        // The higher one first, and the other way round.
        3 => {
            maker.window(above, few);
            maker.window(low, 1);
        }
        4 => {
            maker.window(low, 1);
            maker.window(above, few);
        }
        // One within the other, which starts lower.
        5 => {
            maker.window(low, few);
            maker.window(low.saturating_sub(few), 3 * few);
        }
        6 => {
            maker.window(low.saturating_sub(few), 3 * few);
            maker.window(low, few);
        }
        7 => {
            maker.window(low, 0);
            maker.window(start, 0);
            maker.window(low, few);
        }
        // Huge ones stay for all that comes, so they start near the memory's end.
        8 if low >= MEMORY - PAGE => {
            let length = maker.random.pick(&[MEMORY - low + few, u32::MAX - few, u32::MAX]);
            maker.window(low, length);
        }
        _ => maker.window(low, few),
    }
}

/// A register start, or a chain of one descriptor, or of a good one and this.
fn begin_copy(maker: &mut Maker, mode: u32, copy: &Copy) {
    let Copy { source, destination, count, .. } = *copy;
    if mode != CHAIN {
        maker.start_copy(source, destination, count);
        return;
    }
    let width = maker.replay.engine().width;
    let tail = maker.descriptor_place();
    let fill = maker.random.u32();
    maker.memory(tail, descriptor(tail, source, destination, count, 0, fill));
    let mut first = tail;
    if maker.random.chance(30) {
        let before = maker.descriptor_place();
        let [from, to] = [(); 2].map(|()| {
            let place = maker.sound_place(width);
            maker.aligned(place)
        });
        if before != tail {
            maker.memory(before, descriptor(tail, from, to, width, 0, fill));
            first = before;
        }
    }
    maker.write(CURDESC, first);
    maker.write(TAILDESC, tail);
}

/// A fixed source whose first burst ends with a page within its word: the second one goes round the
/// word, from the midst to its end and on from its start, or ends with the word and misses the first
/// part. Windows come between them, or the first burst would meet those that are over its part.
fn go_round(maker: &mut Maker) {
    let mode = mode(maker, KEY_HOLE_READ);
    let width = maker.replay.engine().width;
    let first = maker.random.between(1, width - 1);
    let source = maker.anywhere(width);
    let copy = Copy {
        source: maker.aligned(source),
        destination: maker.random.between(1, 7) * PAGE - first,
        count: maker.random.between(1, 4) * width,
        sides: KEY_HOLE_READ,
    };
    begin_copy(maker, mode, &copy);
    maker.steps(if mode == CHAIN { 2 } else { 1 });
    let front = copy.source + maker.random.between(first, width - 1);
    let back = copy.source + maker.random.below(first);
    match maker.random.below(6) {
        0 => maker.window(front, 1),
        1 => maker.window(copy.source, width),
        2 => {
            maker.window(back, 1);
            maker.window(front, 1);
        }
        3 => maker.window(back, 1),
        _ => {
            maker.window(front, 1);
            maker.window(back, 1);
        }
    }
    maker.steps(99);
}
