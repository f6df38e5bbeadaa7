// Two engines on one memory: both under way at once, their steps in turns, and what one of them does
// to the bytes, the descriptors and the status words that the other uses.

use independent::engine::{Phase, Transfer};

use crate::copies::peek;
use crate::families::play;
use crate::maker::{Maker, MEMORY};
use crate::pokes::{interject, look, poke, ready, run};
use crate::{chains, faults, queues};
use shared::record::descriptor;
use shared::registers::{kept, BTT, CDMACR, CDMASR, CHAIN, CURDESC, DA, RESET, SA, TAILDESC};

/// One scene.
pub fn pair(maker: &mut Maker) {
    maker.meddling = maker.random.pick(&[0, 8, 25]);
    if maker.random.chance(50) {
        maker.take_turns();
    }
    match maker.random.below(100) {
        0..=34 => {
            begin(maker);
            maker.take_turns();
            begin(maker);
            alternate(maker);
        }
        35..=54 => {
            // A whole scene of one engine while the other is under way.
            begin(maker);
            maker.take_turns();
            play(maker);
            maker.take_turns();
            run(maker);
            look(maker);
        }
        55..=84 => {
            begin(maker);
            maker.take_turns();
            cross(maker);
        }
        _ => twins(maker),
    }
}

/// A record of the engine that is not in turn: mostly a few of its steps.
pub fn meddle(maker: &mut Maker) {
    maker.take_turns();
    match maker.random.below(100) {
        0..=74 if maker.busy() => {
            let steps = maker.random.between(1, 3) as u16;
            maker.steps(steps);
        }
        0..=9 => {
            let steps = maker.random.pick(&[0, 1, 65_535]);
            maker.steps(steps);
        }
        10..=84 => {
            let offset =
                maker.random.pick(&[CDMACR, CDMASR, CDMASR, CURDESC, TAILDESC, SA, DA, BTT]);
            maker.read(offset);
        }
        _ => poke(maker),
    }
    maker.take_turns();
}

/// An address that the other engine reads or writes, now or before.
pub fn place(maker: &mut Maker) -> u32 {
    let other = maker.other().expect("two engines");
    let (current, next, phase) = (other.current, other.held_next, other.phase);
    let random = &mut maker.random;
    match (random.below(100), phase) {
        (0..=59, Phase::Move(Transfer { source, destination, total, moved })) => {
            let any = random.between(moved, total - 1);
            let at = random.pick(&[moved, total - 1, any, moved / 2]);
            let start = random.pick(&[source, source, destination]);
            maker.around(start.wrapping_add(at), 8)
        }
        (0..=79, _) => current.wrapping_add(random.pick(&[0, 0x08, 0x10, 0x18, 0x1c, 0x1c, 0x1f])),
        _ => next.wrapping_add(random.pick(&[0, 0x08, 0x10, 0x18, 0x1c, 0x1f])),
    }
}

/// Starts something of several steps on the engine in turn.
fn begin(maker: &mut Maker) {
    match maker.random.below(12) {
        0..=3 => {
            ready(maker, false);
            let count = (maker.random.between(2, 8) * maker.unit()).min(6000);
            let (source, destination) = (maker.sound_place(count), maker.sound_place(count));
            maker.start_copy(source, destination, count);
        }
        4..=7 => {
            chains::begin(maker);
        }
        8..=9 => queues::begin(maker),
        _ => faults::begin(maker),
    }
}

/// Steps of both in turns, few at a time, with other records between; then each to its end.
fn alternate(maker: &mut Maker) {
    for _ in 0..maker.random.between(4, 14) {
        if maker.random.chance(75) {
            maker.take_turns();
        }
        let steps = maker.random.pick(&[0, 1, 1, 1, 1, 2, 2, 3, 5]);
        maker.steps(steps);
        match maker.random.below(100) {
            0..=24 => interject(maker),
            25..=34 => maker.read(CDMASR),
            35..=38 => maker.write(CDMACR, RESET),
            _ => {}
        }
        let other_idle = maker.other().is_none_or(|other| other.idle());
        if maker.ended || !maker.busy() && other_idle {
            break;
        }
    }
    for _ in 0..2 {
        maker.take_turns();
        run(maker);
        look(maker);
    }
}

/// A transfer over what the other engine uses, or out of it, and what came of that.
fn cross(maker: &mut Maker) {
    if maker.random.chance(40) {
        // The other one's first fetch is behind it, so it has a transfer or a status word ahead.
        maker.take_turns();
        let steps = maker.random.between(1, 3) as u16;
        maker.steps(steps);
        maker.take_turns();
    }
    ready(maker, false);
    let met = place(maker);
    match maker.random.below(100) {
        0..=29 => redirect(maker),
        30..=69 => {
            let count = maker.random.pick(&[1, 4, 4, 32, 60]);
            let source = maker.sound_place(count);
            let bytes = maker.random.bytes(count);
            maker.memory(source.min(MEMORY - count), bytes);
            maker.start_copy(source, met, count);
        }
        _ => {
            let count = maker.random.pick(&[4, 32, 60, 300]);
            let destination = maker.sound_place(count);
            maker.start_copy(met, destination, count);
        }
    }
    alternate(maker);
    if maker.random.chance(60) {
        peek(maker, met);
    }
}

/// Writes a descriptor over the one that the other engine fetches next: it fails on its source or on
/// its destination, and the place in its fault line shows which of the two was fetched.
fn redirect(maker: &mut Maker) {
    let other = maker.other().expect("two engines");
    let place = if other.phase == Phase::Fetch { other.current } else { other.held_next };
    let next = if maker.random.chance(50) { place } else { maker.descriptor_place() };
    let past_the_end = maker.random.u32() | MEMORY;
    let (source, destination) = if maker.random.chance(50) {
        (past_the_end, maker.random.u32())
    } else {
        (maker.sound_place(2), past_the_end)
    };
    let cargo = maker.anywhere(32);
    maker.memory(cargo, descriptor(next, source, destination, 2, 0, 0));
    maker.start_copy(cargo, place, 32);
}

/// One chain for both engines: what one of them has completed is stale to the other.
fn twins(maker: &mut Maker) {
    let places = chains::begin(maker);
    let kept = kept(maker.replay.engine());
    maker.take_turns();
    ready(maker, true);
    if kept != CHAIN && maker.random.chance(50) {
        maker.write(CDMACR, kept | CHAIN);
    }
    let first = maker.random.pick(&[places[0], places[0], places[places.len() - 1]]);
    maker.write(CURDESC, first);
    maker.write(TAILDESC, places[places.len() - 1]);
    alternate(maker);
}
