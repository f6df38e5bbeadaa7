// Chains of descriptors: sound ones, damaged ones, chains that deliver their own descriptors, and
// restarts after the tail.

use crate::copies::{copy, peek};
use crate::maker::{Maker, MEMORY};
use crate::pokes::{look, ready, run, window};
use independent::memory::MOST_WINDOWS;
use shared::record::descriptor;
use shared::registers::{CDMACR, CHAIN, CURDESC, RESET, TAILDESC};

/// What is wrong with a descriptor.
#[derive(Clone, Copy, PartialEq, Eq)]
enum Damage {
    Nothing,
    Stale,
    NoCount,
    NextNowhere,
    NextItself,
    Wild,
    Windowed,
}

/// Builds a chain of one or more stretches, then runs it stretch by stretch: each restart goes on
/// at the next pointer of the finished tail.
pub fn chain(maker: &mut Maker) {
    ready(maker, true);
    let stretches = maker.random.pick(&[1, 1, 1, 2, 3]);
    let length = stretches * maker.random.pick(&[1, 1, 2, 3, 4]);
    let places = places(maker, length);
    build(maker, &places);
    let low = maker.random.below(64);
    maker.write(CURDESC, places[0] | low);
    let each = places.len() / stretches as usize;
    for stretch in 1..=stretches as usize {
        let tail = if maker.random.chance(85) {
            places[stretch * each - 1]
        } else {
            maker.random.pick(&places)
        };
        let low = maker.random.below(64);
        maker.write(TAILDESC, tail | low);
        run_along(maker, &places);
        look(maker);
        if maker.ended || maker.busy() || maker.in_error() {
            break;
        }
        if stretch < stretches as usize && maker.random.chance(25) {
            // Changing the mode clears no pointer: the restart goes on where the chain stood.
            maker.write(CDMACR, 0);
            if maker.random.chance(50) {
                copy(maker);
            }
            if !maker.busy() && !maker.in_error() {
                maker.write(CDMACR, CHAIN);
            }
        }
    }
    if maker.random.chance(35) {
        // Status words and the destination of a descriptor, seen from outside.
        let place = maker.random.pick(&places);
        let word = maker.random.pick(&[0x1c, 0x1c, 0x1b, 0x1d, 0x10]);
        peek(maker, place + word);
    }
}

/// Builds a chain, starts it and runs none of it; gives its places.
pub fn begin(maker: &mut Maker) -> Vec<u32> {
    ready(maker, true);
    let length = maker.random.between(1, 4);
    let places = places(maker, length);
    build(maker, &places);
    maker.write(CURDESC, places[0]);
    maker.write(TAILDESC, places[places.len() - 1]);
    places
}

/// Distinct places, in any order.
pub fn places(maker: &mut Maker, length: u32) -> Vec<u32> {
    let mut places: Vec<u32> = Vec::new();
    // The last place of memory too: a descriptor there ends 32 bytes before the memory does.
    if maker.random.chance(5) {
        places.push(MEMORY - 64);
    }
    let near = maker.random.below(MEMORY / 64 - 32) * 64;
    let close = maker.random.chance(60);
    while places.len() < length as usize {
        let place =
            if close { near + maker.random.below(32) * 64 } else { maker.descriptor_place() };
        if !places.contains(&place) {
            places.push(place);
        }
    }
    places
}

/// Puts the descriptors into memory, all sound or one of them damaged.
fn build(maker: &mut Maker, places: &[u32]) {
    let damage = match maker.random.below(100) {
        0..=49 => Damage::Nothing,
        50..=57 => Damage::Stale,
        58..=65 => Damage::NoCount,
        66..=72 => Damage::NextNowhere,
        73..=78 => Damage::NextItself,
        79..=90 => Damage::Wild,
        _ => Damage::Windowed,
    };
    let victim = maker.random.below(places.len() as u32) as usize;
    let delivered = places.len() > 1 && maker.random.chance(25);
    for at in 0..places.len() {
        let next = match places.get(at + 1) {
            Some(&next) => next,
            None => any_next(maker, places),
        };
        let damage = if at == victim { damage } else { Damage::Nothing };
        let bytes = one(maker, places[at], next, damage);
        if delivered && at + 1 < places.len() && maker.random.chance(60) {
            deliver(maker, places[at], next, places.get(at + 2).copied().unwrap_or(next));
        } else {
            maker.memory(places[at], bytes);
        }
    }
}

/// The next pointer of the last descriptor.
pub fn any_next(maker: &mut Maker, places: &[u32]) -> u32 {
    match maker.random.below(4) {
        0 => places[0],
        1 => maker.descriptor_place(),
        2 => 0,
        _ => maker.random.u32(),
    }
}

/// The bytes of one descriptor.
fn one(maker: &mut Maker, place: u32, next: u32, damage: Damage) -> Vec<u8> {
    let mut count = maker.count();
    if count > 40 * maker.unit() && maker.random.chance(80) {
        count = maker.random.between(1, 2 * maker.unit());
    }
    let mut source = maker.sound_place(count);
    let mut destination = match maker.random.below(100) {
        // Overlapping its source.
        0..=19 => maker.around(source, count.min(40)),
        // Over itself: its status word too, before the update writes it.
        20..=24 => maker.around(place, 40),
        _ => maker.sound_place(count),
    };
    let mut next = next;
    // Status bits other than 31 do not make a descriptor stale.
    let mut status = if maker.random.chance(70) { 0 } else { maker.random.u32() & 0x7fff_ffff };
    match damage {
        Damage::Nothing => {}
        Damage::Stale => {
            status = 0x8000_0000 | maker.random.u32();
            // Another fault beside it shows which is judged first.
            match maker.random.below(5) {
                0 => count = 0,
                1 => {
                    let start = place + maker.random.below(32);
                    maker.window(start, 1);
                }
                _ => {}
            }
        }
        Damage::NoCount => count = 0,
        Damage::NextNowhere => {
            next = maker.random.pick(&[MEMORY, MEMORY + 64, 0xffff_ffc0, 0x8000_0000]);
        }
        Damage::NextItself => next = place,
        Damage::Wild => {
            source = maker.place();
            destination = maker.place();
        }
        Damage::Windowed => {
            let at = maker.random.below(count.clamp(1, 200));
            let start = match maker.random.below(3) {
                0 => place + at % 32,
                1 => source.wrapping_add(at),
                _ => destination.wrapping_add(at),
            };
            fill_windows(maker);
            maker.window(start, 1);
        }
    }
    // The low six bits of next, the control bits above 22 and the upper halves are of no account.
    let low = if maker.random.chance(30) { maker.random.below(64) } else { 0 };
    let high = if maker.random.chance(30) { maker.random.u32() & !0x7f_ffff } else { 0 };
    let fill = if maker.random.chance(50) { maker.random.u32() } else { 0 };
    descriptor(next | low, source, destination, count | high, status, fill)
}

/// A descriptor at `place` that copies the next descriptor to where it will be fetched, so
/// what was moved decides what the chain does then.
fn deliver(maker: &mut Maker, place: u32, next: u32, after: u32) {
    let cargo = one(maker, next, after, Damage::Nothing);
    let template = maker.sound_place(40) & !3;
    if !maker.sound(template, 32) {
        return;
    }
    maker.memory(template, cargo);
    let fill = maker.random.u32();
    maker.memory(place, descriptor(next, template, next, 32, 0, fill));
}

/// A window over part of the status word, or next to it.
fn sick_status(maker: &mut Maker) {
    if maker.random.chance(25) {
        window(maker);
        return;
    }
    let status = maker.replay.engine().current + 0x1c;
    // Over one end of the word alone, so the other bytes can still be seen: an update that
    // fails leaves them as they were.
    let (start, length) = maker.random.pick(&[
        (status, 1),
        (status + 3, 1),
        (status - 7, 8),
        (status + 3, 9),
        (status - 1, 1),
        (status + 4, 1),
        (status + 1, 2),
    ]);
    fill_windows(maker);
    maker.window(start, length);
    run(maker);
    peek(maker, status + 1);
    peek(maker, status - 1);
}

/// Now and then fifteen windows that matter to nothing, so the sixteenth decides.
pub fn fill_windows(maker: &mut Maker) {
    if maker.random.chance(20) {
        while maker.replay.windows().len() + 1 < MOST_WINDOWS && !maker.ended {
            let start = maker.random.below(2 * MEMORY);
            maker.window(start, 0);
        }
    }
}

/// Runs a chain; in between, its own tail may be moved along it, and windows may come over it.
pub fn run_along(maker: &mut Maker, places: &[u32]) {
    match maker.random.below(100) {
        0..=24 => {
            for _ in 0..maker.random.between(1, 5) {
                if !maker.busy() {
                    break;
                }
                let steps = maker.random.between(1, 4) as u16;
                maker.steps(steps);
                if maker.busy() {
                    let tail = maker.random.pick(places);
                    maker.write(TAILDESC, tail);
                }
            }
        }
        25..=34 => {
            // A window over the status word: after the fetch, or the fetch would meet it.
            maker.steps(1);
            if maker.busy() {
                sick_status(maker);
            }
        }
        35..=37 => {
            let steps = maker.random.between(0, 3) as u16;
            maker.steps(steps);
            maker.write(CDMACR, RESET | CHAIN);
        }
        _ => {}
    }
    run(maker);
}
