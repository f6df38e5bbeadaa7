// Traces of a given number of records, to measure the speed of a replay program with.

use crate::clocks;
use crate::families::{play, FIXED};
use crate::maker::{Maker, MEMORY};
use shared::random::Random;
use shared::record::descriptor;
use shared::registers::{CDMACR, CHAIN, CURDESC, TAILDESC};

/// The kinds of traces.
pub const KINDS: [&str; 4] = ["mixed", "bus", "copies", "chains"];

/// A trace of exactly `count` good records.
pub fn make(kind: &str, count: usize) -> Vec<u8> {
    let mut maker = Maker::new(Random::new(FIXED, 0));
    maker.dense = true;
    maker.most = count;
    maker.settings(4, 16);
    if kind == "chains" {
        maker.write(CDMACR, CHAIN);
        maker.write(CURDESC, 0);
    }
    while !maker.ended {
        match kind {
            "bus" => clocks::some(&mut maker),
            "copies" => copy(&mut maker),
            "chains" => chain(&mut maker),
            _ => play(&mut maker),
        }
    }
    maker.bytes
}

/// A sound copy of some hundred bytes.
fn copy(maker: &mut Maker) {
    let count = maker.random.between(1, 512);
    let (source, destination) = (maker.anywhere(count), maker.anywhere(count));
    maker.start_copy(source, destination, count);
    maker.steps(20);
}

/// Descriptors of a ring in the first 1,024 bytes.
const RING: u32 = 16;

/// Fills the ring anew with one record, then runs it once: the restart goes on at its first place.
fn chain(maker: &mut Maker) {
    let mut bytes = Vec::new();
    for at in 0..RING {
        let next = (at + 1) % RING * 64;
        let count = maker.random.between(1, 200);
        let source = maker.random.between(1024, MEMORY - count);
        let destination = maker.random.between(1024, MEMORY - count);
        bytes.extend(descriptor(next, source, destination, count, 0, 0));
        bytes.extend([0; 32]);
    }
    maker.memory(0, bytes);
    maker.write(TAILDESC, (RING - 1) * 64);
    maker.steps(1000);
}
