// Single cases of faults, for the catalogue: every kind and side, windows that overlap, the memory's
// end, fixed sides and those that are gone round; each by BTT and by a descriptor, and by two engines.

use crate::maker::{Record, MEMORY};
use shared::record::{descriptor, encode_for};
use shared::registers::{
    BTT, CDMACR, CDMASR, CHAIN, CURDESC, DA, KEY_HOLE, KEY_HOLE_READ, KEY_HOLE_WRITE, RESET, SA,
    TAILDESC,
};

/// Key hole bits; source, destination and count; windows.
type Scene = (u32, [u32; 3], &'static [(u32, u32)]);

/// W=4 and L=16, so a burst of an aligned destination has up to 64 bytes.
const SCENES: &[Scene] = &[
    // One side sick, at its first byte, within it and at its last.
    (0, [1024, 2048, 16], &[(1024, 1)]),
    (0, [1024, 2048, 16], &[(1030, 2)]),
    (0, [1024, 2048, 16], &[(1039, 1)]),
    (0, [1024, 2048, 16], &[(2048, 1)]),
    (0, [1024, 2048, 16], &[(2055, 3)]),
    (0, [1024, 2048, 16], &[(2063, 9)]),
    // Both sides sick: the source's, even if it is the higher one.
    (0, [1024, 2048, 16], &[(2050, 1), (1030, 1)]),
    (0, [2048, 1024, 16], &[(1026, 1), (2060, 1)]),
    (0, [2048, 1024, 16], &[(2060, 1), (1026, 1)]),
    (0, [2048, 1024, 16], &[(1000, 2000)]),
    (0, [1032, 1024, 16], &[(1024, 16)]),
    (0, [1024, 1032, 16], &[(1034, 1)]),
    (0, [1024, 1024, 16], &[(1034, 1)]),
    // One side past the end, and the end within the source.
    (0, [MEMORY - 8, 2048, 16], &[]),
    (0, [MEMORY - 1, 2048, 16], &[]),
    (0, [MEMORY, 2048, 16], &[]),
    (0, [MEMORY + 1, 2048, 16], &[]),
    (0, [u32::MAX, 2048, 16], &[]),
    (0, [2048, MEMORY - 8, 16], &[]),
    (0, [2048, MEMORY, 16], &[]),
    (0, [2048, 40_000, 16], &[]),
    (0, [2048, u32::MAX, 16], &[]),
    // Both: the source's.
    (0, [40_000, 50_000, 16], &[]),
    (0, [50_000, 40_000, 16], &[]),
    (0, [40_000, MEMORY, 16], &[]),
    (0, [MEMORY - 8, u32::MAX, 16], &[]),
    (0, [u32::MAX, MEMORY, 16], &[]),
    // Decode comes first: a lower sick byte is not named, of either side.
    (0, [MEMORY - 8, 2048, 16], &[(MEMORY - 6, 1)]),
    (0, [MEMORY - 8, 2048, 16], &[(MEMORY - 6, 100)]),
    (0, [MEMORY - 8, 2048, 16], &[(2050, 1)]),
    (0, [1024, 40_000, 16], &[(1030, 1)]),
    (0, [40_000, 1024, 16], &[(1030, 1), (40_000, 1)]),
    // Several windows: the lowest byte, whatever their order.
    (0, [1024, 2048, 16], &[(1034, 4), (1030, 20)]),
    (0, [1024, 2048, 16], &[(1030, 20), (1034, 4)]),
    (0, [1024, 2048, 16], &[(1036, 1), (1034, 1), (1028, 1), (1032, 1)]),
    (0, [1024, 2048, 16], &[(1030, 2), (1000, 100)]),
    (0, [1024, 2048, 16], &[(1026, 0), (1024, 0), (1030, 1), (1028, 0)]),
    (0, [1024, 2048, 16], &[(1023, 1), (1040, 9), (1024, 0)]),
    (0, [1024, 2048, 16], &[(0, 1025)]),
    (0, [MEMORY - 16, 2048, 16], &[(MEMORY - 9, u32::MAX)]),
    (0, [MEMORY - 16, 2048, 16], &[(u32::MAX, u32::MAX), (MEMORY - 2, 3)]),
    // A later burst.
    (0, [1024, 2048, 100], &[(1090, 1)]),
    (0, [1024, 2051, 100], &[(1085, 1)]),
    (0, [1024, 2051, 100], &[(2112, 1), (2120, 1)]),
    (0, [2048, 1024, 100], &[(1090, 1), (2140, 1)]),
    (0, [MEMORY - 80, 2048, 100], &[]),
    // Fixed sides.
    (KEY_HOLE_READ, [1024, 2050, 32], &[(1024, 1)]),
    (KEY_HOLE_READ, [1024, 2050, 32], &[(1027, 1), (1026, 1)]),
    (KEY_HOLE_READ, [1024, 2050, 32], &[(1028, 9), (2060, 1)]),
    (KEY_HOLE_READ, [2048, 1025, 32], &[(1030, 1), (2050, 1)]),
    (KEY_HOLE_READ, [MEMORY, 1025, 32], &[(1030, 1)]),
    (KEY_HOLE_READ, [1024, MEMORY - 8, 32], &[(1028, 9)]),
    (KEY_HOLE_WRITE, [1025, 2048, 132], &[(2048, 1)]),
    (KEY_HOLE_WRITE, [1025, 2048, 132], &[(2051, 1), (2050, 1), (2052, 9)]),
    (KEY_HOLE_WRITE, [1025, 2048, 132], &[(1100, 1)]),
    (KEY_HOLE_WRITE, [2049, 1024, 132], &[(1025, 1), (2055, 1)]),
    (KEY_HOLE_WRITE, [MEMORY - 70, 1024, 132], &[]),
    (KEY_HOLE_WRITE, [1025, MEMORY, 132], &[(1030, 1)]),
    (KEY_HOLE, [1024, 2048, 72], &[(1026, 1), (1025, 1)]),
    (KEY_HOLE, [1024, 2048, 72], &[(2050, 9), (1028, 9)]),
    (KEY_HOLE, [2048, 1024, 72], &[(1024, 4), (2051, 1)]),
    (KEY_HOLE, [MEMORY + 64, MEMORY, 72], &[]),
];

/// For two engines at once: both sides sick, both past the end, one of each, and a fixed side.
const BY_BOTH: [Scene; 5] = [
    (0, [2048, 1024, 16], &[(2060, 1), (1026, 1)]),
    (0, [1024, 2048, 16], &[(2060, 1)]),
    (0, [50_000, 40_000, 16], &[]),
    (0, [1024, 40_000, 16], &[(1030, 1)]),
    (KEY_HOLE, [2048, 1024, 72], &[(1024, 4), (2051, 1)]),
];

fn write(offset: u32, value: u32) -> Record {
    Record::Write { offset: offset as u16, value }
}

/// The records that start a copy, by BTT or by a descriptor at 64.
fn started(chain: bool, sides: u32, [source, destination, count]: [u32; 3]) -> Vec<Record> {
    if chain {
        let bytes = descriptor(64, source, destination, count, 0, 0);
        let start = [write(CDMACR, CHAIN | sides), write(CURDESC, 64), write(TAILDESC, 64)];
        return [vec![Record::Memory { address: 64, bytes }], start.to_vec()].concat();
    }
    let [source, destination] = [write(SA, source), write(DA, destination)];
    vec![write(CDMACR, sides), source, destination, write(BTT, count)]
}

fn windows(all: &[(u32, u32)]) -> Vec<Record> {
    all.iter().map(|&(start, length)| Record::Window { start, length }).collect()
}

/// A trace of these records with the numbers 1, 2, 3 and so on, each for its engine if there are two.
fn numbered(two: bool, all: &[(u8, Record)]) -> Vec<u8> {
    let mut bytes = Vec::new();
    for (at, (engine, record)) in all.iter().enumerate() {
        encode_for(two.then_some(*engine), record, at as u32 + 1, &mut bytes);
    }
    bytes
}

fn of(engine: u8, records: Vec<Record>) -> Vec<(u8, Record)> {
    records.into_iter().map(|record| (engine, record)).collect()
}

fn settings(width: u16, beats: u16) -> Vec<(u8, Record)> {
    vec![(1, Record::Settings { width, beats })]
}

/// Steps to the end, the status, and a reset.
fn ended() -> Vec<Record> {
    vec![Record::Steps { steps: 99 }, Record::Read { offset: CDMASR as u16 }, write(CDMACR, RESET)]
}

/// All of them.
pub fn cases() -> Vec<Vec<u8>> {
    let mut all: Vec<_> = SCENES.iter().map(in_both_modes).collect();
    for width in [4, 8, 128] {
        for back_first in [false, true] {
            all.extend([1, 3].map(|words| gone_round(width, words, back_first)));
        }
    }
    all.extend(BY_BOTH.iter().map(by_two_engines));
    all
}

fn in_both_modes(&(sides, copy, sick): &Scene) -> Vec<u8> {
    let mut all = settings(4, 16);
    all.extend(of(1, windows(sick)));
    for chain in [false, true] {
        all.extend(of(1, started(chain, sides, copy)));
        all.extend(of(1, ended()));
    }
    numbered(false, &all)
}

/// The second burst of a fixed source goes from the midst of its word to its end and, with more than
/// one word in all, on from its start. A window over one part and then one over the other part come
/// before it.
fn gone_round(width: u16, words: u32, back_first: bool) -> Vec<u8> {
    let word = u32::from(width);
    let mut all = settings(width, 16);
    // Each mode has a word of its own, since the windows stay.
    for (chain, source) in [(false, 1024), (true, 2048)] {
        let copy = [source, 8192 - word / 2, words * word];
        all.extend(of(1, started(chain, KEY_HOLE_READ, copy)));
        all.push((1, Record::Steps { steps: if chain { 2 } else { 1 } }));
        let mut sick = [(source + word - 1, 1), (source + word / 2 - 1, 1)];
        if back_first {
            sick.reverse();
        }
        all.extend(of(1, windows(&sick)));
        all.extend(of(1, ended()));
    }
    numbered(false, &all)
}

/// The same transfer by both engines at once, one of them in a chain.
fn by_two_engines(&(sides, copy, sick): &Scene) -> Vec<u8> {
    let mut all = settings(4, 16);
    all.extend(of(1, windows(sick)));
    for chain in [1, 2] {
        all.extend(of(1, started(chain == 1, sides, copy)));
        all.extend(of(2, started(chain == 2, sides, copy)));
        for engine in [1, 2, 2, 1] {
            all.push((engine, Record::Steps { steps: 1 }));
        }
        all.extend(of(1, ended()));
        all.extend(of(2, ended()));
    }
    numbered(true, &all)
}
