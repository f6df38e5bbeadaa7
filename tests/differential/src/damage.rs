// Traces that end in a refusal, and traces whose bytes were damaged.

use crate::clocks;
use crate::maker::{Maker, Record, MEMORY};
use crate::pokes::BAD_OFFSETS;
use independent::memory::MOST_WINDOWS;
use independent::record::{read, Form};
use shared::random::Random;
use shared::record::{encode, encode_for};

pub const UNKNOWN_MARKS: [&[u8; 2]; 10] =
    [b"mm", b"Mm", b"FC", b"XX", b"\0\0", b"CR", b"AW", b"RA", b"S\n", b"\xff\xff"];

const MARKS: [&[u8]; 8] = [b"CF", b"C2", b"MM", b"SW", b"WR", b"RD", b"ST", b"AR"];

/// Settings off the lists.
pub const BAD_SETTINGS: [(u16, u16); 12] = [
    (0, 16),
    (1, 16),
    (2, 16),
    (12, 16),
    (256, 16),
    (0xff04, 16),
    (4, 0),
    (4, 1),
    (4, 3),
    (4, 512),
    (4, 0xff10),
    (65_535, 65_535),
];

/// Appends a record that ends the replay, then sound records which must not be seen.
pub fn bad_end(maker: &mut Maker) {
    let last = maker.sequence;
    let good = last.saturating_add(1);
    let old = match maker.random.below(4) {
        0 => 0,
        1 => last.saturating_sub(1),
        2 => maker.random.below(last.max(1)),
        _ => last,
    };
    // An old number with a record that has a refusal of its own shows which is judged first.
    let sequence = if maker.random.chance(25) { old } else { good };
    let mut bytes = Vec::new();
    match maker.random.below(100) {
        0..=7 => {
            let late = Record::Settings { width: 4, beats: 16 };
            maker.encode(&late, sequence, &mut bytes);
        }
        8..=15 => {
            let mark = maker.random.pick(&UNKNOWN_MARKS);
            let sound = Record::Steps { steps: 3 };
            maker.encode(&sound, sequence, &mut bytes);
            bytes[..2].copy_from_slice(mark);
        }
        16..=27 => {
            let length = maker.random.pick(&[0u16, 0, 1025, 1025, 1026, 2048, 65_535]);
            let whole = Record::Memory { address: 64, bytes: vec![7; usize::from(length)] };
            maker.encode(&whole, sequence, &mut bytes);
        }
        28..=44 => {
            let length = maker.random.pick(&[1, 2, 64, 1024]);
            let address = match maker.random.below(5) {
                0 | 1 => MEMORY - length + 1,
                2 => MEMORY,
                3 => u32::MAX - maker.random.below(2 * length),
                _ => maker.random.between(MEMORY, u32::MAX),
            };
            let bytes_past = maker.random.bytes(length);
            maker.encode(&Record::Memory { address, bytes: bytes_past }, sequence, &mut bytes);
        }
        45..=59 => {
            while maker.replay.windows().len() < MOST_WINDOWS && !maker.ended {
                let start = maker.random.between(MEMORY - 4096, MEMORY + 4096);
                maker.window(start, 0);
            }
            let sequence = if sequence == old { old } else { maker.sequence.saturating_add(1) };
            maker.encode(&Record::Window { start: 1, length: 1 }, sequence, &mut bytes);
        }
        60..=79 => {
            let bus = clocks::out_of_range(maker);
            maker.encode(&Record::Bus(bus), sequence, &mut bytes);
        }
        80..=93 => {
            let offset = maker.random.pick(&[0, 4, 0x18, 0x28, BAD_OFFSETS[0] as u16]);
            let record = match maker.random.below(3) {
                0 => Record::Write { offset, value: 5 },
                1 => Record::Read { offset },
                _ => Record::Steps { steps: 2 },
            };
            maker.encode(&record, old, &mut bytes);
        }
        _ => {
            // One more number fits after this, and then none.
            maker.sequence = u32::MAX - 2;
            maker.dense = true;
            maker.read(4);
            maker.steps(1);
            maker.encode(&Record::Read { offset: 4 }, u32::MAX, &mut bytes);
        }
    }
    maker.bytes.extend_from_slice(&bytes);
    unseen(maker);
}

/// Ends a trace with sound records, which must not be seen behind the one that ended the replay.
fn unseen(maker: &mut Maker) {
    let mut bytes = Vec::new();
    for (record, gap) in [(Record::Read { offset: 4 }, 7), (Record::Steps { steps: 9 }, 8)] {
        maker.encode(&record, maker.sequence.saturating_add(gap), &mut bytes);
    }
    maker.bytes.extend_from_slice(&bytes);
    maker.ended = true;
}

/// Engine numbers that are none.
pub const BAD_ENGINES: [u8; 9] = [0, 0, 3, 3, 255, 4, 16, 128, 129];

/// The same for a trace with two engines, by what only such a trace has.
pub fn bad_end_of_pair(maker: &mut Maker) {
    let last = maker.sequence;
    let good = last.saturating_add(1);
    let old = maker.random.pick(&[0, last.saturating_sub(1), last]);
    let sequence = if maker.random.chance(25) { old } else { good };
    let offset = maker.random.pick(&[0, 4, 0x10, 0x18, 0x28, BAD_OFFSETS[0] as u16]);
    let record = match maker.random.below(3) {
        0 => Record::Write { offset, value: maker.random.pick(&[0, 4, 8, 64]) },
        1 => Record::Read { offset },
        _ => Record::Steps { steps: maker.random.pick(&[0, 1, 9]) },
    };
    let mut bytes = Vec::new();
    match maker.random.below(100) {
        0..=49 => {
            let engine = maker.random.pick(&BAD_ENGINES);
            encode_for(Some(engine), &record, sequence, &mut bytes);
        }
        50..=59 => {
            let engine = maker.random.pick(&[None, Some(1)]);
            let late = Record::Settings { width: 4, beats: 16 };
            encode_for(engine, &late, sequence, &mut bytes);
        }
        60..=79 => {
            // Without an engine number: what follows is read from one byte further on.
            encode(&record, good, &mut bytes);
        }
        _ => {
            // Cut, before its engine number and behind it, whether that is good or not.
            let engine = maker.random.pick(&[0, 1, 2, 3]);
            encode_for(Some(engine), &record, sequence, &mut bytes);
            let end = maker.random.pick(&[6, 7, 8, bytes.len() - 1]);
            bytes.truncate(end);
            maker.bytes.extend_from_slice(&bytes);
            maker.ended = true;
            return;
        }
    }
    maker.bytes.extend_from_slice(&bytes);
    unseen(maker);
}

/// Places and numbers of the records at the front of a trace, as far as they can be read.
fn records(trace: &[u8]) -> Vec<(usize, u32)> {
    let mut all = Vec::new();
    let mut rest = trace;
    let form = Form::of(trace);
    while let Ok((sequence, _, _, behind)) = read(rest, form, all.is_empty()) {
        all.push((trace.len() - rest.len(), sequence));
        rest = behind;
    }
    all
}

/// A short sound trace changed in one way.
pub fn damage(random: &mut Random, bytes: &mut Vec<u8>) {
    let all = records(bytes);
    let size = bytes.len() as u32;
    if size == 0 || all.is_empty() {
        return;
    }
    let at = random.below(size) as usize;
    let record = random.below(all.len() as u32) as usize;
    let (place, sequence) = all[record];
    let previous = if record == 0 { 0 } else { all[record - 1].1 };
    match random.below(14) {
        0 => bytes.truncate(at),
        1 => bytes[at] ^= 1 << random.below(8),
        2 => bytes[at] = random.word() as u8,
        3 => bytes.insert(at, random.word() as u8),
        4 => {
            bytes.remove(at);
        }
        5 => {
            let other = random.pick(&[0, previous, previous.saturating_sub(1), u32::MAX, sequence]);
            bytes[place + 2..place + 6].copy_from_slice(&other.to_le_bytes());
        }
        6 => {
            // The same record twice.
            let end = all.get(record + 1).map_or(bytes.len(), |next| next.0);
            let again = bytes[place..end].to_vec();
            bytes.splice(place..place, again);
        }
        7 => {
            let mut late = Vec::new();
            let engine = random.pick(&[None, None, Some(1)]);
            encode_for(engine, &Record::Settings { width: 8, beats: 4 }, sequence, &mut late);
            bytes.splice(place..place, late);
        }
        8 => {
            let mark = random.pick(&UNKNOWN_MARKS);
            bytes[place..place + 2].copy_from_slice(mark);
        }
        9 => {
            // Where an engine number is, or would be.
            if let Some(number) = bytes.get_mut(place + 6) {
                *number = random.pick(&BAD_ENGINES) ^ random.pick(&[0, 0, 1]);
            }
        }
        10 => {
            // One engine number more or less, so that what follows is read another way.
            let number = (place + 6).min(bytes.len() - 1);
            if random.chance(50) {
                bytes.remove(number);
            } else {
                bytes.insert(number, random.pick(&[0, 1, 2, 3]));
            }
        }
        11 => {
            // A settings record as the other form has it, in its place or late.
            let mark = random.pick(&[b"CF", b"C2"]);
            let place = if random.chance(60) { 0 } else { place };
            let end = bytes.len().min(place + 2);
            bytes[place..end].copy_from_slice(&mark[..end - place]);
        }
        12 => {
            let tail = random.between(1, 6);
            let tail = random.bytes(tail);
            bytes.extend_from_slice(&tail);
        }
        _ => {
            // A sound mark with too few bytes after it.
            bytes.extend_from_slice(random.pick(&MARKS));
            let tail = random.below(24);
            let tail = random.bytes(tail);
            bytes.extend_from_slice(&tail);
        }
    }
}

/// Gives a trace that starts with CF the mark C2, and the other way round: all records behind it are
/// then of the wrong length or too early.
pub fn change_form(bytes: &mut [u8]) {
    if let Some(mark) = bytes.first_chunk_mut::<2>() {
        *mark = if mark == b"C2" { *b"CF" } else { *b"C2" };
    }
}

/// Bytes that are no trace, or begin like one.
pub fn noise(random: &mut Random) -> Vec<u8> {
    let length = random.below(200);
    let mut bytes = random.bytes(length);
    if random.chance(70) && bytes.len() >= 6 {
        bytes[..2].copy_from_slice(random.pick(&MARKS));
        if random.chance(50) {
            let small = random.below(4);
            bytes[2..6].copy_from_slice(&small.to_le_bytes());
        }
    }
    bytes
}
