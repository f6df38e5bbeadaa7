// The fixed short traces: every prefix and every changed byte of a few of them, and a list of
// single cases at the edges of the record rules.

use crate::damage::{BAD_SETTINGS, UNKNOWN_MARKS};
use crate::fault_cases;
use crate::maker::{Record, MEMORY};
use crate::pair_cases;
use independent::engine::Engine;
use independent::record::Bus;
use shared::bursts::full_piece;
use shared::random::Random;
use shared::record::{descriptor, encode};
use shared::registers::{KEY_HOLE, KEY_HOLE_READ, KEY_HOLE_WRITE};
use shared::settings::{BEATS, WIDTHS};

/// A trace with the numbers 1, 2, 3 and so on.
fn numbered(all: &[Record]) -> Vec<u8> {
    let mut bytes = Vec::new();
    for (at, record) in all.iter().enumerate() {
        encode(record, at as u32 + 1, &mut bytes);
    }
    bytes
}

/// A trace with other numbers.
fn numbered_as(all: &[(u32, &Record)]) -> Vec<u8> {
    let mut bytes = Vec::new();
    for (sequence, record) in all {
        encode(record, *sequence, &mut bytes);
    }
    bytes
}

fn write(offset: u16, value: u32) -> Record {
    Record::Write { offset, value }
}

/// The whole case of RULES.md, with its own numbers.
fn whole_case() -> Vec<u8> {
    numbered_as(&[
        (1, &Record::Settings { width: 4, beats: 16 }),
        (2, &write(24, 256)),
        (9, &write(32, 4088)),
        (10, &write(40, 16)),
        (11, &Record::Steps { steps: 5 }),
    ])
}

/// One record of each mark.
fn each_mark() -> Vec<u8> {
    let clock = Bus { bits: 3, length: 15, size: 2, burst: 1, address: 0xfc4, ..Bus::default() };
    numbered(&[
        Record::Settings { width: 8, beats: 4 },
        Record::Memory { address: 16, bytes: vec![1, 2, 3] },
        Record::Window { start: 512, length: 1 },
        write(0x18, 16),
        write(0x28, 3),
        Record::Read { offset: 4 },
        Record::Steps { steps: 2 },
        Record::Bus(Bus { bits: 1, ..Bus::default() }),
        Record::Bus(clock),
    ])
}

/// A chain of two descriptors, cut in bursts.
fn chain() -> Vec<u8> {
    numbered(&[
        Record::Memory { address: 64, bytes: descriptor(128, 1024, 2048, 70, 0, 0) },
        Record::Memory { address: 128, bytes: descriptor(0, 1024, 4090, 9, 0, 0) },
        write(0, 8),
        write(8, 64),
        write(16, 128),
        Record::Steps { steps: 20 },
        Record::Read { offset: 4 },
    ])
}

/// Single cases.
fn cases() -> Vec<Vec<u8>> {
    let mut all = vec![Vec::new(), vec![0], b"C".to_vec(), b"AR".to_vec(), vec![0xff; 40]];
    for (width, beats) in BAD_SETTINGS {
        all.push(numbered(&[Record::Settings { width, beats }, Record::Read { offset: 4 }]));
    }
    for mark in UNKNOWN_MARKS {
        let mut bytes = numbered(&[Record::Read { offset: 0 }, Record::Read { offset: 4 }]);
        bytes[8..10].copy_from_slice(mark);
        all.push(bytes);
    }
    for length in [0, 1, 2, 1023, 1024, 1025, 1026, 65_535] {
        all.push(numbered(&[
            Record::Memory { address: 8, bytes: vec![9; length] },
            Record::Read { offset: 4 },
        ]));
    }
    for (address, length) in [
        (MEMORY - 1, 1),
        (MEMORY - 1, 2),
        (MEMORY, 1),
        (MEMORY - 1024, 1024),
        (MEMORY - 1023, 1024),
        (u32::MAX, 1),
        (u32::MAX - 1023, 1024),
    ] {
        all.push(numbered(&[
            Record::Memory { address, bytes: vec![5; length] },
            Record::Read { offset: 4 },
        ]));
    }
    // Numbers: zero first, repeated, falling, the greatest, and nothing above it.
    for numbers in [
        [0, 1, 2],
        [1, 1, 2],
        [2, 1, 3],
        [5, 4_294_967_295, 6],
        [4_294_967_294, 4_294_967_295, 4_294_967_295],
        [4_294_967_295, 0, 1],
        [1, 2_147_483_648, 2_147_483_647],
    ] {
        let read = Record::Read { offset: 4 };
        all.push(numbered_as(&numbers.map(|number| (number, &read))));
    }
    // CF: late, and twice.
    let settings = Record::Settings { width: 4, beats: 16 };
    all.push(numbered(&[Record::Read { offset: 4 }, settings.clone()]));
    all.push(numbered(&[settings.clone(), settings]));
    all.extend(zero_numbers());
    all.extend(first_marks());
    all.extend(default_bursts());
    // Sixteen windows and seventeen, in use and not.
    for count in [16, 17] {
        let mut windows = vec![Record::Window { start: 600, length: 1 }; count];
        windows.extend([write(0x18, 590), write(0x28, 20), Record::Steps { steps: 3 }]);
        all.push(numbered(&windows));
    }
    // Windows that end at 2^32, before it and past it, with a copy below them and one in them.
    for (start, length) in [
        (600, u32::MAX),
        (600, u32::MAX - 598),
        (600, u32::MAX - 599),
        (600, u32::MAX - 600),
        (0, u32::MAX),
        (MEMORY - 1, u32::MAX),
        (u32::MAX, 1),
        (u32::MAX, u32::MAX),
    ] {
        all.push(numbered(&[
            Record::Window { start, length },
            write(0x18, 500),
            write(0x20, 550),
            write(0x28, 50),
            Record::Steps { steps: 9 },
            write(0, 4),
            write(0x20, 20_000),
            write(0x28, 9),
            Record::Steps { steps: 9 },
            write(0, 4),
            write(0x20, MEMORY - 9),
            write(0x28, 9),
            Record::Steps { steps: 9 },
        ]));
    }
    // Each bus field at its greatest value and one above.
    for (field, greatest) in [(0, 7), (2, 7), (3, 3), (4, 15), (5, 7), (6, 15), (7, 15)] {
        for value in [greatest, greatest + 1, 255] {
            for bits in [0u8, 1, 3] {
                let mut bytes = numbered(&[Record::Bus(Bus { bits, ..Bus::default() })]);
                bytes[6 + field] = value;
                all.push(bytes);
            }
        }
    }
    // An old number beside another refusal: 10 comes before it, the record's own after it.
    for record in [
        Record::Window { start: 0, length: 0 },
        Record::Memory { address: MEMORY, bytes: vec![1] },
        Record::Memory { address: 0, bytes: Vec::new() },
        Record::Bus(Bus { bits: 8, ..Bus::default() }),
        Record::Write { offset: 3, value: 0 },
        Record::Read { offset: 3 },
    ] {
        let mut bytes = numbered(&vec![Record::Window { start: 9, length: 0 }; 16]);
        encode(&record, 16, &mut bytes);
        all.push(bytes);
    }
    all.extend((0..32).map(each_bit));
    for width in WIDTHS {
        all.push(fixed_starts(width));
        all.extend(BEATS.map(|beats| queues(width, beats)));
    }
    all.extend(large());
    all.extend(fault_cases::cases());
    all.extend(pair_cases::cases());
    all
}

/// The number 0: a CF may carry it, and nothing else; what is behind that CF is above it.
fn zero_numbers() -> Vec<Vec<u8>> {
    let settings = Record::Settings { width: 8, beats: 4 };
    let read = Record::Read { offset: 4 };
    let mut all = vec![
        numbered_as(&[(0, &settings)]),
        numbered_as(&[(0, &settings), (0, &read)]),
        numbered_as(&[(0, &settings), (1, &read), (1, &read)]),
        numbered_as(&[(0, &settings), (u32::MAX, &read), (0, &read)]),
        numbered_as(&[(u32::MAX, &settings)]),
        numbered_as(&[(u32::MAX, &settings), (0, &read)]),
        // Late, it is no record.
        numbered_as(&[(0, &settings), (0, &settings)]),
        numbered_as(&[(0, &settings), (1, &settings)]),
        numbered_as(&[(1, &settings), (0, &settings)]),
        numbered_as(&[(1, &read), (0, &settings)]),
        numbered_as(&[(0, &read), (0, &settings)]),
    ];
    for (width, beats) in BAD_SETTINGS {
        all.push(numbered_as(&[(0, &Record::Settings { width, beats }), (1, &read)]));
    }
    // Cut short it is no record either.
    let whole = numbered_as(&[(0, &settings)]);
    all.extend((2..whole.len()).map(|end| whole[..end].to_vec()));
    for record in [
        Record::Memory { address: 0, bytes: vec![1] },
        Record::Memory { address: MEMORY, bytes: vec![1] },
        Record::Memory { address: 0, bytes: Vec::new() },
        Record::Window { start: 0, length: 1 },
        write(0x18, 1),
        write(3, 1),
        Record::Steps { steps: 1 },
        Record::Bus(Bus::default()),
        Record::Bus(Bus { bits: 8, ..Bus::default() }),
    ] {
        all.push(numbered_as(&[(0, &record), (1, &read)]));
    }
    all
}

/// First bytes that are nearly CF or C2, alone and before a record's other bytes.
fn first_marks() -> Vec<Vec<u8>> {
    let mut all: Vec<Vec<u8>> = [b"F", b"\n", b"c"].map(|bytes| bytes.to_vec()).into();
    let near: [&[u8; 2]; 11] =
        [b"CC", b"FF", b"Cf", b"cF", b"C\0", b"\0C", b" C", b"c2", b"2C", b"C1", b"C\x02"];
    for mark in near.iter().chain(&UNKNOWN_MARKS) {
        let mut bytes =
            numbered(&[Record::Settings { width: 4, beats: 16 }, Record::Read { offset: 4 }]);
        bytes[..2].copy_from_slice(*mark);
        all.extend([mark.to_vec(), bytes]);
    }
    // A CF behind another byte is not at the start.
    all.push([b"C", &whole_case()[..]].concat());
    all
}

/// Copies without CF, of about 16 beats and of about 64, and the same behind a CF of number 0.
fn default_bursts() -> Vec<Vec<u8>> {
    let mut all = Vec::new();
    for count in [60, 64, 65, 68, 252, 256, 257, 260, 512, 513, 1040] {
        let copies = copies_of(count);
        all.push(numbered(&copies));
        for beats in [16, 64] {
            let settings = numbered_as(&[(0, &Record::Settings { width: 4, beats })]);
            all.push([settings, numbered(&copies)].concat());
        }
    }
    all
}

/// Incrementing, from within a word, over a page's end, and with fixed sides: by BTT and by a
/// descriptor.
fn copies_of(count: u32) -> Vec<Record> {
    let mut all = Vec::new();
    for (sides, source, destination) in [
        (0, 1024, 8192),
        (0, 1027, 8193),
        (0, 1024, 8192 - 100),
        (KEY_HOLE_READ, 1024, 8192),
        (KEY_HOLE_WRITE, 1024, 8192),
        (KEY_HOLE, 1024, 8192),
    ] {
        all.extend([write(0, sides), write(0x18, source), write(0x20, destination)]);
        all.extend([write(0x28, count), Record::Steps { steps: 99 }, write(0, 4)]);
        let bytes = descriptor(64, source, destination, count, 0, 0);
        all.extend([Record::Memory { address: 64, bytes }, write(0, 8 | sides), write(8, 64)]);
        all.extend([write(16, 64), Record::Steps { steps: 99 }, write(0, 4)]);
    }
    all
}

/// One bit in every register and in the words of a descriptor, and what is kept of it.
fn each_bit(number: u32) -> Vec<u8> {
    let bit = 1 << number;
    let mut all = Vec::new();
    for offset in [0x08, 0x0c, 0x14, 0x18, 0x1c, 0x20, 0x24, 0x00] {
        all.extend([write(offset, bit), Record::Read { offset }]);
    }
    // As a count: in BTT, and in a descriptor whose tail it is too.
    all.extend([write(0, 4), write(0x20, 64), write(0x28, bit), Record::Read { offset: 0x28 }]);
    all.extend([Record::Steps { steps: 3 }, Record::Read { offset: 4 }]);
    let count = descriptor(0, 1024, 2048, bit, 0, bit);
    all.extend([Record::Memory { address: 64, bytes: count }, write(0, 4), write(0, 8)]);
    all.extend([write(8, 64), write(16, bit), Record::Read { offset: 16 }]);
    all.extend([Record::Steps { steps: 3 }, Record::Read { offset: 4 }]);
    // As a next pointer and as a status word.
    let next = descriptor(bit, 1024, 2048, 4, bit, 0);
    all.extend([Record::Memory { address: 128, bytes: next }, write(0, 4), write(0, 8)]);
    all.extend([write(8, 128), write(16, 4096), Record::Steps { steps: 4 }]);
    all.extend([Record::Read { offset: 8 }, Record::Read { offset: 4 }]);
    // Written to CDMASR with both interrupts up.
    all.extend([write(0, 4), write(0x28, 1), Record::Steps { steps: 1 }, write(0x28, 0)]);
    all.extend([write(4, bit), Record::Read { offset: 4 }]);
    numbered(&all)
}

/// A queue that is drained, one that is filled and one that is copied to another, each in steps, then
/// a count off the multiples; what was written is shown.
fn queues(width: u32, beats: u32) -> Vec<u8> {
    let piece = full_piece(&Engine::fresh(width, beats));
    let (queue, other, block) = (4096 - width, 8192, 16_384);
    let bytes = |seed: u8| (0..=255u8).map(|at| at.wrapping_mul(7) ^ seed).collect::<Vec<_>>();
    let mut all = vec![
        Record::Settings { width: width as u16, beats: beats as u16 },
        Record::Memory { address: queue, bytes: bytes(1)[..width as usize].to_vec() },
        Record::Memory { address: block, bytes: bytes(2).repeat(4) },
    ];
    for (control, source, destination, count) in [
        (KEY_HOLE_READ, queue, block - 3, 2 * piece),
        (KEY_HOLE_WRITE, block + 1, queue, 3 * piece + width),
        (KEY_HOLE, queue, other, piece + width),
        (KEY_HOLE, other, queue, piece + 1),
    ] {
        all.extend([write(0, control), write(0x18, source), write(0x20, destination)]);
        all.extend([write(0x28, count), Record::Steps { steps: 1 }, write(0, control ^ 0x10)]);
        all.extend([Record::Steps { steps: 1 }, Record::Steps { steps: 999 }]);
        all.extend([Record::Read { offset: 0 }, Record::Read { offset: 4 }]);
        all.extend(shown(destination + width - 4));
    }
    numbered(&all)
}

/// Starts with fixed sides on the multiples of W and off them, by BTT and by a descriptor.
fn fixed_starts(width: u32) -> Vec<u8> {
    let mut all = vec![Record::Settings { width: width as u16, beats: 16 }];
    for sides in [KEY_HOLE_READ, KEY_HOLE_WRITE, KEY_HOLE] {
        for [source, destination, count] in [
            [0, 0, width],
            [1, 0, width],
            [0, 1, width],
            [0, 0, width + 1],
            [0, 0, 2 * width - 1],
            [1, 1, 0],
            [0, 0, 0],
        ] {
            let (source, destination) = (1024 + source, 2048 + destination);
            let bytes = descriptor(0, source, destination, count, 0, 0);
            all.extend([write(0, sides), write(0x18, source), write(0x20, destination)]);
            all.extend([write(0x28, count), Record::Read { offset: 4 }]);
            all.extend([Record::Steps { steps: 2 }, Record::Read { offset: 0x28 }]);
            all.extend([write(0, 4), Record::Memory { address: 64, bytes }]);
            all.extend([write(0, 8 | sides), write(8, 64), write(16, 64)]);
            all.extend([Record::Steps { steps: 3 }, Record::Read { offset: 4 }]);
            all.extend([write(0, 4), Record::Read { offset: 0 }]);
        }
    }
    numbered(&all)
}

/// The word at `address` in a line, as the destination of a descriptor for one byte of good memory.
fn shown(address: u32) -> Vec<Record> {
    let bytes = descriptor(0, address, 0, 1, 0, 0);
    vec![
        write(0, 4),
        Record::Memory { address: 64, bytes },
        write(0x18, address),
        write(0x20, 64 + 0x10),
        write(0x28, 4),
        Record::Steps { steps: 1 },
        write(0, 8),
        write(8, 64),
        write(16, 64),
        Record::Steps { steps: 9 },
        write(0, 4),
    ]
}

/// Traces and listings longer than a pipe holds, and the longest run.
fn large() -> [Vec<u8>; 3] {
    let full = Record::Memory { address: 0, bytes: vec![1; 1024] };
    let mut far = numbered(&vec![full; 1100]);
    far.extend_from_slice(b"no record");
    let copies = numbered(&[
        Record::Settings { width: 4, beats: 2 },
        write(0x18, 1),
        write(0x20, 5),
        write(0x28, 32_001),
        Record::Steps { steps: 65_535 },
        write(0x20, 700),
        write(0x28, 32_000),
        Record::Steps { steps: 65_535 },
    ]);
    // Eighteen descriptors of 3,842 steps each: more than one run can take.
    let mut long = vec![Record::Settings { width: 4, beats: 2 }];
    for at in 0..18 {
        let bytes = descriptor((at + 1) * 64, 2040, 2048, 30_720, 0, 0);
        long.push(Record::Memory { address: at * 64, bytes });
    }
    long.extend([write(0, 8), write(16, 17 * 64)]);
    long.extend([Record::Steps { steps: 65_535 }, Record::Steps { steps: 65_535 }]);
    [far, copies, numbered(&long)]
}

/// All of them, with the name of their family.
pub fn all() -> Vec<(&'static str, Vec<u8>)> {
    let mut random = Random::new(0, 0);
    let mut all: Vec<_> = cases().into_iter().map(|bytes| ("case", bytes)).collect();
    for base in [whole_case(), each_mark(), chain(), pair_cases::each_mark()] {
        for end in 0..=base.len() {
            all.push(("prefix", base[..end].to_vec()));
        }
        for at in 0..base.len() {
            let mut bytes = base.clone();
            bytes[at] ^= random.between(1, 255) as u8;
            all.push(("changed byte", bytes));
        }
    }
    all
}
