// Single cases of traces with two engines, for the catalogue: the records at the edges of their rules,
// and short runs in which one engine meets what the other does.

use crate::damage::BAD_SETTINGS;
use crate::maker::{Record, MEMORY};
use independent::record::Bus;
use shared::record::{descriptor, encode, encode_for};
use shared::registers::{
    BTT, CDMACR, CDMASR, CHAIN, CURDESC, DA, KEY_HOLE_READ, RESET, SA, TAILDESC,
};

/// A record and the number of the engine that it is for; of a record that carries none it is of no
/// account.
type Numbered = (u8, Record);

/// A trace of two engines with the numbers 1, 2, 3 and so on.
fn numbered(all: &[Numbered]) -> Vec<u8> {
    let mut bytes = Vec::new();
    for (at, (engine, record)) in all.iter().enumerate() {
        encode_for(Some(*engine), record, at as u32 + 1, &mut bytes);
    }
    bytes
}

/// A trace with other numbers.
fn numbered_as(all: &[(u32, Numbered)]) -> Vec<u8> {
    let mut bytes = Vec::new();
    for (sequence, (engine, record)) in all {
        encode_for(Some(*engine), record, *sequence, &mut bytes);
    }
    bytes
}

fn settings(width: u16, beats: u16) -> Numbered {
    (1, Record::Settings { width, beats })
}

fn memory(address: u32, bytes: Vec<u8>) -> Numbered {
    (1, Record::Memory { address, bytes })
}

fn write(engine: u8, offset: u32, value: u32) -> Numbered {
    (engine, Record::Write { offset: offset as u16, value })
}

fn read(engine: u8, offset: u32) -> Numbered {
    (engine, Record::Read { offset: offset as u16 })
}

fn steps(engine: u8, steps: u16) -> Numbered {
    (engine, Record::Steps { steps })
}

fn copy(engine: u8, source: u32, destination: u32, count: u32) -> [Numbered; 3] {
    [write(engine, SA, source), write(engine, DA, destination), write(engine, BTT, count)]
}

fn chain(engine: u8, first: u32, tail: u32) -> [Numbered; 3] {
    [write(engine, CDMACR, CHAIN), write(engine, CURDESC, first), write(engine, TAILDESC, tail)]
}

/// A few records of both engines, among them each that carries an engine number.
pub fn each_mark() -> Vec<u8> {
    let mut all = vec![settings(8, 4), memory(16, vec![1, 2, 3])];
    all.extend(copy(2, 16, 40, 3));
    all.extend([read(1, CDMASR), read(2, CDMASR), (1, Record::Window { start: 512, length: 1 })]);
    all.extend([steps(1, 2), steps(2, 2), (1, Record::Bus(Bus { bits: 3, ..Bus::default() }))]);
    numbered(&all)
}

/// All of them.
pub fn cases() -> Vec<Vec<u8>> {
    let mut all = first_records();
    all.extend(late_settings());
    all.extend(engine_numbers());
    all.extend(orders());
    all.extend(other_lengths());
    all.extend([registers(), windows(), clocks(), resets(), limits()]);
    all.extend([1, 2].map(both_at_once));
    for met in 0..6 {
        all.extend([1, 2, 3].map(|ahead| meeting(met, ahead)));
    }
    all.extend([0, 1, 2, 3, 4].map(one_chain_for_both));
    all
}

/// C2 alone, with the number 0 and others, cut at each length, and with settings off the lists.
fn first_records() -> Vec<Vec<u8>> {
    let mut all = Vec::new();
    for number in [0, 1, u32::MAX] {
        let whole = numbered_as(&[(number, settings(8, 4))]);
        all.extend((2..=whole.len()).map(|end| whole[..end].to_vec()));
        for next in [0, 1, 2, u32::MAX] {
            all.push(numbered_as(&[(number, settings(8, 4)), (next, read(2, CDMASR))]));
            all.push(numbered_as(&[(number, settings(8, 4)), (next, memory(0, vec![1]))]));
        }
    }
    for (width, beats) in BAD_SETTINGS {
        for number in [0, 1] {
            all.push(numbered_as(&[(number, settings(width, beats)), (2, read(1, CDMASR))]));
        }
    }
    all
}

/// C2 and CF where they are late, of any number, behind each other and behind another record.
fn late_settings() -> Vec<Vec<u8>> {
    let settings = Record::Settings { width: 4, beats: 16 };
    let forms = [Some(1), None];
    let mut all = Vec::new();
    for number in [0, 1, 2, 3] {
        for (first, late) in forms.iter().flat_map(|first| forms.map(|late| (*first, late))) {
            let mut bytes = Vec::new();
            encode_for(first, &settings, 1, &mut bytes);
            encode_for(late, &settings, number, &mut bytes);
            all.push(bytes.clone());
            let mut bytes = Vec::new();
            encode_for(first, &settings, 0, &mut bytes);
            encode_for(first, &Record::Read { offset: 4 }, 1, &mut bytes);
            encode_for(late, &settings, number, &mut bytes);
            encode_for(first, &Record::Read { offset: 4 }, 9, &mut bytes);
            all.push(bytes);
        }
        let mut bytes = Vec::new();
        encode(&Record::Read { offset: 4 }, 1, &mut bytes);
        encode_for(Some(1), &settings, number, &mut bytes);
        all.push(bytes);
    }
    all
}

/// The three records that carry an engine number.
fn three(engine: u8) -> [Numbered; 3] {
    [write(engine, SA, 5), read(engine, CDMASR), steps(engine, 3)]
}

/// Every kind of engine number on each record, alone and beside other refusals, and its record cut
/// at each length.
fn engine_numbers() -> Vec<Vec<u8>> {
    let mut all = Vec::new();
    for engine in [0, 1, 2, 3, 4, 17, 18, 127, 128, 129, 130, 254, 255] {
        for record in three(engine) {
            all.push(numbered(&[settings(4, 16), read(2, SA), record, read(1, SA)]));
        }
    }
    for engine in [0, 3, 255] {
        for (number, record) in [
            // 11 comes first,
            (2, read(engine, CDMASR)),
            (1, write(engine, SA, 0)),
            (0, steps(engine, 1)),
            // and what the record itself would get comes after.
            (3, read(engine, 3)),
            (3, write(engine, 3, 0)),
            (3, write(engine, SA, 7)),
            (3, write(engine, BTT, 7)),
            (3, write(engine, CDMACR, RESET)),
        ] {
            // Both engines are in error by a BTT of zero, or busy.
            for count in [0, 7] {
                all.push(numbered_as(&[
                    (0, settings(4, 16)),
                    (1, write(1, BTT, count)),
                    (2, write(2, BTT, count)),
                    (number, record.clone()),
                    (9, read(1, SA)),
                ]));
            }
        }
    }
    for engine in [0, 1, 2, 3] {
        for record in three(engine) {
            let start = numbered(&[settings(4, 16)]);
            let record = numbered_as(&[(2, record)]);
            for end in 0..=record.len() {
                all.push([&start[..], &record[..end]].concat());
            }
        }
    }
    all
}

/// Numbers of the records: one rising sequence for both engines.
fn orders() -> Vec<Vec<u8>> {
    let mut all = Vec::new();
    for numbers in [[5, 4], [5, 5], [5, 6], [1, 2], [u32::MAX, 1]] {
        for engines in [[1, 2], [2, 1]] {
            all.push(numbered_as(&[
                (0, settings(4, 16)),
                (numbers[0], read(engines[0], CDMASR)),
                (numbers[1], read(engines[1], CDMASR)),
                (numbers[1], steps(engines[0], 1)),
            ]));
        }
    }
    all
}

/// Records of the length that they have for one engine, and the other way round.
fn other_lengths() -> Vec<Vec<u8>> {
    let mut all = Vec::new();
    for at in 0..3 {
        let (engine, record) = three(2)[at].clone();
        for form in [None, Some(engine)] {
            let first = if form.is_none() { Some(1) } else { None };
            let mut bytes = Vec::new();
            encode_for(first, &Record::Settings { width: 4, beats: 16 }, 1, &mut bytes);
            encode_for(form, &record, 2, &mut bytes);
            all.push(bytes.clone());
            encode_for(form, &record, 3, &mut bytes);
            encode_for(first, &record, 4, &mut bytes);
            all.push(bytes);
        }
    }
    all
}

/// Each register of one engine written and both read back.
fn registers() -> Vec<u8> {
    let mut all = vec![settings(4, 16)];
    for offset in (0..=0x2c).step_by(4) {
        for engine in [2, 1] {
            let value = match offset {
                CDMACR => 0x5000,
                TAILDESC | BTT => 0,
                _ => 64 * (offset + u32::from(engine)),
            };
            all.extend([write(engine, offset, value), read(1, offset), read(2, offset)]);
        }
    }
    // Each now has the error of a BTT of zero: a reset is for one of them.
    all.extend([write(2, CDMACR, RESET), read(1, CDMASR), read(2, CDMASR)]);
    all.extend([write(2, SA, 1), write(1, SA, 1), write(1, CDMACR, RESET), write(1, SA, 1)]);
    numbered(&all)
}

/// One list of windows: it is there for both, whoever is in turn when one is added.
fn windows() -> Vec<u8> {
    let window = |start: u32| (1, Record::Window { start, length: 1 });
    let mut all = vec![settings(4, 4), read(2, CDMASR), window(2060)];
    all.extend(copy(1, 1024, 2048, 16));
    all.extend(copy(2, 1024, 2048, 16));
    all.extend([steps(1, 9), steps(2, 9), write(1, CDMACR, RESET), write(2, CDMACR, RESET)]);
    all.extend(copy(2, 1024, 3000, 40));
    all.extend(copy(1, 1024, 3000, 40));
    all.extend([steps(2, 1), steps(1, 1), window(3020), steps(1, 1), steps(2, 1)]);
    all.extend([read(1, CDMASR), read(2, CDMASR)]);
    numbered(&all)
}

/// One monitor: the clock before is that of the trace, whoever was in turn.
fn clocks() -> Vec<u8> {
    let bus = |bits: u8, address: u32| {
        let bus = Bus { bits, length: 15, size: 2, burst: 1, address, ..Bus::default() };
        (1, Record::Bus(bus))
    };
    let mut all = vec![settings(4, 16), bus(1, 0)];
    for (engine, bits) in [(1, 3), (2, 3), (1, 7), (2, 3), (2, 0), (1, 3)] {
        all.extend([read(engine, CDMASR), bus(bits, 0xfc4 + 64 * u32::from(engine))]);
    }
    numbered(&all)
}

/// A reset of one engine while the other is under way, in simple mode and in a chain.
fn resets() -> Vec<u8> {
    let mut all = vec![settings(4, 2), memory(64, descriptor(64, 1024, 2048, 40, 0, 0))];
    for engine in [1, 2] {
        let other = 3 - engine;
        all.extend(chain(engine, 64, 64));
        all.extend(copy(other, 1024, 4080, 40));
        all.extend([steps(engine, 2), steps(other, 2), write(other, CDMACR, RESET)]);
        all.extend([read(engine, CURDESC), steps(engine, 1), read(other, DA), steps(other, 1)]);
        all.extend(copy(other, 1024, 4080, 40));
        all.extend([steps(other, 1), write(engine, CDMACR, RESET), steps(other, 9)]);
        all.extend([read(1, CDMASR), read(2, CDMASR)]);
        all.extend(memory_again());
        all.extend([write(other, CDMACR, RESET)]);
    }
    numbered(&all)
}

fn memory_again() -> [Numbered; 1] {
    [memory(64, descriptor(64, 1024, 2048, 40, 0, 0))]
}

/// Seventeen windows, however the engines take turns.
fn limits() -> Vec<u8> {
    let mut all = vec![settings(4, 16)];
    for at in 0..17 {
        all.extend([read(1 + at % 2, SA), (1, Record::Window { start: MEMORY, length: 0 })]);
    }
    numbered(&all)
}

/// A chain of one engine and a copy of the other, `each` step in turn, with a fixed side on one.
fn both_at_once(each: u16) -> Vec<u8> {
    let mut all = vec![settings(8, 2)];
    all.push(memory(64, descriptor(128, 1024, 2048, 70, 0, 0)));
    all.push(memory(128, descriptor(64, 1100, 2200, 70, 0, 0)));
    all.push(memory(1024, (0..200).collect()));
    all.extend(chain(1, 64, 128));
    all.push(write(2, CDMACR, KEY_HOLE_READ));
    all.extend(copy(2, 1024, 3000, 160));
    for _ in 0..16 {
        all.extend([steps(1, each), steps(2, each), read(1, CDMASR), read(2, CDMASR)]);
    }
    all.extend([write(1, CDMASR, 0x1000), read(1, CDMASR), read(2, CDMASR)]);
    numbered(&all)
}

/// Engine 2 writes over what engine 1 uses, after so many of its steps: its source, destination,
/// descriptor, next descriptor, status word, or nothing of it. All that came of it is then shown.
fn meeting(met: usize, ahead: u16) -> Vec<u8> {
    let place = [1024 + 20, 2048 + 20, 64, 128, 64 + 0x1c, 5000][met];
    let mut all = vec![settings(4, 4)];
    all.push(memory(64, descriptor(128, 1024, 2048, 40, 0, 0)));
    all.push(memory(128, descriptor(0, 1060, 2088, 20, 0, 0)));
    all.push(memory(1024, (1..=80).collect()));
    // A descriptor that fails on its source, at the memory's end: its fault line shows that it was
    // fetched.
    all.push(memory(3000, descriptor(64, MEMORY, 777, 8, 0, 0)));
    all.extend(chain(1, 64, 128));
    all.push(steps(1, ahead));
    all.extend(copy(2, 3000, place, if met == 4 { 4 } else { 32 }));
    all.extend([steps(2, 1), steps(1, 1), steps(2, 1), steps(1, 20), steps(2, 20)]);
    all.extend([read(1, CDMASR), read(2, CDMASR), write(1, CDMACR, RESET)]);
    for word in [2064, 2068, 2072, 92, 156] {
        all.extend(show(word));
    }
    numbered(&all)
}

/// The word at `address` in a line of engine 1, as the destination of a descriptor for one byte of
/// good memory, copied there by engine 2.
fn show(address: u32) -> Vec<Numbered> {
    let mut all = vec![memory(512, descriptor(0, address, 0, 1, 0, 0))];
    all.push(write(2, CDMACR, RESET));
    all.extend(copy(2, address, 512 + 0x10, 4));
    all.extend([steps(2, 1)]);
    all.extend(chain(1, 512, 512));
    all.extend([steps(1, 9), write(1, CDMACR, RESET)]);
    all
}

/// Both engines on one chain, the second so many steps behind: what the first completed is stale.
fn one_chain_for_both(behind: u16) -> Vec<u8> {
    let mut all = vec![settings(4, 16)];
    all.push(memory(64, descriptor(128, 1024, 2048, 9, 0, 0)));
    all.push(memory(128, descriptor(64, 1024, 3000, 9, 0, 0)));
    all.extend(chain(1, 64, 128));
    all.extend(chain(2, 64, 128));
    all.push(steps(1, behind));
    for _ in 0..8 {
        all.extend([steps(2, 1), steps(1, 1)]);
    }
    all.extend([read(1, CDMASR), read(2, CDMASR), read(1, CURDESC), read(2, CURDESC)]);
    numbered(&all)
}
