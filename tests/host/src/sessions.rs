// Long sequences of calls on one engine, so its states go deep: transfers and chains are
// started and stepped, between them anything may be written, and memory and windows change as they
// like. A calm session does so more seldom, and keeps its transfers within memory: else hardly a
// chain would get past its first descriptors.

use crate::calls;
use crate::coverage::Coverage;
use crate::engine_desk::{Call, EngineDesk};
use crate::queues;
use crate::spoil::KINDS;
use crate::states::{self, address};
use crate::surroundings::{calm_descriptor, descriptor, put_descriptor, windows};
use shared::random::Random;
use shared::settings;
use shared::words::{CHAIN_MODE, CURRENT, ERROR_BIT, FETCH, IDLE, PHASE};

const CONTROL: u32 = 0x00;
const CURRENT_REGISTER: u32 = 0x08;
const TAIL_REGISTER: u32 = 0x10;

pub fn session(random: &mut Random, coverage: &mut Coverage) -> Result<(), String> {
    let (width, beats) = settings::listed(random);
    let room = random.pick(&[64, 300, 1024, 4096 + 700, 3 * 4096]);
    let mut desk = EngineDesk::new(&states::fresh(width, beats), room as usize);
    let bytes = random.bytes(room);
    desk.put(0, &bytes);
    let calm = random.chance(50);
    for _ in 0..random.between(20, 150) {
        let idle = desk.words()[PHASE] == IDLE;
        if idle && random.chance(50) {
            start(random, &mut desk, calm, coverage)?;
        } else if calm && random.chance(80) {
            desk.call(Call::Step, coverage)?;
        } else {
            act(random, &mut desk, calm, coverage)?;
        }
    }
    Ok(())
}

fn act(
    random: &mut Random,
    desk: &mut EngineDesk,
    calm: bool,
    coverage: &mut Coverage,
) -> Result<(), String> {
    let words = desk.words();
    let memory = desk.memory().len() as u32;
    match random.below(100) {
        0..=39 => {
            if words[PHASE] == FETCH && !calm && random.chance(60) {
                put_descriptor(random, desk, words[CURRENT]);
            }
            desk.call(Call::Step, coverage)?;
        }
        40..=47 => {
            desk.call(Call::Run { most: calls::most(random) }, coverage)?;
        }
        48..=53 => {
            desk.call(calls::read(random), coverage)?;
        }
        54..=56 => {
            desk.call(Call::InterruptLine, coverage)?;
        }
        57..=62 => {
            desk.call(calls::write(random, &words, memory), coverage)?;
        }
        63..=80 => start(random, desk, calm, coverage)?,
        81..=84 => {
            let numbers = windows(random, &words, memory);
            let null = random.chance(50);
            desk.lend_windows(&numbers, null);
        }
        85..=87 => desk.lend_windows(&[], random.chance(50)),
        88..=90 => {
            let count = random.between(1, 40);
            let bytes = random.bytes(count);
            desk.put(random.below(memory.max(1)), &bytes);
        }
        91..=93 => other_memory(random, desk),
        94..=97 => spoiled(random, desk, coverage)?,
        _ => desk.set_words(&states::well_formed(random, memory)),
    }
    Ok(())
}

/// Starts something, where the engine lets it; a busy engine or one in error is left or reset.
pub fn start(
    random: &mut Random,
    desk: &mut EngineDesk,
    calm: bool,
    coverage: &mut Coverage,
) -> Result<(), String> {
    let words = desk.words();
    let memory = desk.memory().len() as u32;
    if words[ERROR_BIT] != 0 || words[PHASE] != IDLE {
        if words[ERROR_BIT] != 0 || random.chance(4) {
            desk.call(Call::Write { offset: CONTROL, value: 4 }, coverage)?;
        }
        return Ok(());
    }
    let enables = random.below(2) << 12 | random.below(2) << 14;
    let [read, write] = queues::any_bits(random);
    let control = enables | read << 4 | write << 5;
    if random.chance(40) {
        desk.call(Call::Write { offset: CONTROL, value: control }, coverage)?;
        let words = desk.words();
        let offsets = [0x18, 0x20, 0x28];
        let values = if calm {
            // Half the memory at most from its first half: that stays within.
            let copy = [(); 3].map(|()| random.between(1, memory / 2 + 1));
            queues::fit(random, &words, copy)
        } else {
            offsets.map(|offset| calls::value(random, offset, &words, memory))
        };
        for (offset, value) in offsets.into_iter().zip(values) {
            desk.call(Call::Write { offset, value }, coverage)?;
        }
        return Ok(());
    }
    desk.call(Call::Write { offset: CONTROL, value: control | 1 << 3 }, coverage)?;
    let places: Vec<u32> =
        (0..random.between(1, 4)).map(|_| random.below(memory / 64 + 1) * 64).collect();
    for (at, place) in places.iter().enumerate() {
        let next = places.get(at + 1).copied().unwrap_or_else(|| address(random, memory));
        let make = if calm { calm_descriptor } else { descriptor };
        let bytes = make(random, next & !63, &desk.words(), memory);
        desk.put(*place, &bytes);
    }
    // Without a new CURDESC a chain goes on at its next pointer.
    if words[CHAIN_MODE] == 0 || random.chance(70) {
        desk.call(Call::Write { offset: CURRENT_REGISTER, value: places[0] }, coverage)?;
    }
    let tail = if random.chance(80) { places[places.len() - 1] } else { random.u32() };
    desk.call(Call::Write { offset: TAIL_REGISTER, value: tail }, coverage)?;
    Ok(())
}

/// Another length of memory, from another place of the room.
fn other_memory(random: &mut Random, desk: &mut EngineDesk) {
    let room = desk.room() as u32;
    let words = desk.words();
    let length = match random.below(6) {
        0 => 0,
        // Just into what the engine judges next, or just past it.
        1 => words[CURRENT].saturating_add(random.between(20, 36)).min(room),
        2 => random.below(room + 1),
        _ => room,
    };
    let from = if random.chance(30) { random.below(room - length + 1) } else { 0 };
    desk.lend_memory(from as usize, length as usize, random.chance(50));
}

/// One call with one fault in the words, and the words as they were again.
fn spoiled(
    random: &mut Random,
    desk: &mut EngineDesk,
    coverage: &mut Coverage,
) -> Result<(), String> {
    let sound = desk.words();
    let mut words = sound;
    let kind = random.below(KINDS.len() as u32) as usize;
    (KINDS[kind].spoil)(&mut words, random);
    desk.set_words(&words);
    let call = calls::any(random, &words, desk.memory().len() as u32);
    desk.call(call, coverage)?;
    desk.set_words(&sound);
    Ok(())
}
