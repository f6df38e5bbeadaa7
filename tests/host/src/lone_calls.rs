// Single calls on engines that no session need reach: any well-formed one, any with one fault, any
// numbers at all.

use crate::calls;
use crate::coverage::Coverage;
use crate::engine_desk::{Call, EngineDesk, Given};
use crate::spoil::KINDS;
use crate::states::{self, well_formed};
use crate::surroundings::{put_descriptor, windows};
use shared::interface::ENGINE_WORDS;
use shared::random::Random;
use shared::settings;
use shared::words::{EngineWords, BEATS, CURRENT, FETCH, PHASE, WIDTH};

/// Some engines in turn beside one memory, each called in every way.
pub fn lone_calls(random: &mut Random, coverage: &mut Coverage) -> Result<(), String> {
    let room = random.pick(&[0, 31, 64, 500, 4096, 4096 + 900]);
    let mut desk = EngineDesk::new(&states::fresh(4, 16), room as usize);
    let bytes = random.bytes(room);
    desk.put(0, &bytes);
    for _ in 0..12 {
        match random.below(10) {
            0..=4 => sound(random, &mut desk, coverage)?,
            5..=7 => spoiled(random, &mut desk, coverage)?,
            8 => unlisted(random, &mut desk, coverage)?,
            _ => numbers(random, &mut desk, coverage)?,
        }
    }
    Ok(())
}

/// Five calls, each on these very words.
fn each(
    random: &mut Random,
    desk: &mut EngineDesk,
    words: &EngineWords,
    coverage: &mut Coverage,
) -> Result<[Given; 5], String> {
    let memory = desk.memory().len() as u32;
    let most = calls::most(random);
    let calls = [
        calls::read(random),
        calls::write(random, words, memory),
        Call::InterruptLine,
        Call::Step,
        Call::Run { most },
    ];
    let mut given = [Given::Written(0); 5];
    for (given, call) in given.iter_mut().zip(calls) {
        desk.set_words(words);
        *given = desk.call(call, coverage)?;
    }
    Ok(given)
}

fn lend_windows(random: &mut Random, desk: &mut EngineDesk, words: &EngineWords) {
    let numbers = windows(random, words, desk.memory().len() as u32);
    desk.lend_windows(&numbers, random.chance(50));
}

fn sound(
    random: &mut Random,
    desk: &mut EngineDesk,
    coverage: &mut Coverage,
) -> Result<(), String> {
    let words = well_formed(random, desk.memory().len() as u32);
    if words[PHASE] == FETCH && random.chance(70) {
        put_descriptor(random, desk, words[CURRENT]);
    }
    lend_windows(random, desk, &words);
    each(random, desk, &words, coverage)?;
    Ok(())
}

/// One fault alone, which is answered 9 by every call.
fn spoiled(
    random: &mut Random,
    desk: &mut EngineDesk,
    coverage: &mut Coverage,
) -> Result<(), String> {
    let mut words = well_formed(random, desk.memory().len() as u32);
    let kind = random.below(KINDS.len() as u32) as usize;
    (KINDS[kind].spoil)(&mut words, random);
    lend_windows(random, desk, &words);
    let given = each(random, desk, &words, coverage)?;
    for (at, given) in given.iter().enumerate() {
        // Too many windows come before it.
        if given.answer() != 6 {
            assert_eq!(given.answer(), 9, "{} leaves {words:?} well formed", KINDS[kind].name);
            coverage.spoiled[kind][at] += 1;
        }
    }
    Ok(())
}

/// Settings off their lists, with an engine of any kind.
fn unlisted(
    random: &mut Random,
    desk: &mut EngineDesk,
    coverage: &mut Coverage,
) -> Result<(), String> {
    let mut words = well_formed(random, desk.memory().len() as u32);
    if random.chance(40) {
        let kind = random.below(KINDS.len() as u32) as usize;
        (KINDS[kind].spoil)(&mut words, random);
    }
    (words[WIDTH], words[BEATS]) = settings::unlisted(random);
    lend_windows(random, desk, &words);
    each(random, desk, &words, coverage)?;
    Ok(())
}

/// Numbers of any kind, or a sound engine with one word that is any.
fn numbers(
    random: &mut Random,
    desk: &mut EngineDesk,
    coverage: &mut Coverage,
) -> Result<(), String> {
    let memory = desk.memory().len() as u32;
    let mut words = well_formed(random, memory);
    let from = random.below(ENGINE_WORDS as u32) as usize;
    let to = if random.chance(50) { from + 1 } else { ENGINE_WORDS };
    for word in &mut words[from..to] {
        *word = match random.below(3) {
            0 => random.below(33),
            1 => states::address(random, memory),
            _ => random.u32(),
        };
    }
    lend_windows(random, desk, &words);
    each(random, desk, &words, coverage)?;
    Ok(())
}
