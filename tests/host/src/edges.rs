// Cases of engines that are gone through one by one: every register offset in every state, every
// fault with every call, the interrupt line, numbers of windows; and the lists of settings, by
// every function.

use crate::clocks::any_clock;
use crate::counts::count;
use crate::coverage::Coverage;
use crate::engine_desk::{Call, EngineDesk};
use crate::monitor_desk::MonitorDesk;
use crate::plans::{plan, Transfer};
use crate::spoil::KINDS;
use crate::states::{fresh, in_phase};
use shared::random::Random;
use shared::settings::{BEATS, WIDTHS};
use shared::words::{
    EngineWords, CHAIN_MODE, COMPLETE_ENABLE, COMPLETE_INTERRUPT, ERROR_BIT, ERROR_BITS,
    ERROR_ENABLE, ERROR_INTERRUPT, FETCH, IDLE, MOVE, MOVED, PHASE, SOURCE, TRUTHS, UPDATES,
};

const MEMORY: usize = 2048;

/// Idle in both modes and with every error bit, moving in both modes, and the phases of a chain.
pub fn states(random: &mut Random) -> Vec<EngineWords> {
    let mut states = Vec::new();
    for phase in [IDLE, FETCH, MOVE].iter().chain(&UPDATES) {
        for mode in 0..2 {
            let mut words = in_phase(random, MEMORY as u32, *phase);
            words[ERROR_BIT] = 0;
            if matches!(*phase, IDLE | MOVE) {
                words[CHAIN_MODE] = mode;
            }
            states.push(words);
            if *phase == IDLE {
                for bit in ERROR_BITS {
                    words[ERROR_BIT] = bit;
                    states.push(words);
                }
            }
        }
    }
    states
}

/// Reads and writes at every offset up to 0x30 in every state; writes with each bit alone, none and
/// all.
pub fn registers(random: &mut Random, coverage: &mut Coverage) -> Result<(), String> {
    let mut desk = EngineDesk::new(&fresh(4, 16), MEMORY);
    for words in states(random) {
        for offset in (0..=0x30).chain([0x34, 0x100, 0x1_0000, 0x8000_0000, 0xffff_fffc, u32::MAX])
        {
            desk.set_words(&words);
            desk.call(Call::Read { offset }, coverage)?;
            let bits = (0..32).map(|bit| 1 << bit);
            let any = random.u32();
            for value in bits.chain([0, u32::MAX, any, any & !4]) {
                desk.set_words(&words);
                desk.call(Call::Write { offset, value }, coverage)?;
            }
        }
    }
    Ok(())
}

/// Every combination of interrupts and enables, in every state; by the line and by CDMASR and
/// CDMACR.
pub fn interrupts(random: &mut Random, coverage: &mut Coverage) -> Result<(), String> {
    let mut desk = EngineDesk::new(&fresh(4, 16), 0);
    for mut words in states(random) {
        for bits in 0..16 {
            let places = [COMPLETE_INTERRUPT, COMPLETE_ENABLE, ERROR_INTERRUPT, ERROR_ENABLE];
            for (shift, at) in places.into_iter().enumerate() {
                words[at] = bits >> shift & 1;
            }
            desk.set_words(&words);
            desk.call(Call::InterruptLine, coverage)?;
            desk.call(Call::Read { offset: 0x00 }, coverage)?;
            desk.call(Call::Read { offset: 0x04 }, coverage)?;
        }
    }
    Ok(())
}

/// Every fault in every state, each by all five calls.
pub fn faults(random: &mut Random, coverage: &mut Coverage) -> Result<(), String> {
    let mut desk = EngineDesk::new(&fresh(4, 16), MEMORY);
    for kind in &KINDS {
        for _ in 0..20 {
            for mut words in states(random) {
                (kind.spoil)(&mut words, random);
                every_call(&mut desk, &words, coverage)?;
            }
        }
    }
    Ok(())
}

/// Words that no engine has, gone through from their lowest: truths, error bits, phases, and each
/// word of a transfer.
pub fn no_engines(random: &mut Random, coverage: &mut Coverage) -> Result<(), String> {
    let mut desk = EngineDesk::new(&fresh(4, 16), MEMORY);
    for sound in states(random) {
        let mut each = |at: usize, value: u32| {
            let mut words = sound;
            words[at] = value;
            every_call(&mut desk, &words, coverage)
        };
        for at in TRUTHS {
            for value in [0, 1, 2, 3, 0x100, 0x101, 0x1_0000, 0x8000_0000, u32::MAX] {
                each(at, value)?;
            }
        }
        for at in [ERROR_BIT, PHASE] {
            for value in (0..=70).chain((0..32).map(|bit| 1 << bit)).chain([0x104, 0x11f, u32::MAX])
            {
                each(at, value)?;
            }
        }
        for at in SOURCE..=MOVED {
            for value in [0, 1, 0x100, 0x8000_0000, u32::MAX] {
                each(at, value)?;
            }
        }
    }
    Ok(())
}

fn every_call(
    desk: &mut EngineDesk,
    words: &EngineWords,
    coverage: &mut Coverage,
) -> Result<(), String> {
    let calls = [
        Call::Read { offset: 4 },
        Call::Write { offset: 0, value: 4 },
        Call::Write { offset: 0x10, value: 64 },
        Call::Read { offset: 1 },
        Call::InterruptLine,
        Call::Step,
        Call::Run { most: 3 },
    ];
    for call in calls {
        desk.set_words(words);
        desk.call(call, coverage)?;
    }
    Ok(())
}

/// Every width and beats up to 300, beside each listed number of the other, by every function.
pub fn settings(random: &mut Random, coverage: &mut Coverage) -> Result<(), String> {
    let mut desk = EngineDesk::new(&fresh(4, 16), MEMORY);
    let mut monitor = MonitorDesk::new();
    let widths = (0..=300).flat_map(|width| BEATS.map(|beats| (width, beats)));
    let beats = (0..=300).flat_map(|beats| WIDTHS.map(|width| (width, beats)));
    let far =
        [(4 | 1 << 16, 16), (4, 16 | 1 << 16), (1 << 31, 16), (4, u32::MAX), (u32::MAX, u32::MAX)];
    for (width, beats) in widths.chain(beats).chain(far) {
        let mut words = in_phase(random, MEMORY as u32, MOVE);
        words[..2].copy_from_slice(&[width, beats]);
        every_call(&mut desk, &words, coverage)?;
        monitor.clock((width, beats), any_clock(random), coverage)?;
        let transfer = Transfer { width, beats, start: 5, count: 20 };
        plan(random, transfer, 64, coverage)?;
        count(transfer, coverage)?;
    }
    Ok(())
}

/// Windows in every number, with an odd number and without, over a burst and beside it.
pub fn window_counts(random: &mut Random, coverage: &mut Coverage) -> Result<(), String> {
    let mut desk = EngineDesk::new(&fresh(4, 16), MEMORY);
    for numbers in 0..=40 {
        for words in states(random) {
            for start in [0, 1000, MEMORY as u32 - 1, u32::MAX] {
                let windows: Vec<u32> =
                    (0..numbers).map(|at| if at % 2 == 0 { start } else { 1 }).collect();
                desk.lend_windows(&windows, false);
                for call in [Call::Step, Call::Run { most: 2 }] {
                    desk.set_words(&words);
                    desk.call(call, coverage)?;
                }
            }
        }
    }
    Ok(())
}
