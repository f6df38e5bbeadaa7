// Counts what a call on an engine did. The two sides agree by then, so it looks at one of
// them.

use independent::answer::settings_listed;
use independent::cut::LONGEST as MOST_BYTES;
use independent::engine::Engine;
use independent::memory::LONGEST as MOST_MEMORY;
use shared::coverage::CDMACR_BITS;
use shared::interface::Value;
use shared::key_hole::{self, BY_BTT};
use shared::registers::{none_at, CDMACR, CHAIN};

use crate::coverage::{Coverage, Function};
use crate::engine_desk::{Call, Given};
use crate::observe_steps;
use shared::words::{
    self, EngineWords, BEATS, CHAIN_MODE, COMPLETE_ENABLE, COMPLETE_INTERRUPT, COUNT_REGISTER,
    CURRENT, DESTINATION, DESTINATION_REGISTER, ERROR_BIT, ERROR_ENABLE, ERROR_INTERRUPT, IDLE,
    MOVE, MOVED, PHASE, SOURCE, SOURCE_REGISTER, TAIL, TOTAL, WIDTH,
};

/// What was changed since the last step or run.
#[derive(Clone, Copy, Default)]
pub struct Changed {
    pub bytes: bool,
    pub longer: bool,
    pub shorter: bool,
    pub windows: bool,
}

/// One call and all around it.
pub struct Seen<'a> {
    pub before: &'a EngineWords,
    pub after: &'a EngineWords,
    /// Memory after the call, and whether it was lent by a null pointer.
    pub memory: &'a [u8],
    pub null: bool,
    pub windows: &'a [u32],
    pub changed: Changed,
    pub call: Call,
    pub given: Given,
}

impl Seen<'_> {
    fn function(&self) -> Function {
        match self.call {
            Call::Read { .. } => Function::Read,
            Call::Write { .. } => Function::Write,
            Call::InterruptLine => Function::InterruptLine,
            Call::Step => Function::Step,
            Call::Run { .. } => Function::Run,
        }
    }

    pub fn became(&self, at: usize) -> bool {
        self.before[at] == 0 && self.after[at] != 0
    }
}

pub fn engine_call(seen: &Seen, coverage: &mut Coverage) {
    let answer = seen.given.answer();
    coverage.answer(seen.function(), answer, seen.before[WIDTH], seen.before[BEATS]);
    beside(seen, answer, coverage);
    if answer == 0 {
        edges(seen.before, coverage);
    }
    match seen.call {
        Call::Read { offset } => {
            if let Some(engine) = taken(seen.before) {
                coverage.read(offset, &engine);
            }
            if let (CDMACR, Given::Read(Value { answer: 0, value })) = (offset, seen.given) {
                coverage.bits(CDMACR_BITS, value);
            }
        }
        Call::Write { offset, value } => write(seen, offset, value, answer, coverage),
        Call::InterruptLine => line(seen, coverage),
        Call::Step | Call::Run { .. } => observe_steps::lent(seen, answer, coverage),
    }
}

/// Which other refusals held.
fn beside(seen: &Seen, answer: u32, coverage: &mut Coverage) {
    if answer == 0 {
        return;
    }
    let before = seen.before;
    let settings = (1, !settings_listed(before[WIDTH], before[BEATS]));
    let engine = words::engine(before);
    let state = (9, !engine.is_some_and(|engine| engine.well_formed()));
    let held = match seen.call {
        Call::InterruptLine => vec![settings, state],
        Call::Read { offset } => vec![settings, state, (3, none_at(offset))],
        Call::Write { offset, .. } => {
            let chain = before[CHAIN_MODE] == 1;
            // An error bit stands with an idle engine alone, which leaves the wrong mode.
            let mode = offset == 0x10 && !chain || offset == 0x28 && chain;
            vec![settings, state, (3, none_at(offset)), (4, mode)]
        }
        Call::Step | Call::Run { .. } => {
            let long = seen.memory.len() > MOST_MEMORY;
            vec![settings, (2, long), (6, seen.windows.len() / 2 > 16), state]
        }
    };
    coverage.beside(seen.function(), answer, &held);
}

/// Words as far out as a well-formed engine has them.
fn edges(words: &EngineWords, coverage: &mut Coverage) {
    if words[PHASE] == MOVE {
        let top = |at: usize| words[at].checked_add(words[MOVED]) == Some(u32::MAX);
        coverage.see_if(words[MOVED] + 1 == words[TOTAL], "moved one below the total");
        coverage.see_if(words[TOTAL] == MOST_BYTES, "total of 8,388,607");
        coverage.see_if(top(SOURCE), "source + moved of 2^32 - 1");
        coverage.see_if(top(DESTINATION), "destination + moved of 2^32 - 1");
    }
    coverage.see_if(words[COUNT_REGISTER] == MOST_BYTES, "count register of 8,388,607");
    coverage.see_if(words[CURRENT] == u32::MAX - 63, "current pointer of 2^32 - 64");
}

/// The engine of the words, if it is one that is taken.
fn taken(words: &EngineWords) -> Option<Engine> {
    words::engine(words)
        .filter(|engine| engine.well_formed() && settings_listed(engine.width, engine.beats))
}

fn write(seen: &Seen, offset: u32, value: u32, answer: u32, coverage: &mut Coverage) {
    let (before, after) = (seen.before, seen.after);
    let Some(engine) = taken(before) else {
        return;
    };
    coverage.write(offset, &engine);
    coverage.see_if(offset > 0x30, "offset above 0x30");
    if let Some(after) = words::engine(after) {
        key_hole::see_write(&engine, offset, value, &after, coverage);
    }
    let busy = before[PHASE] != IDLE;
    let cleared = |at: usize| before[at] == 1 && after[at] == 0;
    match offset {
        0x00 if value & 4 != 0 => {
            coverage.see_if(busy, "reset of a busy engine");
            coverage.see_if(before[ERROR_BIT] != 0, "reset of an engine in error");
        }
        0x00 if busy => {
            let enables = COMPLETE_ENABLE..=ERROR_ENABLE;
            coverage
                .see_if(before[enables.clone()] != after[enables], "enables written while busy");
            let mode = answer == 4 && u32::from(value & CHAIN != 0) != before[CHAIN_MODE];
            coverage.see_if(mode, "change of mode while busy");
        }
        0x04 => {
            coverage.see_if(cleared(COMPLETE_INTERRUPT), "IOC_Irq cleared by a write");
            let left = cleared(ERROR_INTERRUPT) && after[ERROR_BIT] != 0;
            coverage.see_if(left, "Err_Irq cleared by a write, the error bit left");
        }
        0x10 if answer == 0 => {
            coverage.see_if(busy && before[TAIL] != after[TAIL], "tail replaced while busy");
            coverage.see_if(!busy, "start of a chain");
        }
        0x28 if answer == 0 => {
            coverage.see_if(after[PHASE] == MOVE, "start of a simple move");
            let zero = value & MOST_BYTES == 0;
            coverage.see_if(zero, "4 by a BTT write of zero");
            coverage.see_if(zero && value != 0, "BTT of zero with bits above 22");
            let refused = seen.became(ERROR_BIT) && !zero;
            coverage.see_if(refused, "4 by a BTT write with a fixed side");
            let copy = [before[SOURCE_REGISTER], before[DESTINATION_REGISTER], value];
            key_hole::see_start(&engine, BY_BTT, copy, coverage);
        }
        _ => {}
    }
}

fn line(seen: &Seen, coverage: &mut Coverage) {
    let Given::Line(line) = seen.given else {
        return;
    };
    if line.answer != 0 {
        return;
    }
    let up = |at: usize| seen.before[at] == 1;
    let (complete, complete_enabled) = (up(COMPLETE_INTERRUPT), up(COMPLETE_ENABLE));
    let (error, error_enabled) = (up(ERROR_INTERRUPT), up(ERROR_ENABLE));
    let bits = [complete, complete_enabled, error, error_enabled];
    let row = bits.iter().fold(0, |row, bit| row << 1 | usize::from(*bit));
    coverage.lines[row] += 1;
    coverage.see(match (line.value, complete && complete_enabled, error && error_enabled) {
        (0, _, _) if !complete && !error && (complete_enabled || error_enabled) => {
            "low with an enable and no interrupt of its own"
        }
        (0, _, _) if !complete && !error => "low with no interrupt",
        (0, _, _) => "low with an interrupt that is not enabled",
        (_, true, true) => "high by both",
        (_, true, false) => "high by IOC_Irq alone",
        _ => "high by Err_Irq alone",
    });
}
