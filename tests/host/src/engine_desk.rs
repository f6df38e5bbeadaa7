// Two engines with all that is lent to their calls: one is the library's, the other the independent
// program's. Each call is made on both, after which they have to be the same in every word and
// byte.

use crate::coverage::Coverage;
use crate::lent::Lent;
use crate::observe::{self, Seen};
use crate::reference;
use shared::interface::{self, Ran, Stepped, Value, ENGINE_WORDS};
use shared::words::EngineWords;

/// A call on an engine.
#[derive(Clone, Copy, Debug, PartialEq)]
pub enum Call {
    Read { offset: u32 },
    Write { offset: u32, value: u32 },
    InterruptLine,
    Step,
    Run { most: u16 },
}

/// What a call hands back.
#[derive(Clone, Copy, Debug, PartialEq)]
pub enum Given {
    Read(Value),
    Written(u32),
    Line(Value),
    Stepped(Stepped),
    Ran(Ran),
}

impl Given {
    pub fn answer(&self) -> u32 {
        match self {
            Given::Read(value) | Given::Line(value) => value.answer,
            Given::Written(answer) => *answer,
            Given::Stepped(stepped) => stepped.answer,
            Given::Ran(ran) => ran.answer,
        }
    }
}

#[derive(Clone, PartialEq)]
struct Side {
    engine: Lent<u32>,
    memory: Lent<u8>,
    windows: Lent<u32>,
}

impl Side {
    fn call_library(&mut self, call: Call) -> Given {
        let (memory_bytes, window_numbers) = (self.memory.len(), self.windows.len());
        let engine = self.engine.pointer();
        let (memory, windows) = (self.memory.pointer(), self.windows.pointer());
        // SAFETY: the header: whatever the numbers are, a call reaches the 22 words, the memory's
        // bytes and the windows' numbers alone, and all of them are lent here with their lengths.
        unsafe {
            match call {
                Call::Read { offset } => Given::Read(interface::belikumba_read(engine, offset)),
                Call::Write { offset, value } => {
                    Given::Written(interface::belikumba_write(engine, offset, value))
                }
                Call::InterruptLine => Given::Line(interface::belikumba_interrupt_line(engine)),
                Call::Step => Given::Stepped(interface::belikumba_step(
                    engine,
                    memory,
                    memory_bytes,
                    windows,
                    window_numbers,
                )),
                Call::Run { most } => Given::Ran(interface::belikumba_run(
                    engine,
                    memory,
                    memory_bytes,
                    windows,
                    window_numbers,
                    most,
                )),
            }
        }
    }

    fn call_reference(&mut self, call: Call) -> Given {
        let mut words = self.words();
        let (memory, windows) = (self.memory.cells_mut(), self.windows.cells());
        let given = match call {
            Call::Read { offset } => Given::Read(reference::read(&words, offset)),
            Call::Write { offset, value } => {
                Given::Written(reference::write(&mut words, offset, value))
            }
            Call::InterruptLine => Given::Line(reference::interrupt_line(&words)),
            Call::Step => Given::Stepped(reference::step(&mut words, memory, windows)),
            Call::Run { most } => Given::Ran(reference::run(&mut words, memory, windows, most)),
        };
        self.engine.cells_mut().copy_from_slice(&words);
        given
    }

    fn words(&self) -> EngineWords {
        let mut words = [0; ENGINE_WORDS];
        words.copy_from_slice(self.engine.cells());
        words
    }
}

#[derive(Clone)]
pub struct EngineDesk {
    library: Side,
    reference: Side,
    /// What changed since the last step or run, for the coverage table.
    changed: observe::Changed,
}

impl EngineDesk {
    /// Lends these words, no windows, and `room` bytes of memory, all 0.
    pub fn new(words: &EngineWords, room: usize) -> EngineDesk {
        let mut windows = Lent::new(64, 0x5a5a_5a5a);
        windows.lend(0, 0);
        // A margin of zeros would hide a zero that is written into it.
        let mut memory = Lent::new(room, 0xa5);
        memory.cells_mut().fill(0);
        let side = Side { engine: Lent::of(words, 0xa5a5_a5a5), memory, windows };
        let changed = observe::Changed::default();
        EngineDesk { library: side.clone(), reference: side, changed }
    }

    pub fn words(&self) -> EngineWords {
        self.reference.words()
    }

    pub fn set_words(&mut self, words: &EngineWords) {
        for side in [&mut self.library, &mut self.reference] {
            side.engine.cells_mut().copy_from_slice(words);
        }
    }

    pub fn memory(&self) -> &[u8] {
        self.reference.memory.cells()
    }

    pub fn room(&self) -> usize {
        self.reference.memory.room()
    }

    /// Puts bytes into memory, as far as it reaches.
    pub fn put(&mut self, address: u32, bytes: &[u8]) {
        for side in [&mut self.library, &mut self.reference] {
            let memory = side.memory.cells_mut();
            let from = memory.len().min(address as usize);
            for (cell, byte) in memory[from..].iter_mut().zip(bytes) {
                *cell = *byte;
            }
        }
        self.changed.bytes = true;
    }

    /// Lends other bytes of the room as memory.
    pub fn lend_memory(&mut self, from: usize, length: usize, null_where_empty: bool) {
        self.changed.longer |= length > self.reference.memory.len();
        self.changed.shorter |= length < self.reference.memory.len();
        for side in [&mut self.library, &mut self.reference] {
            side.memory.lend(from, length);
            side.memory.null_where_empty = null_where_empty;
        }
    }

    pub fn lend_windows(&mut self, numbers: &[u32], null_where_empty: bool) {
        for side in [&mut self.library, &mut self.reference] {
            side.windows.lend(0, numbers.len());
            side.windows.cells_mut().copy_from_slice(numbers);
            side.windows.null_where_empty = null_where_empty;
        }
        self.changed.windows = true;
    }

    /// Makes one call on both sides; the error tells how they differ.
    pub fn call(&mut self, call: Call, coverage: &mut Coverage) -> Result<Given, String> {
        let before = self.words();
        let given = self.library.call_library(call);
        let expected = self.reference.call_reference(call);
        if given != expected || self.library != self.reference {
            return Err(self.tell(call, &before, given, expected));
        }
        let seen = Seen {
            before: &before,
            after: &self.words(),
            memory: self.reference.memory.cells(),
            null: self.reference.memory.is_null(),
            windows: self.reference.windows.cells(),
            changed: self.changed,
            call,
            given: expected,
        };
        observe::engine_call(&seen, coverage);
        if matches!(call, Call::Step | Call::Run { .. }) {
            self.changed = observe::Changed::default();
        }
        Ok(expected)
    }

    /// The events that the independent program tells of a run of at most `most` steps.
    pub fn events(&self, most: u16) -> Vec<Stepped> {
        let mut side = self.reference.clone();
        let mut words = side.words();
        reference::run_events(&mut words, side.memory.cells_mut(), side.windows.cells(), most)
    }

    /// The library's engine and all that was lent to it are the same in every word and byte.
    pub fn same(&self, other: &EngineDesk) -> bool {
        self.library == other.library
    }

    /// Both of them, told for a difference.
    pub fn beside(&self, other: &EngineDesk) -> String {
        let memory = self.library.memory.difference(&other.library.memory);
        let (engine, other) = (self.library.engine.cells(), other.library.engine.cells());
        format!("engine {engine:?}\n  and    {other:?}, first byte that differs {memory:?}")
    }

    fn tell(&self, call: Call, before: &EngineWords, given: Given, expected: Given) -> String {
        let mut told = format!(
            "{call:?} on engine {before:?}\n  with {} bytes of memory and windows {:?}\n  \
             library  {given:?}, engine {:?}\n  expected {expected:?}, engine {:?}",
            self.reference.memory.len(),
            self.reference.windows.cells(),
            self.library.engine.cells(),
            self.reference.engine.cells(),
        );
        let (library, reference) = (&self.library, &self.reference);
        let mut add = |what: &str, difference: Option<(isize, u32, u32)>| {
            if let Some((at, left, right)) = difference {
                told += &format!("\n  {what} {at}: library {left}, expected {right}");
            }
        };
        add("word", library.engine.difference(&reference.engine));
        add("window number", library.windows.difference(&reference.windows));
        let memory = library.memory.difference(&reference.memory);
        add("byte", memory.map(|(at, left, right)| (at, u32::from(left), u32::from(right))));
        told
    }
}
