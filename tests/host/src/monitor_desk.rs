// Two monitors, the library's and the independent program's. Each clock is given to both, after
// which they have to be the same in every word.

use crate::coverage::Coverage;
use crate::lent::Lent;
use crate::observe_clocks::{self, Seen};
use crate::reference;
use shared::interface::{belikumba_bus_clock, Clock, Clocked, MONITOR_WORDS};
use shared::words::MonitorWords;

pub struct MonitorDesk {
    library: Lent<u32>,
    reference: Lent<u32>,
    /// Was the clock before refused, for the coverage table.
    refused: bool,
}

impl MonitorDesk {
    pub fn new() -> MonitorDesk {
        let monitor = Lent::of(&[0; MONITOR_WORDS], 0xa5a5_a5a5);
        MonitorDesk { library: monitor.clone(), reference: monitor, refused: false }
    }

    pub fn words(&self) -> MonitorWords {
        let mut words = [0; MONITOR_WORDS];
        words.copy_from_slice(self.reference.cells());
        words
    }

    pub fn set_words(&mut self, words: &MonitorWords) {
        self.library.cells_mut().copy_from_slice(words);
        self.reference.cells_mut().copy_from_slice(words);
        self.refused = false;
    }

    /// One clock on both sides; the error tells how they differ.
    pub fn clock(
        &mut self,
        (width, beats): (u32, u32),
        clock: Clock,
        coverage: &mut Coverage,
    ) -> Result<Clocked, String> {
        let before = self.words();
        // SAFETY: the header: whatever the numbers are, it reaches the 14 lent words alone.
        let given = unsafe { belikumba_bus_clock(self.library.pointer(), width, beats, clock) };
        let mut after = before;
        let expected = reference::bus_clock(&mut after, width, beats, &clock);
        self.reference.cells_mut().copy_from_slice(&after);
        if given != expected || self.library != self.reference {
            return Err(format!(
                "{clock:?} on a bus of width {width} and beats {beats}, monitor {before:?}\n  \
                 library  {given:?}, monitor {:?}\n  expected {expected:?}, monitor {after:?}\n  \
                 first word that differs, library's and expected: {:?}",
                self.library.cells(),
                self.library.difference(&self.reference),
            ));
        }
        let refused = self.refused;
        let seen =
            Seen { before: &before, after: &after, width, beats, clock: &clock, given, refused };
        observe_clocks::bus_clock(&seen, coverage);
        self.refused = given.answer != 0;
        Ok(given)
    }
}
