// The engine: its state, registers, descriptor steps and runs.
// From RULES.md, "Numbered answers" (order, well formed), "Registers" and "Descriptor and steps".

use crate::answer;
use crate::cut;
use crate::memory::{self, Side, Verdict, Window};

/// How a chain transfer ended, while it waits for its update.
#[derive(Clone, Copy, Debug, PartialEq, Eq)]
pub enum Outcome {
    Complete,
    Internal,
    Slave,
    Decode,
}

/// A transfer that moves.
#[derive(Clone, Copy, Debug, PartialEq, Eq)]
pub struct Transfer {
    pub source: u32,
    pub destination: u32,
    pub total: u32,
    pub moved: u32,
}

/// What the next step does.
#[derive(Clone, Copy, Debug, PartialEq, Eq)]
pub enum Phase {
    Idle,
    Fetch,
    Move(Transfer),
    Update(Outcome),
}

/// What one step did. Bits are CDMASR bit numbers, `current` is that before the step, `place` is
/// the byte that a burst failed at.
#[derive(Clone, Copy, Debug, PartialEq, Eq)]
pub enum Event {
    None,
    Fetch { current: u32 },
    Move { start: u32, bytes: u32 },
    Fault { place: u32, bit: u32 },
    Update { current: u32, word: u32 },
    Halt { current: u32, bit: u32 },
}

#[derive(Clone, Debug, PartialEq, Eq)]
pub struct Engine {
    pub width: u32,
    pub beats: u32,
    /// The error bits of CDMASR, in their places.
    pub errors: u32,
    pub current: u32,
    pub tail: u32,
    pub next: u32,
    pub held_next: u32,
    pub sa: u32,
    pub da: u32,
    pub btt: u32,
    pub phase: Phase,
    pub sg_mode: bool,
    /// The source is fixed.
    pub key_hole_read: bool,
    /// The destination is fixed.
    pub key_hole_write: bool,
    pub ioc_enable: bool,
    pub err_enable: bool,
    pub ioc_irq: bool,
    pub err_irq: bool,
}

// Bit numbers of CDMACR.
const RESET: u32 = 2;
const SG_MODE: u32 = 3;
const KEY_HOLE_READ: u32 = 4;
const KEY_HOLE_WRITE: u32 = 5;
// Bit numbers of CDMASR.
const IDLE: u32 = 1;
const SG_INCLUDED: u32 = 3;
const DMA_INT_ERR: u32 = 4;
const DMA_SLV_ERR: u32 = 5;
const DMA_DEC_ERR: u32 = 6;
pub(crate) const SG_INT_ERR: u32 = 8;
const SG_SLV_ERR: u32 = 9;
const SG_DEC_ERR: u32 = 10;
// Bit numbers of both: the interrupt or its enable.
const IOC: u32 = 12;
const ERR: u32 = 14;
// Bits 23..16 of both, which read 1 as a field, and bit 1 of CDMACR.
const THRESHOLD: u32 = 1 << 16;
const TAIL_ENABLE: u32 = 1 << 1;

// Reading: BTT is 23 bits wide, in the register and in the descriptor.
const BTT_BITS: u32 = cut::LONGEST;
// The low six bits of a pointer are dropped. Reading: descriptors at multiples of 64.
const POINTER_BITS: u32 = !63;
pub(crate) const DESCRIPTOR: usize = 32;
pub(crate) const STATUS: u32 = 0x1c;
/// The most beats of a piece that goes to a fixed destination.
const MOST_FIXED_BEATS: u32 = 16;
/// Bytes of a full burst at width 4, beats 16.
const FULL_BURST: usize = 64;

#[inline]
fn bit(word: u32, number: u32) -> bool {
    word >> number & 1 == 1
}

#[inline]
fn word(bytes: &[u8; DESCRIPTOR], at: usize) -> u32 {
    u32::from_le_bytes([bytes[at], bytes[at + 1], bytes[at + 2], bytes[at + 3]])
}

/// Copies a burst that is good. Reading: "read before written" holds within one burst.
#[inline]
fn copy(memory: &mut [u8], from: u32, to: u32, bytes: u32) {
    let (from, to, bytes) = (from as usize, to as usize, bytes as usize);
    // The full burst of the usual settings has a fixed length, which needs no call.
    if bytes == FULL_BURST {
        let burst: [u8; FULL_BURST] = memory[from..from + FULL_BURST].try_into().expect("a burst");
        memory[to..to + FULL_BURST].copy_from_slice(&burst);
    } else {
        memory.copy_within(from..from + bytes, to);
    }
}

impl Engine {
    /// A fresh engine: simple mode, idle, all else 0.
    /// Reading: made with any settings; the first call on it answers 1 where they are off the lists.
    pub fn fresh(width: u32, beats: u32) -> Engine {
        Engine {
            width,
            beats,
            errors: 0,
            current: 0,
            tail: 0,
            next: 0,
            held_next: 0,
            sa: 0,
            da: 0,
            btt: 0,
            phase: Phase::Idle,
            sg_mode: false,
            key_hole_read: false,
            key_hole_write: false,
            ioc_enable: false,
            err_enable: false,
            ioc_irq: false,
            err_irq: false,
        }
    }

    /// Reading: an error bit is CDMASR 4, 5, 6, 8, 9 or 10; Err_Irq is none.
    #[inline]
    pub fn in_error(&self) -> bool {
        self.errors != 0
    }

    /// Reading: busy is phase not idle.
    #[inline]
    pub fn idle(&self) -> bool {
        matches!(self.phase, Phase::Idle)
    }

    #[inline]
    pub fn well_formed(&self) -> bool {
        if (self.current | self.tail | self.next | self.held_next) & !POINTER_BITS != 0 {
            return false;
        }
        if self.btt > cut::LONGEST {
            return false;
        }
        if self.in_error() && !self.idle() {
            return false;
        }
        match self.phase {
            Phase::Idle => true,
            Phase::Fetch | Phase::Update(_) => self.sg_mode,
            Phase::Move(Transfer { source, destination, total, moved }) => {
                moved < total
                    && total <= cut::LONGEST
                    && source.checked_add(moved).is_some()
                    && destination.checked_add(moved).is_some()
            }
        }
    }

    /// The refusals 1 and 9, which a read and a write share.
    #[inline]
    fn admit_access(&self) -> u32 {
        if !answer::settings_listed(self.width, self.beats) {
            answer::SETTINGS
        } else if !self.well_formed() {
            // Reading: a bad offset on a state not well formed is 9, and Reset does not rescue it.
            answer::STATE
        } else {
            answer::DONE
        }
    }

    /// The refusals 1, 2, 6, 9 of a step or a run.
    /// Reading: they come before "idle: nothing"; exactly 16,777,216 bytes and none are allowed.
    #[inline]
    pub(crate) fn admit_steps(&self, memory: usize, windows: usize) -> u32 {
        if !answer::settings_listed(self.width, self.beats) {
            answer::SETTINGS
        } else if memory > memory::LONGEST {
            answer::MEMORY
        } else if windows > memory::MOST_WINDOWS {
            answer::WINDOWS
        } else if !self.well_formed() {
            answer::STATE
        } else {
            answer::DONE
        }
    }

    fn control_word(&self) -> u32 {
        TAIL_ENABLE
            | THRESHOLD
            | u32::from(self.sg_mode) << SG_MODE
            | u32::from(self.key_hole_read) << KEY_HOLE_READ
            | u32::from(self.key_hole_write) << KEY_HOLE_WRITE
            | u32::from(self.ioc_enable) << IOC
            | u32::from(self.err_enable) << ERR
    }

    fn status_word(&self) -> u32 {
        THRESHOLD
            | 1 << SG_INCLUDED
            | u32::from(self.idle()) << IDLE
            | self.errors
            | u32::from(self.ioc_irq) << IOC
            | u32::from(self.err_irq) << ERR
    }

    /// Reads a register: the answer and the value (0 beside every answer but 0).
    pub fn read(&self, offset: u32) -> (u32, u32) {
        match self.admit_access() {
            answer::DONE => self.read_admitted(offset),
            answer => (answer, 0),
        }
    }

    /// A read of an engine that is not refused.
    #[inline]
    pub(crate) fn read_admitted(&self, offset: u32) -> (u32, u32) {
        let value = match offset {
            0x00 => self.control_word(),
            0x04 => self.status_word(),
            0x08 => self.current,
            0x10 => self.tail,
            0x18 => self.sa,
            0x20 => self.da,
            0x28 => self.btt,
            0x0c | 0x14 | 0x1c | 0x24 => 0, // upper halves
            _ => return (answer::OFFSET, 0),
        };
        (answer::DONE, value)
    }

    /// Writes a register. Each rule below puts 5 before 4 (reading: both fit, then 5).
    pub fn write(&mut self, offset: u32, value: u32) -> u32 {
        match self.admit_access() {
            answer::DONE => self.write_admitted(offset, value),
            answer => answer,
        }
    }

    /// A write to an engine that is not refused.
    #[inline]
    pub(crate) fn write_admitted(&mut self, offset: u32, value: u32) -> u32 {
        let busy = !self.idle();
        match offset {
            0x00 => {
                // Reading: Reset acts at once, also while busy or in error.
                if bit(value, RESET) {
                    *self = Engine::fresh(self.width, self.beats);
                    return answer::DONE;
                }
                let sg_mode = bit(value, SG_MODE);
                let key_hole_read = bit(value, KEY_HOLE_READ);
                let key_hole_write = bit(value, KEY_HOLE_WRITE);
                let changed = sg_mode != self.sg_mode
                    || key_hole_read != self.key_hole_read
                    || key_hole_write != self.key_hole_write;
                // Reading: a write that gets 4 leaves the enables too; one that changes none of the
                // three bits while busy sets them; changing SGMode clears no pointer.
                if busy && changed {
                    return answer::BUSY;
                }
                self.sg_mode = sg_mode;
                self.key_hole_read = key_hole_read;
                self.key_hole_write = key_hole_write;
                self.ioc_enable = bit(value, IOC);
                self.err_enable = bit(value, ERR);
            }
            0x04 => {
                // Reading: writable with an error bit set, and lifts none of them.
                self.ioc_irq &= !bit(value, IOC);
                self.err_irq &= !bit(value, ERR);
            }
            0x08 | 0x10 | 0x18 | 0x20 | 0x28 => {
                if self.in_error() {
                    return answer::ERROR;
                }
                return self.write_transfer(offset, value, busy);
            }
            // Upper halves. Reading: answer 0 in every state that is well formed.
            0x0c | 0x14 | 0x1c | 0x24 => {}
            _ => return answer::OFFSET,
        }
        answer::DONE
    }

    /// CURDESC, TAILDESC, SA, DA and BTT, with no error bit set.
    fn write_transfer(&mut self, offset: u32, value: u32, busy: bool) -> u32 {
        // TAILDESC alone may be written while busy, and alone asks for chain mode.
        if offset == 0x10 {
            // Reading: in simple mode it stores nothing.
            if !self.sg_mode {
                return answer::BUSY;
            }
            self.tail = value & POINTER_BITS;
            if !busy {
                // Reading: current becomes next at once; a start clears no interrupt bit.
                self.current = self.next;
                self.phase = Phase::Fetch;
            }
            return answer::DONE;
        }
        if busy {
            return answer::BUSY;
        }
        match offset {
            // Reading: CURDESC is writable in simple mode too, SA and DA in chain mode.
            0x08 => {
                self.current = value & POINTER_BITS;
                self.next = self.current;
            }
            0x18 => self.sa = value,
            0x20 => self.da = value,
            _ => {
                if self.sg_mode {
                    return answer::BUSY;
                }
                // Reading: zero is judged on the 23 bits kept, and a zero write stores 0.
                self.btt = value & BTT_BITS;
                let (source, destination, total) = (self.sa, self.da, self.btt);
                if total == 0 || !self.multiples(source, destination, total) {
                    self.halt(DMA_INT_ERR);
                } else {
                    self.phase = Phase::Move(Transfer { source, destination, total, moved: 0 });
                }
            }
        }
        answer::DONE
    }

    /// Are the start of each fixed side and the count multiples of W?
    /// Reading: the start of a side that is not fixed is not tested.
    fn multiples(&self, source: u32, destination: u32, total: u32) -> bool {
        let multiple = |number: u32| number.is_multiple_of(self.width);
        (!self.key_hole_read || multiple(source) && multiple(total))
            && (!self.key_hole_write || multiple(destination) && multiple(total))
    }

    /// Is source or destination fixed?
    #[inline]
    fn key_hole(&self) -> bool {
        self.key_hole_read || self.key_hole_write
    }

    /// Idle and Err_Irq set with one error bit, current kept.
    fn halt(&mut self, bit: u32) {
        self.errors |= 1 << bit;
        self.err_irq = true;
        self.phase = Phase::Idle;
    }

    /// One step: the answer and the event (none beside every answer but 0).
    /// Reading: each step judges the memory and the windows it is lent.
    pub fn step(&mut self, memory: &mut [u8], windows: &[Window]) -> (u32, Event) {
        let answer = self.admit_steps(memory.len(), windows.len());
        if answer != answer::DONE {
            return (answer, Event::None);
        }
        (answer::DONE, self.advance(memory, windows))
    }

    /// Steps until idle or `n` taken: the answer and the steps taken.
    /// Reading: a run judges its refusals once, at its start.
    pub fn run(&mut self, memory: &mut [u8], windows: &[Window], n: u16) -> (u32, u16) {
        self.run_telling(memory, windows, n, |_| ())
    }

    /// The same with the run's events, those of its steps in order: one a step, so none beside
    /// every answer but 0.
    pub fn run_events(
        &mut self,
        memory: &mut [u8],
        windows: &[Window],
        n: u16,
    ) -> (u32, u16, Vec<Event>) {
        let mut events = Vec::new();
        let (answer, steps) = self.run_telling(memory, windows, n, |event| events.push(event));
        (answer, steps, events)
    }

    /// A run that tells the event of each step.
    #[inline]
    pub(crate) fn run_telling(
        &mut self,
        memory: &mut [u8],
        windows: &[Window],
        n: u16,
        mut tell: impl FnMut(Event),
    ) -> (u32, u16) {
        let answer = self.admit_steps(memory.len(), windows.len());
        if answer != answer::DONE {
            return (answer, 0);
        }
        let mut steps = 0;
        while steps < n {
            match self.phase {
                Phase::Idle => break,
                Phase::Fetch => tell(self.fetch(memory, windows)),
                Phase::Move(transfer) if self.key_hole() => {
                    tell(self.key_hole_burst(memory, windows, transfer));
                }
                Phase::Move(transfer) => {
                    let taken = self.good_bursts(memory, windows, transfer, n - steps, &mut tell);
                    // A burst that fails is left to a step of its own.
                    if taken > 0 {
                        steps += taken;
                        continue;
                    }
                    tell(self.burst(memory, windows, transfer));
                }
                Phase::Update(outcome) => tell(self.update(memory, windows, outcome)),
            }
            steps += 1;
        }
        (answer::DONE, steps)
    }

    /// Moves bursts up to the first that fails, the transfer's end or `most` of them, and gives
    /// their number; both sides increment. How far source and destination are good is asked once, since a burst changes
    /// bytes and not how they answer.
    #[inline]
    fn good_bursts(
        &mut self,
        memory: &mut [u8],
        windows: &[Window],
        transfer: Transfer,
        most: u16,
        mut tell: impl FnMut(Event),
    ) -> u16 {
        let Transfer { source, destination, total, mut moved } = transfer;
        let (width, beats, length) = (self.width, self.beats, memory.len());
        let left = total - moved;
        let good = memory::good_bytes(length, windows, source + moved, left);
        let good = moved + memory::good_bytes(length, windows, destination + moved, good);
        let mut steps = 0;
        while steps < most && moved < good {
            let to = destination + moved;
            let bytes = cut::first_burst(width, beats, to, total - moved);
            if bytes > good - moved {
                break;
            }
            copy(memory, source + moved, to, bytes);
            moved += bytes;
            steps += 1;
            tell(Event::Move { start: to, bytes });
        }
        self.phase = self.moved_to(Transfer { moved, ..transfer });
        steps
    }

    /// The phase after good bursts. Chain mode goes to update after the last one, simple mode ends.
    #[inline(always)]
    fn moved_to(&mut self, transfer: Transfer) -> Phase {
        if transfer.moved < transfer.total {
            Phase::Move(transfer)
        } else if self.sg_mode {
            Phase::Update(Outcome::Complete)
        } else {
            self.ioc_irq = true;
            Phase::Idle
        }
    }

    /// (IOC_Irq and its enable) or (Err_Irq and its enable).
    pub fn interrupt_line(&self) -> bool {
        self.ioc_irq && self.ioc_enable || self.err_irq && self.err_enable
    }

    /// One step without the refusals: they are judged, and steps keep the state well formed.
    #[inline(always)]
    fn advance(&mut self, memory: &mut [u8], windows: &[Window]) -> Event {
        match self.phase {
            Phase::Idle => Event::None,
            Phase::Fetch => self.fetch(memory, windows),
            Phase::Move(transfer) if self.key_hole() => {
                self.key_hole_burst(memory, windows, transfer)
            }
            Phase::Move(transfer) => self.burst(memory, windows, transfer),
            Phase::Update(outcome) => self.update(memory, windows, outcome),
        }
    }

    /// Fetch. Reading: tests in the order decode, slave, stale, zero count.
    #[inline(always)]
    fn fetch(&mut self, memory: &[u8], windows: &[Window]) -> Event {
        let current = self.current;
        let failed = match memory::verdict(memory.len(), windows, [current], DESCRIPTOR as u32) {
            Verdict::Decode => SG_DEC_ERR,
            Verdict::Slave => SG_SLV_ERR,
            Verdict::Okay => {
                let at = current as usize;
                let mut descriptor = [0; DESCRIPTOR];
                descriptor.copy_from_slice(&memory[at..at + DESCRIPTOR]);
                // Reading: stale looks at bit 31 alone, and SGIntErr comes from it only.
                if !bit(word(&descriptor, STATUS as usize), 31) {
                    return self.take(&descriptor);
                }
                SG_INT_ERR
            }
        };
        // The rules leave open whether a halting fetch keeps the next it read: held next stays here.
        self.halt(failed);
        Event::Halt { current, bit: failed }
    }

    /// A good fetch: holds the next pointer, and goes to update (count 0, or a fixed side off the
    /// multiples of W) or to move.
    #[inline(always)]
    fn take(&mut self, descriptor: &[u8; DESCRIPTOR]) -> Event {
        self.held_next = word(descriptor, 0x00) & POINTER_BITS;
        let total = word(descriptor, 0x18) & BTT_BITS;
        let (source, destination) = (word(descriptor, 0x08), word(descriptor, 0x10));
        // Reading: BTT 0 is DMAIntErr, shown in CDMASR by its update only.
        self.phase = if total == 0 || !self.multiples(source, destination, total) {
            Phase::Update(Outcome::Internal)
        } else {
            Phase::Move(Transfer { source, destination, total, moved: 0 })
        };
        Event::Fetch { current: self.current }
    }

    /// Move of one burst, both sides incrementing. Reading: the cut follows the destination only, and a transfer whose
    /// destination + total passes 2^32 has its burst at the top end by decode error.
    #[inline(always)]
    fn burst(&mut self, memory: &mut [u8], windows: &[Window], transfer: Transfer) -> Event {
        let Transfer { source, destination, total, moved } = transfer;
        let from = source + moved;
        let to = destination + moved;
        let bytes = cut::first_burst(self.width, self.beats, to, total - moved);
        let kind = memory::verdict(memory.len(), windows, [from, to], bytes);
        if kind != Verdict::Okay {
            let sides = [Side::Run(from, bytes), Side::Run(to, bytes)];
            return self.fault(memory.len(), windows, kind, sides);
        }
        copy(memory, from, to, bytes);
        self.phase = self.moved_to(Transfer { moved: moved + bytes, ..transfer });
        Event::Move { start: to, bytes }
    }

    /// Move of one burst with a fixed side, byte by byte.
    fn key_hole_burst(
        &mut self,
        memory: &mut [u8],
        windows: &[Window],
        transfer: Transfer,
    ) -> Event {
        let Transfer { source, destination, total, moved } = transfer;
        let (width, beats, left) = (self.width, self.beats, total - moved);
        // Reading: pieces to a fixed destination know no page; with a fixed source alone the cut
        // follows the destination as ever, with all its beats.
        let (start, bytes) = if self.key_hole_write {
            (destination, left.min(width * beats.min(MOST_FIXED_BEATS)))
        } else {
            let start = destination + moved;
            (start, cut::first_burst(width, beats, start, left))
        };
        // Byte k of the transfer, k counted from its start and not from the burst's.
        let places = |start: u32, fixed: bool| -> Vec<u64> {
            (moved..moved + bytes)
                .map(|k| u64::from(start) + u64::from(if fixed { k % width } else { k }))
                .collect()
        };
        let from = places(source, self.key_hole_read);
        let to = places(destination, self.key_hole_write);
        // Reading: judged are the bytes that the burst uses, of a fixed word a part if it is short.
        let kind = memory::verdict_of_bytes(memory.len(), windows, from.iter().chain(&to));
        if kind != Verdict::Okay {
            let side = |start: u32, fixed: bool, places| match fixed {
                true => Side::Places(places),
                false => Side::Run(start + moved, bytes),
            };
            let sides = [
                side(source, self.key_hole_read, &from),
                side(destination, self.key_hole_write, &to),
            ];
            return self.fault(memory.len(), windows, kind, sides);
        }
        let burst: Vec<u8> = from.iter().map(|&at| memory[at as usize]).collect();
        // In rising k: of the bytes for one place the last one stays.
        for (&at, &byte) in to.iter().zip(&burst) {
            memory[at as usize] = byte;
        }
        self.phase = self.moved_to(Transfer { moved: moved + bytes, ..transfer });
        Event::Move { start, bytes }
    }

    /// A burst that failed, its source and its destination, its kind being that of both together.
    /// Reading: bursts moved before stay written; a chain transfer that failed stays busy without
    /// an error bit until its update; a failing simple move is the event fault alone.
    #[cold]
    fn fault(
        &mut self,
        length: usize,
        windows: &[Window],
        kind: Verdict,
        sides: [Side; 2],
    ) -> Event {
        // Reading: if both sides give the kind, it is the source's place, even where the
        // destination's is lower. The lowest byte counts, also where a burst goes round a fixed word.
        let place = sides
            .into_iter()
            .find_map(|side| memory::lowest(length, windows, side, kind))
            .expect("a byte of the burst gave its kind");
        let (outcome, bit) = match kind {
            Verdict::Decode => (Outcome::Decode, DMA_DEC_ERR),
            _ => (Outcome::Slave, DMA_SLV_ERR),
        };
        if self.sg_mode {
            self.phase = Phase::Update(outcome);
        } else {
            self.halt(bit);
        }
        // A burst starts below 2^32, and so does what fails first in it.
        Event::Fault { place: place as u32, bit }
    }

    /// Update of the status word. Reading: judges 4 bytes and writes the whole word.
    #[inline(always)]
    fn update(&mut self, memory: &mut [u8], windows: &[Window], outcome: Outcome) -> Event {
        let current = self.current;
        let status = current + STATUS; // current is a multiple of 64
        let failed = match memory::verdict(memory.len(), windows, [status], 4) {
            Verdict::Okay => None,
            Verdict::Slave => Some(SG_SLV_ERR),
            Verdict::Decode => Some(SG_DEC_ERR),
        };
        if let Some(failed) = failed {
            self.halt(failed);
            return Event::Halt { current, bit: failed };
        }
        let word: u32 = match outcome {
            Outcome::Complete => 0x8000_0000,
            Outcome::Decode => 1 << 30,
            Outcome::Slave => 1 << 29,
            Outcome::Internal => 1 << 28,
        };
        let at = status as usize;
        memory[at..at + 4].copy_from_slice(&word.to_le_bytes());
        match outcome {
            Outcome::Complete => {
                self.ioc_irq = true;
                self.next = self.held_next;
                // Reading: after the tail, current stays at the finished descriptor.
                if current == self.tail {
                    self.phase = Phase::Idle;
                } else {
                    self.current = self.next;
                    self.phase = Phase::Fetch;
                }
            }
            Outcome::Decode => self.halt(DMA_DEC_ERR),
            Outcome::Slave => self.halt(DMA_SLV_ERR),
            Outcome::Internal => self.halt(DMA_INT_ERR),
        }
        // Reading: a bad update that writes its word is the event update alone.
        Event::Update { current, word }
    }
}
