// A trace in the making. Each record is also carried out, so the next one can be chosen with
// knowledge of the state.

use independent::engine::{Engine, Phase, Transfer};
use independent::listing::Listing;
use independent::memory::MOST_WINDOWS;
use independent::record::{self, Bus};
use independent::trace::{self, Replay};
use shared::bursts::full_piece;
use shared::random::Random;
use shared::record::encode_for;
use shared::registers::{BTT, DA, SA};
use shared::settings;
use std::io::{sink, Sink};

use crate::pairs;

pub type Record = record::Record<Vec<u8>>;

/// Bytes of the program's memory.
pub const MEMORY: u32 = trace::MEMORY as u32;

pub struct Maker {
    pub random: Random,
    pub replay: Replay,
    listing: Listing<Sink>,
    pub bytes: Vec<u8>,
    /// Of a trace with two engines, the number of the one that the next WR, RD or ST is for.
    pub turn: Option<u8>,
    /// How often a record of the other engine comes before one, in percent.
    pub meddling: u32,
    pub sequence: u32,
    pub records: usize,
    /// The most records wanted.
    pub most: usize,
    /// A refusal ended the replay, or nothing more is wanted or can be numbered.
    pub ended: bool,
    /// Sequence numbers without gaps, for long traces.
    pub dense: bool,
    /// Long listings are wanted.
    pub long: bool,
}

impl Maker {
    pub fn new(random: Random) -> Maker {
        Maker {
            random,
            replay: Replay::fresh(),
            listing: Listing::new(sink()),
            bytes: Vec::new(),
            turn: None,
            meddling: 0,
            sequence: 0,
            records: 0,
            most: usize::MAX,
            ended: false,
            dense: false,
            long: false,
        }
    }

    /// A trace with two engines, engine 1 in turn.
    pub fn with_two_engines(random: Random) -> Maker {
        Maker { turn: Some(1), ..Maker::new(random) }
    }

    /// Appends a record to `bytes` as the trace has it, for the engine in turn, and carries out
    /// nothing.
    pub fn encode(&self, record: &Record, sequence: u32, bytes: &mut Vec<u8>) {
        encode_for(self.turn, record, sequence, bytes);
    }

    /// The next records are for the other engine, if there are two.
    pub fn take_turns(&mut self) {
        self.turn = self.turn.map(|number| 3 - number);
        self.replay.turn_to(self.turn);
    }

    /// The engine that is not in turn, of a trace with two.
    pub fn other(&self) -> Option<&Engine> {
        self.turn.map(|number| &self.replay.engines[usize::from(2 - number)])
    }

    pub fn put(&mut self, record: Record) {
        if self.records > 0 && self.turn.is_some() && self.random.chance(self.meddling) {
            // Not within itself: what comes for the other engine comes alone.
            let meddling = std::mem::take(&mut self.meddling);
            pairs::meddle(self);
            self.meddling = meddling;
        }
        if self.ended || self.records == self.most {
            self.ended = true;
            return;
        }
        let gap = if self.dense || self.random.chance(93) { 1 } else { self.random.between(2, 30) };
        match self.sequence.checked_add(gap) {
            Some(sequence) => self.put_as(sequence, record),
            None => self.ended = true,
        }
    }

    fn put_as(&mut self, sequence: u32, record: Record) {
        encode_for(self.turn, &record, sequence, &mut self.bytes);
        self.sequence = sequence;
        self.records += 1;
        self.ended = self.replay.carry_out(&record, &mut self.listing, &mut ()) != 0;
    }

    pub fn settings(&mut self, width: u32, beats: u32) {
        self.put(Record::Settings { width: width as u16, beats: beats as u16 });
    }

    /// A trace's first record: a CF or C2 may carry 0, and one in four does.
    pub fn first_settings(&mut self, width: u32, beats: u32) {
        if self.random.one_in(4) {
            self.put_as(0, Record::Settings { width: width as u16, beats: beats as u16 });
        } else {
            self.settings(width, beats);
        }
    }

    /// A CF with one of the 48 settings, or none; a C2 always.
    pub fn any_settings(&mut self) {
        if self.turn.is_some() || self.random.chance(85) {
            let (width, beats) = settings::listed(&mut self.random);
            self.first_settings(width, beats);
        }
    }

    pub fn memory(&mut self, address: u32, bytes: Vec<u8>) {
        self.put(Record::Memory { address, bytes });
    }

    /// A window, as long as there is room for one: the seventeenth ends the replay.
    pub fn window(&mut self, start: u32, length: u32) {
        if self.replay.windows().len() < MOST_WINDOWS {
            self.put(Record::Window { start, length });
        }
    }

    pub fn write(&mut self, offset: u32, value: u32) {
        self.put(Record::Write { offset: offset as u16, value });
    }

    pub fn read(&mut self, offset: u32) {
        self.put(Record::Read { offset: offset as u16 });
    }

    /// The three writes that start a simple transfer.
    pub fn start_copy(&mut self, source: u32, destination: u32, count: u32) {
        self.write(SA, source);
        self.write(DA, destination);
        self.write(BTT, count);
    }

    /// A start of `count` bytes anywhere in memory.
    pub fn anywhere(&mut self, count: u32) -> u32 {
        self.random.below(MEMORY - count)
    }

    /// The place down to a multiple of W.
    pub fn aligned(&self, place: u32) -> u32 {
        place - place % self.replay.engine().width
    }

    pub fn steps(&mut self, steps: u16) {
        self.put(Record::Steps { steps });
    }

    pub fn bus(&mut self, bus: Bus) {
        self.put(Record::Bus(bus));
    }

    pub fn busy(&self) -> bool {
        !self.replay.engine().idle()
    }

    pub fn in_error(&self) -> bool {
        self.replay.engine().in_error()
    }

    /// Bytes of a full burst.
    pub fn unit(&self) -> u32 {
        (self.replay.engine().width * self.replay.engine().beats).min(4096)
    }

    pub fn around(&mut self, centre: u32, reach: u32) -> u32 {
        let shift = self.random.below(2 * reach + 1);
        centre.wrapping_add(shift).wrapping_sub(reach)
    }

    /// Is the range memory, and free of windows?
    pub fn sound(&self, start: u32, count: u32) -> bool {
        let (from, to) = (u64::from(start), u64::from(start) + u64::from(count));
        to <= u64::from(MEMORY)
            && self.replay.windows().iter().all(|&(sick, size)| {
                let sick = u64::from(sick);
                to <= sick || sick + u64::from(size) <= from
            })
    }

    /// Any address, with a liking for edges, and for what the other engine uses.
    pub fn place(&mut self) -> u32 {
        if self.turn.is_some() && self.random.chance(25) {
            return pairs::place(self);
        }
        let unit = self.unit();
        match self.random.below(100) {
            0..=39 => self.random.below(MEMORY),
            40..=59 => {
                let page = self.random.between(1, 7) * 4096;
                self.around(page, unit.min(300))
            }
            60..=69 => {
                let word = self.random.below(MEMORY) & !(self.replay.engine().width - 1);
                self.around(word, 2)
            }
            70..=79 => self.around(MEMORY, 80),
            80..=84 => u32::MAX - self.random.below(200),
            85..=92 if !self.replay.windows().is_empty() => {
                let (start, length) = self.random.pick(self.replay.windows());
                let edge = if self.random.chance(50) { start } else { start.wrapping_add(length) };
                self.around(edge, 40)
            }
            93..=96 => {
                let descriptor = self.replay.engine().current;
                self.around(descriptor, 40)
            }
            _ => self.random.u32(),
        }
    }

    /// A count of a transfer, measured in bursts so listings stay small.
    pub fn count(&mut self) -> u32 {
        let (unit, width) = (self.unit(), self.replay.engine().width);
        match self.random.below(100) {
            0..=24 => self.random.between(1, width),
            25..=44 => self.around(unit, 3),
            45..=64 => self.random.between(1, 3 * unit),
            65..=84 => self.random.between(1, 8) * unit.min(512) + self.random.below(width),
            85..=94 => self.random.between(1, 700.min(12 * unit)),
            95..=97 => self.random.between(1, 12 * unit),
            98 => 8_388_607 - self.random.below(3),
            _ => self.random.between(1, 8_388_607),
        }
    }

    /// A start in sound memory for `count` bytes, if a few tries find one.
    pub fn sound_place(&mut self, count: u32) -> u32 {
        let mut place = 0;
        for _ in 0..8 {
            place = self.place();
            if self.sound(place, count) {
                return place;
            }
        }
        if count < MEMORY {
            place = self.random.below(MEMORY - count);
        }
        place
    }

    /// A multiple of 64 whose 32 bytes are sound, if a few tries find one.
    pub fn descriptor_place(&mut self) -> u32 {
        let mut place = 0;
        for _ in 0..8 {
            place = self.random.below(MEMORY / 64) * 64;
            if self.sound(place, 32) {
                break;
            }
        }
        place
    }

    /// About how many steps the engine still has before it: a guess, which keeps listings small.
    pub fn steps_ahead(&self) -> u32 {
        match self.replay.engine().phase {
            Phase::Idle => 0,
            Phase::Fetch => 10,
            Phase::Update(_) => 1,
            Phase::Move(Transfer { total, moved, .. }) if self.replay.engine().key_hole_write => {
                (total - moved) / full_piece(self.replay.engine()) + 2
            }
            Phase::Move(Transfer { destination, total, moved, .. }) => {
                let to = destination + moved;
                (total - moved).min(MEMORY.saturating_sub(to)) / self.unit() + 2
            }
        }
    }
}
