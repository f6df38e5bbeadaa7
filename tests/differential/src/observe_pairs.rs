// Counts what a trace did with two engines: its records, the turns that the engines take, and the
// bytes that one of them reads or writes where the other does.

use independent::answer;
use independent::engine::{Engine, Event, Phase, Transfer};
use independent::record::{read, Cause, Form, Record};
use independent::trace::Replay;
use shared::bursts::{share, Burst, Bytes};
use shared::coverage::{Counts, Groups};
use shared::fault_place::at_destination;
use shared::registers::{none_at, CDMACR, RESET};

use crate::maker::MEMORY;
use crate::observe::{behind_zero, see_settings};
use crate::observe_steps::{Memo, Step};

/// Situations of traces with C2.
pub const RECORDS: &[&str] = &[
    "C2 of number 0",
    "C2 of a number above 0",
    "C2 of number 0 with settings off the lists",
    "C2 of bad width",
    "C2 of bad beats",
    "record after a C2 of number 0",
    "number 0 after a C2 of number 0",
    "late C2 behind C2",
    "late C2 behind C2, of number 0",
    "late C2 behind CF",
    "late C2 in a trace without both",
    "late CF behind C2",
    "late CF behind C2, of number 0",
    "WR cut before its engine number",
    "RD cut before its engine number",
    "ST cut before its engine number",
    "WR cut right behind its engine number",
    "RD cut right behind its engine number",
    "ST cut right behind its engine number",
    "engine number that is none beside answer 10",
    "engine number that is none beside an old number",
    "engine number that is none beside an offset that is none",
    "engine number that is none beside a write that busy engines refuse",
    "engine number that is none beside a write that engines in error refuse",
    "WR refused for its engine number",
    "RD refused for its engine number",
    "ST refused for its engine number",
    "old number that is above all of its engine",
    "records of one engine behind C2",
    "records of two engines without C2",
];

/// Situations of two engines.
pub const ENGINES: &[&str] = &[
    "write to engine 1 that engine 2 would answer another way",
    "write to engine 2 that engine 1 would answer another way",
    "read of engine 1 that engine 2 would answer another way",
    "read of engine 2 that engine 1 would answer another way",
    "reset of engine 1 while engine 2 is busy",
    "reset of engine 2 while engine 1 is busy",
    "memory put while both engines are busy",
    "window added while both engines are busy",
    "clock while both engines are busy",
    "clock out of reset with flags up, after a turn of the engines",
    "simple transfer gone on with after the other engine's steps",
    "chain gone on with after the other engine's steps",
    "transfer with a fixed side gone on with after the other engine's steps",
    "transfer gone on with after the other engine's reset",
    "transfer gone on with after the other engine's error",
    "eight turns or more with both engines busy",
    "fixed side of one engine alone while both are busy",
    "window met by engine 1 while engine 2 is busy",
    "window met by engine 2 while engine 1 is busy",
    "burst of engine 2 that the default settings would cut another way",
    "source byte of engine 1 named by a fault while engine 2 is busy",
    "source byte of engine 2 named by a fault while engine 1 is busy",
    "destination byte of engine 1 named by a fault while engine 2 is busy",
    "destination byte of engine 2 named by a fault while engine 1 is busy",
    "byte named by a fault of both engines",
];

/// Where the two meet.
pub const MEETINGS: &[&str] = &[
    "burst over what the other engine has yet to read",
    "burst over what the other engine has yet to write",
    "burst over what the other engine has written",
    "burst out of what the other engine has written",
    "burst while the other one moves, with no byte in common",
    "burst over the descriptor that the other engine fetches next",
    "burst over the status word that the other engine writes next",
    "status word over what the other engine has yet to read",
    "status word over the descriptor that the other engine fetches next",
    "descriptor fetched that the other engine wrote",
    "descriptor stale by the other engine's update",
    "word of the other engine shown by a fault line",
];

pub const NUMBERED: &Groups = &[
    ("bytes of a cut C2", &[2, 3, 4, 5, 6, 7, 8, 9]),
    ("engine number refused", &[0, 3, 255]),
    ("answer of a write to engine 2", &[0, 3, 4, 5]),
    ("answer of a read of engine 2", &[0, 3]),
    ("answer that ends a trace with C2", &[1, 6, 10, 11, 12, 13, 21]),
];

/// The place of the engine in turn, from 0.
pub fn turn(replay: &Replay) -> usize {
    usize::from(std::ptr::eq(replay.engine(), &replay.engines[1]))
}

/// How many bytes of a trace can be read by the form of its first record, and by the other one.
fn readable(trace: &[u8]) -> [usize; 2] {
    let own = Form::of(trace);
    let other = match own {
        Form::OneEngine => Form::TwoEngines,
        Form::TwoEngines => Form::OneEngine,
    };
    [own, other].map(|form| {
        // Settings as a first record have one length in both.
        let mut left = match read(trace, own, true) {
            Ok((_, _, Record::Settings { .. }, behind)) => behind,
            _ => trace,
        };
        while let Ok((_, _, _, behind)) = read(left, form, false) {
            left = behind;
        }
        trace.len() - left.len()
    })
}

/// Counts a trace that reads further if its first record had the other mark.
pub fn see_forms(trace: &[u8], coverage: &mut Counts) {
    let [own, other] = readable(trace);
    if own < other {
        coverage.see(match Form::of(trace) {
            Form::OneEngine => "records of two engines without C2",
            Form::TwoEngines => "records of one engine behind C2",
        });
    }
}

/// What happened since an engine's last step.
#[derive(Clone, Copy, Default)]
struct Since {
    stepped: bool,
    reset: bool,
    failed: bool,
}

/// What is remembered of a trace with two engines from record to record.
#[derive(Default)]
pub struct Pair {
    since: [Since; 2],
    /// The last good number of each engine's records.
    last: [u32; 2],
    /// The engine of the last step, and how often it was another one with both busy.
    stepped: usize,
    turns: u32,
    /// The engine in turn at the last clock.
    clocked: usize,
    /// Where each engine's last fault was.
    places: [Option<u32>; 2],
}

impl Pair {
    /// A record with good numbers, before it is carried out.
    pub fn before(&mut self, replay: &Replay, record: &Record<&[u8]>, coverage: &mut Counts) {
        coverage.see_if(behind_zero(replay), "record after a C2 of number 0");
        see_settings(record, ["C2 of bad width", "C2 of bad beats"], coverage);
        let turn = turn(replay);
        let [own, other] = [turn, 1 - turn].map(|place| &replay.engines[place]);
        let both = !own.idle() && !other.idle();
        match record {
            Record::Settings { .. } => {}
            Record::Memory { .. } => {
                coverage.see_if(both, "memory put while both engines are busy");
            }
            Record::Window { .. } => {
                coverage.see_if(both, "window added while both engines are busy");
            }
            Record::Bus(bus) => {
                coverage.see_if(both, "clock while both engines are busy");
                let up = replay.monitor.flags != 0 && bus.bits & 1 == 1 && bus.in_range();
                let row = "clock out of reset with flags up, after a turn of the engines";
                coverage.see_if(up && self.clocked != turn, row);
                self.clocked = turn;
            }
            Record::Write { offset, value } => {
                coverage.pair(turn, &replay.engines);
                self.write(turn, [own, other], u32::from(*offset), *value, coverage);
            }
            Record::Read { offset } => {
                coverage.pair(turn, &replay.engines);
                let offset = u32::from(*offset);
                let row = [
                    "read of engine 1 that engine 2 would answer another way",
                    "read of engine 2 that engine 1 would answer another way",
                ][turn];
                coverage.see_if(own.read(offset) != other.read(offset), row);
                if turn == 1 {
                    coverage.number("answer of a read of engine 2", own.read(offset).0);
                }
            }
            Record::Steps { .. } => coverage.pair(turn, &replay.engines),
        }
    }

    fn write(
        &mut self,
        turn: usize,
        [own, other]: [&Engine; 2],
        offset: u32,
        value: u32,
        coverage: &mut Counts,
    ) {
        let answers = [own, other].map(|engine| engine.clone().write(offset, value));
        let row = [
            "write to engine 1 that engine 2 would answer another way",
            "write to engine 2 that engine 1 would answer another way",
        ][turn];
        coverage.see_if(answers[0] != answers[1], row);
        if turn == 1 {
            coverage.number("answer of a write to engine 2", answers[0]);
        }
        if offset == CDMACR && value & RESET != 0 {
            self.since[1 - turn].reset = true;
            let row = [
                "reset of engine 1 while engine 2 is busy",
                "reset of engine 2 while engine 1 is busy",
            ][turn];
            coverage.see_if(!other.idle(), row);
        }
    }

    /// The same record after it was carried out.
    pub fn after(&mut self, replay: &Replay, record: &Record<&[u8]>, coverage: &mut Counts) {
        match record {
            Record::Settings { .. } => {
                let zero = replay.last == 0;
                coverage.see(if zero { "C2 of number 0" } else { "C2 of a number above 0" });
            }
            Record::Write { .. } | Record::Read { .. } | Record::Steps { .. } => {
                self.last[turn(replay)] = replay.last;
            }
            _ => {}
        }
    }

    /// The record at the front of `trace` ends the replay.
    pub fn refused(&self, replay: &Replay, trace: &[u8], answer: u32, coverage: &mut Counts) {
        coverage.number("answer that ends a trace with C2", answer);
        let first = replay.place == 0;
        match read(trace, Form::TwoEngines, first) {
            Err(_) if first => coverage.number("bytes of a cut C2", trace.len() as u32),
            Err(cause) => unreadable(trace, cause, coverage),
            Ok((sequence, engine, record, _)) => {
                let zero = sequence == 0 && answer == answer::SETTINGS;
                coverage.see_if(zero, "C2 of number 0 with settings off the lists");
                let none = engine.is_some_and(|number| !matches!(number, 1 | 2));
                if answer == answer::SEQUENCE {
                    coverage.see_if(behind_zero(replay), "number 0 after a C2 of number 0");
                    coverage.see_if(none, "engine number that is none beside an old number");
                    let own = engine.filter(|_| !none).map(|number| self.last[number as usize - 1]);
                    let above = own.is_some_and(|last| sequence > last);
                    coverage.see_if(above, "old number that is above all of its engine");
                }
                if let (answer::ENGINE, Some(number)) = (answer, engine) {
                    no_engine(replay, number, &record, coverage);
                }
            }
        }
    }

    /// A step that was taken; the memo is that of before it.
    pub fn step(&mut self, step: &Step, other: &Engine, memo: &Memo, coverage: &mut Counts) {
        let turn = step.turn;
        self.see_turn(step, other, coverage);
        see_meeting(step, other, memo, coverage);
        if let Event::Fault { place, .. } = step.event {
            self.fault(step, place, other, coverage);
        }
        let failed = matches!(step.event, Event::Fault { .. } | Event::Halt { .. });
        if failed && !other.idle() {
            self.since[1 - turn].failed = true;
        }
        let window = matches!(step.event, Event::Fault { bit: 5, .. } | Event::Halt { bit: 9, .. });
        let row = [
            "window met by engine 1 while engine 2 is busy",
            "window met by engine 2 while engine 1 is busy",
        ][turn];
        coverage.see_if(window && !other.idle(), row);
        self.since[turn] = Since::default();
        self.since[1 - turn].stepped = true;
        self.stepped = turn;
    }

    fn fault(&mut self, step: &Step, place: u32, other: &Engine, coverage: &mut Counts) {
        self.places[step.turn] = Some(place);
        let both = self.places[0] == self.places[1];
        coverage.see_if(both, "byte named by a fault of both engines");
        let rows = if at_destination(step.before, MEMORY.into(), step.windows) {
            [
                "destination byte of engine 1 named by a fault while engine 2 is busy",
                "destination byte of engine 2 named by a fault while engine 1 is busy",
            ]
        } else {
            [
                "source byte of engine 1 named by a fault while engine 2 is busy",
                "source byte of engine 2 named by a fault while engine 1 is busy",
            ]
        };
        coverage.see_if(!other.idle(), rows[step.turn]);
    }

    fn see_turn(&mut self, step: &Step, other: &Engine, coverage: &mut Counts) {
        let own = step.before;
        let Since { stepped, reset, failed } = self.since[step.turn];
        let under_way = match own.phase {
            Phase::Move(Transfer { moved, .. }) => own.sg_mode || moved > 0,
            Phase::Update(_) => true,
            _ => false,
        };
        let fixed = |engine: &Engine| engine.key_hole_read || engine.key_hole_write;
        if under_way && stepped {
            coverage.see(if own.sg_mode {
                "chain gone on with after the other engine's steps"
            } else {
                "simple transfer gone on with after the other engine's steps"
            });
            let row = "transfer with a fixed side gone on with after the other engine's steps";
            coverage.see_if(fixed(own), row);
        }
        let row = "transfer gone on with after the other engine's reset";
        coverage.see_if(under_way && reset, row);
        let row = "transfer gone on with after the other engine's error";
        coverage.see_if(under_way && failed, row);
        if other.idle() {
            self.turns = 0;
            return;
        }
        self.turns += u32::from(self.stepped != step.turn);
        coverage.see_if(self.turns == 8, "eight turns or more with both engines busy");
        let alone = fixed(own) != fixed(other);
        coverage.see_if(alone, "fixed side of one engine alone while both are busy");
    }
}

/// A late record of a trace with C2 that gets answer 10.
fn unreadable(trace: &[u8], cause: Cause, coverage: &mut Counts) {
    let zero = trace.len() >= 6 && trace[2..6] == [0; 4];
    let late = cause == Cause::LateSettings;
    let (two, one) = (trace.starts_with(b"C2"), trace.starts_with(b"CF"));
    coverage.see_if(late && two && zero, "late C2 behind C2, of number 0");
    coverage.see_if(late && one, "late CF behind C2");
    coverage.see_if(late && one && zero, "late CF behind C2, of number 0");
    let rows = match trace.get(..2) {
        Some(b"WR") => ["WR cut before its engine number", "WR cut right behind its engine number"],
        Some(b"RD") => ["RD cut before its engine number", "RD cut right behind its engine number"],
        Some(b"ST") => ["ST cut before its engine number", "ST cut right behind its engine number"],
        _ => return,
    };
    coverage.see_if(trace.len() == 6, rows[0]);
    coverage.see_if(trace.len() == 7, rows[1]);
    let none = trace.get(6).is_some_and(|number| !matches!(number, 1 | 2));
    coverage.see_if(none, "engine number that is none beside answer 10");
}

/// A record that gets answer 21.
fn no_engine(replay: &Replay, number: u8, record: &Record<&[u8]>, coverage: &mut Counts) {
    coverage.number_if_expected("engine number refused", number.into());
    let (row, offset) = match record {
        Record::Write { offset, .. } => ("WR refused for its engine number", Some(*offset)),
        Record::Read { offset } => ("RD refused for its engine number", Some(*offset)),
        _ => ("ST refused for its engine number", None),
    };
    coverage.see(row);
    let none = offset.is_some_and(|offset| none_at(u32::from(offset)));
    coverage.see_if(none, "engine number that is none beside an offset that is none");
    if let Record::Write { offset, value } = record {
        // What either of them would answer.
        let answers =
            replay.engines.clone().map(|mut engine| engine.write((*offset).into(), *value));
        let row = "engine number that is none beside a write that busy engines refuse";
        coverage.see_if(answers == [answer::BUSY; 2], row);
        let row = "engine number that is none beside a write that engines in error refuse";
        coverage.see_if(answers == [answer::ERROR; 2], row);
    }
}

fn bytes(start: u32, count: u32) -> Bytes {
    u64::from(start)..u64::from(start) + u64::from(count)
}

/// The bytes that an engine's transfer has written and has yet to write, and has yet to read.
fn transfer(engine: &Engine) -> Option<[Bytes; 3]> {
    let Phase::Move(Transfer { source, destination, total, moved }) = engine.phase else {
        return None;
    };
    let side = |start: u32, fixed: bool, from: u32, to: u32| match fixed {
        true if from == to => bytes(start, 0),
        true => bytes(start, engine.width),
        false => u64::from(start) + u64::from(from)..u64::from(start) + u64::from(to),
    };
    Some([
        side(destination, engine.key_hole_write, 0, moved),
        side(destination, engine.key_hole_write, moved, total),
        side(source, engine.key_hole_read, moved, total),
    ])
}

const DESCRIPTOR: u32 = 32;
const STATUS: u32 = 0x1c;

/// The descriptor that an engine of a chain fetches next, as far as it is known, and the status word
/// that it writes before.
fn descriptors(engine: &Engine) -> [Option<Bytes>; 2] {
    let next = match engine.phase {
        Phase::Idle => return [None, None],
        Phase::Fetch => return [Some(bytes(engine.current, DESCRIPTOR)), None],
        _ if !engine.sg_mode => return [None, None],
        _ => (engine.current != engine.tail).then(|| bytes(engine.held_next, DESCRIPTOR)),
    };
    [next, Some(bytes(engine.current + STATUS, 4))]
}

/// Counts where a step meets what the other engine uses.
fn see_meeting(step: &Step, other: &Engine, memo: &Memo, coverage: &mut Counts) {
    let by_other = |range: &Bytes| {
        let bytes = memo.written.get(range.start as usize..range.end as usize);
        bytes.is_some_and(|bytes| bytes.iter().any(|byte| byte.engine == Some(1 - step.turn)))
    };
    let [next, status] = descriptors(other);
    let met = |used: &[Bytes], met: &Option<Bytes>| {
        met.as_ref().is_some_and(|met| used.iter().any(|used| share(used, met)))
    };
    match step.event {
        Event::Move { .. } => {
            let burst = Burst::before(step.before).expect("a burst of an engine that moves");
            let (read, written) = (&burst.source.used, &burst.destination.used);
            let from = read.iter().any(by_other);
            coverage.see_if(from, "burst out of what the other engine has written");
            let row = "burst over the descriptor that the other engine fetches next";
            coverage.see_if(met(written, &next), row);
            let row = "burst over the status word that the other engine writes next";
            coverage.see_if(met(written, &status), row);
            if let Some([done, to_write, to_read]) = transfer(other).map(|all| all.map(Some)) {
                let over = [&to_read, &to_write, &done].map(|range| met(written, range));
                coverage.see_if(over[0], "burst over what the other engine has yet to read");
                coverage.see_if(over[1], "burst over what the other engine has yet to write");
                coverage.see_if(over[2], "burst over what the other engine has written");
                let apart = over == [false; 3] && !met(read, &to_write) && !met(read, &done);
                let row = "burst while the other one moves, with no byte in common";
                coverage.see_if(apart, row);
            }
            if step.turn == 1 {
                let usual = Engine { width: 4, beats: 64, ..step.before.clone() };
                let usual = Burst::before(&usual).is_some_and(|usual| usual.bytes == burst.bytes);
                let row = "burst of engine 2 that the default settings would cut another way";
                coverage.see_if(!usual, row);
            }
        }
        Event::Update { current, .. } => {
            let word = [bytes(current + STATUS, 4)];
            let row = "status word over the descriptor that the other engine fetches next";
            coverage.see_if(met(&word, &next), row);
            let ahead = transfer(other).map(|[_, _, to_read]| to_read);
            let row = "status word over what the other engine has yet to read";
            coverage.see_if(met(&word, &ahead), row);
        }
        Event::Fetch { current } => {
            let row = "descriptor fetched that the other engine wrote";
            coverage.see_if(by_other(&bytes(current, DESCRIPTOR)), row);
        }
        Event::Halt { current, bit: 8 } => {
            let stale = by_other(&bytes(current + STATUS, 4));
            coverage.see_if(stale, "descriptor stale by the other engine's update");
        }
        Event::Fault { place, .. } => {
            let shown = memo.own[step.turn].shown(step.before, place).engine;
            let by_other = shown == Some(1 - step.turn);
            coverage.see_if(by_other, "word of the other engine shown by a fault line");
        }
        _ => {}
    }
}
