// The replay of a trace and its listing.
// From RULES.md, "Trace and listing".

use crate::answer;
use crate::engine::{Engine, Event};
use crate::listing::{self, Listing};
use crate::memory::{Window, MOST_WINDOWS};
use crate::monitor::Monitor;
use crate::record::{self, Form, Record, Taker};
use crate::two_engines;
use std::io::{self, ErrorKind, Read, Write};

/// Bytes of the program's memory.
pub const MEMORY: usize = 32_768;
/// Settings of a trace without CF or C2, and the beats that such a trace had by the older rules.
pub(crate) const WIDTH: u32 = 4;
const BEATS: u32 = 64;
pub(crate) const OLDER_BEATS: u32 = 16;
/// Bytes that a stream is read in.
const PIECE: usize = 64 * 1024;

/// Looks on as a replay goes from record to record and from step to step.
pub trait Observer {
    /// Steps are told one by one only to an observer that looks at them.
    const LOOKS_AT_STEPS: bool = true;

    /// The trace does not start with CF or C2 and got the default settings with their line.
    fn defaulted(&mut self, _replay: &Replay) {}
    /// A record that can be read and has good numbers, before it is carried out.
    fn record(&mut self, _replay: &Replay, _record: &Record<&[u8]>) {}
    /// The same record after it was carried out.
    fn carried_out(&mut self, _replay: &Replay, _record: &Record<&[u8]>) {}
    /// The record at the front of `trace` gets this answer, which ends the replay.
    fn refused(&mut self, _replay: &Replay, _trace: &[u8], _answer: u32) {}
    /// A step before it is taken.
    fn step(&mut self, _replay: &Replay) {}
    /// The same step after it was taken.
    fn stepped(&mut self, _replay: &Replay, _event: Event) {}
}

/// Nobody looks on.
impl Observer for () {
    const LOOKS_AT_STEPS: bool = false;
}

/// Which rules a replay follows.
#[derive(Clone, Copy, PartialEq, Eq)]
enum Rules {
    /// The default settings have a line, a CF may carry 0, and C2 is a CF for two engines.
    Current,
    /// The default settings have no line, no record may carry 0, and C2 is an unknown mark.
    Older,
}

/// What a replay holds between records.
pub struct Replay {
    /// Engines 1 and 2, on one memory. Without C2 no record is for the second.
    pub engines: [Engine; 2],
    /// Which of them is in turn, from 0.
    turn: usize,
    pub monitor: Monitor,
    /// The last good sequence number.
    pub last: u32,
    /// Where the next record starts in the trace.
    pub place: u64,
    rules: Rules,
    form: Form,
    used_windows: usize,
    windows: [Window; MOST_WINDOWS],
    pub memory: [u8; MEMORY],
}

impl Replay {
    pub fn fresh() -> Replay {
        Replay::by(Rules::Current, BEATS)
    }

    /// A fresh replay by the older rules.
    pub(crate) fn older() -> Replay {
        Replay::by(Rules::Older, OLDER_BEATS)
    }

    fn by(rules: Rules, beats: u32) -> Replay {
        Replay {
            engines: two_engines::fresh(WIDTH, beats),
            turn: 0,
            monitor: Monitor::fresh(),
            last: 0,
            place: 0,
            rules,
            form: Form::OneEngine,
            used_windows: 0,
            windows: [(0, 0); MOST_WINDOWS],
            memory: [0; MEMORY],
        }
    }

    pub fn windows(&self) -> &[Window] {
        &self.windows[..self.used_windows]
    }

    /// The engine in turn: the one that the last WR, RD or ST is for, and engine 1 before any.
    #[inline]
    pub fn engine(&self) -> &Engine {
        &self.engines[self.turn]
    }

    /// Puts the engine in turn that a record is for, if it carries a number. False if there is no
    /// such engine.
    #[inline(always)]
    pub fn turn_to(&mut self, number: Option<u8>) -> bool {
        let Some(number) = number else { return true };
        let Some(place) = two_engines::place(number) else { return false };
        self.turn = place;
        true
    }

    /// Takes the records of `input`, the next bytes of a trace, and gives the bytes that are left:
    /// they may be a record cut short, unless the trace has `ended`. Nothing is given once a
    /// refusal ended the replay.
    pub fn take<'a, To: Write>(
        &mut self,
        input: &'a [u8],
        ended: bool,
        listing: &mut Listing<To>,
        observer: &mut impl Observer,
    ) -> Option<&'a [u8]> {
        let start = self.place;
        let mut rest = input;
        while rest.len() >= record::LONGEST || ended && !rest.is_empty() {
            self.place = start + (input.len() - rest.len()) as u64;
            match self.take_record(rest, listing, observer) {
                Ok(behind) => rest = behind,
                Err(answer) => {
                    observer.refused(self, rest, answer);
                    listing.bad(self.last, answer, self.place);
                    return None;
                }
            }
        }
        self.place = start + (input.len() - rest.len()) as u64;
        Some(rest)
    }

    /// Takes the record at the front and gives what is behind it, or the answer that ends the
    /// replay.
    #[inline]
    fn take_record<'a, To: Write>(
        &mut self,
        trace: &'a [u8],
        listing: &mut Listing<To>,
        observer: &mut impl Observer,
    ) -> Result<&'a [u8], u32> {
        let first = self.place == 0;
        if first && self.rules == Rules::Current {
            self.start(trace, listing, observer);
        }
        // Reading: 10 (also cut short, late CF or C2) before 11, 11 before 21, and 21 before the
        // record's own.
        let form = self.form;
        let taking = Taking { replay: self, listing, observer };
        record::read_to(taking, trace, form, first).unwrap_or(Err(answer::RECORD))
    }

    /// Goes by how a trace starts: has it two engines, and are the settings that a fresh replay has
    /// to be listed? Reading: a trace that does not start with the two bytes CF or C2 gets this
    /// line even if its first record is then refused.
    #[cold]
    fn start<To: Write>(
        &mut self,
        trace: &[u8],
        listing: &mut Listing<To>,
        observer: &mut impl Observer,
    ) {
        self.form = Form::of(trace);
        if !record::starts_with_settings(trace) {
            listing.number(0);
            listing.line(listing::SET, self.engine().width, self.engine().beats);
            observer.defaulted(self);
        }
    }

    /// Is this number good for this record? A CF or C2 comes first of all, so no number is too low
    /// for it but, by the older rules, 0.
    #[inline(always)]
    fn follows(&self, sequence: u32, record: &Record<&[u8]>) -> bool {
        let may_carry_zero =
            matches!(record, Record::Settings { .. }) && self.rules == Rules::Current;
        sequence > self.last || may_carry_zero
    }

    /// Carries out one record with its lines. An answer but 0 ends the replay; refused WR and RD
    /// print their own lines and are good records. The settings are listed and the engine is well
    /// formed here at all times, so accesses and clocks are not refused for these.
    #[inline(always)]
    pub fn carry_out<To: Write>(
        &mut self,
        record: &Record<impl AsRef<[u8]>>,
        listing: &mut Listing<To>,
        observer: &mut impl Observer,
    ) -> u32 {
        match record {
            Record::Settings { width, beats } => {
                let (width, beats) = (u32::from(*width), u32::from(*beats));
                // Reading: settings off the lists are answer 1 on a bad line.
                if !answer::settings_listed(width, beats) {
                    return answer::SETTINGS;
                }
                self.engines = two_engines::fresh(width, beats);
                listing.line(listing::SET, width, beats);
            }
            Record::Memory { address, bytes } => {
                // Reading: MM ending exactly at 32,768 is good; it writes whatever the windows
                // say, and in the midst of a transfer; a fetched descriptor keeps what was read.
                let (at, bytes) = (*address as usize, bytes.as_ref());
                let Some(place) = self.memory.get_mut(at..at + bytes.len()) else {
                    return answer::PLACE;
                };
                place.copy_from_slice(bytes);
                listing.line(listing::MEMORY, *address, bytes.len() as u32);
            }
            Record::Window { start, length } => {
                // Reading: counts from the next step on.
                let Some(place) = self.windows.get_mut(self.used_windows) else {
                    return answer::WINDOWS;
                };
                *place = (*start, *length);
                self.used_windows += 1;
                listing.line(listing::WINDOW, *start, *length);
            }
            Record::Write { offset, value } => {
                let engine = &mut self.engines[self.turn];
                let answer = engine.write_admitted(u32::from(*offset), *value);
                listing.line(listing::WRITE, u32::from(*offset), answer);
            }
            Record::Read { offset } => match self.engine().read_admitted(u32::from(*offset)) {
                (answer::DONE, value) => listing.line(listing::READ, u32::from(*offset), value),
                (answer, _) => listing.line(listing::NOREAD, u32::from(*offset), answer),
            },
            Record::Steps { steps } => return self.carry_out_steps(*steps, listing, observer),
            Record::Bus(bus) => {
                if !bus.in_range() {
                    return answer::FIELD;
                }
                // Both engines have the same width.
                self.monitor.take(self.engine().width, &bus.clock());
                // Reading: a clock in reset prints `bus 0 0`.
                listing.line(listing::BUS, self.monitor.count(), self.monitor.lowest());
            }
        }
        answer::DONE
    }

    /// ST: a run with the line of each step. Reading: on an idle engine, or of 0 steps, only the
    /// `stop` line.
    #[inline]
    fn carry_out_steps<To: Write, Looking: Observer>(
        &mut self,
        steps: u16,
        listing: &mut Listing<To>,
        observer: &mut Looking,
    ) -> u32 {
        let mut taken = 0;
        if Looking::LOOKS_AT_STEPS {
            while taken < steps && !self.engine().idle() {
                observer.step(self);
                let windows = &self.windows[..self.used_windows];
                let engine = &mut self.engines[self.turn];
                let (answer, event) = engine.step(&mut self.memory, windows);
                assert_eq!(answer, answer::DONE, "a replay's engine is well formed");
                listing.event(event);
                observer.stepped(self, event);
                taken += 1;
            }
        } else {
            let windows = &self.windows[..self.used_windows];
            let tell = |event| listing.event(event);
            let engine = &mut self.engines[self.turn];
            (_, taken) = engine.run_telling(&mut self.memory, windows, steps, tell);
        }
        listing.line(listing::STOP, u32::from(taken), u32::from(self.engine().idle()));
        answer::DONE
    }
}

/// A replay that takes a record with a good form.
struct Taking<'r, To: Write, Looking> {
    replay: &'r mut Replay,
    listing: &'r mut Listing<To>,
    observer: &'r mut Looking,
}

impl<'a, To: Write, Looking: Observer> Taker<'a> for Taking<'_, To, Looking> {
    type Given = Result<&'a [u8], u32>;

    #[inline(always)]
    fn take(
        self,
        sequence: u32,
        engine: Option<u8>,
        record: Record<&'a [u8]>,
        behind: &'a [u8],
    ) -> Self::Given {
        let Taking { replay, listing, observer } = self;
        // Reading: a WR or RD with an old number is 11 too, and ends the replay.
        if !replay.follows(sequence, &record) {
            return Err(answer::SEQUENCE);
        }
        // Reading: 21 ends the replay for a WR or RD too.
        if !replay.turn_to(engine) {
            return Err(answer::ENGINE);
        }
        observer.record(replay, &record);
        listing.number(sequence);
        let answer = replay.carry_out(&record, listing, observer);
        if answer != answer::DONE {
            return Err(answer);
        }
        // Reading: a refused WR or RD is a good record and its number counts.
        replay.last = sequence;
        observer.carried_out(replay, &record);
        Ok(behind)
    }
}

/// Replays a trace and appends its listing. True if the listing is sound, false if it ended in a
/// bad line.
pub fn replay(trace: &[u8], output: &mut Vec<u8>) -> bool {
    replay_before(trace, output, &mut ())
}

/// The same, with an observer.
pub fn replay_before(trace: &[u8], output: &mut Vec<u8>, observer: &mut impl Observer) -> bool {
    list(Replay::fresh(), trace, output, observer)
}

/// Replays a trace that is read piece by piece, and writes its listing: sound or not.
pub fn replay_stream(input: impl Read, output: impl Write) -> io::Result<bool> {
    list_stream(Replay::fresh(), input, output)
}

/// Lists a whole trace by the rules of a fresh replay.
pub(crate) fn list(
    mut replay: Replay,
    trace: &[u8],
    output: &mut Vec<u8>,
    observer: &mut impl Observer,
) -> bool {
    let mut listing = Listing::new(output);
    let sound = replay.take(trace, true, &mut listing, observer).is_some();
    listing.end().expect("a vector takes all");
    sound
}

/// The same for a trace that is read piece by piece.
pub(crate) fn list_stream(
    mut replay: Replay,
    mut input: impl Read,
    output: impl Write,
) -> io::Result<bool> {
    let mut listing = Listing::new(output);
    let mut held = vec![0; PIECE];
    let mut left = 0;
    let mut sound = true;
    while sound && listing.goes_on() {
        let count = match input.read(&mut held[left..]) {
            Ok(count) => count,
            Err(error) if error.kind() == ErrorKind::Interrupted => continue,
            Err(error) => return Err(error),
        };
        let here = left + count;
        match replay.take(&held[..here], count == 0, &mut listing, &mut ()) {
            Some(rest) => left = rest.len(),
            None => sound = false,
        }
        if count == 0 {
            break;
        }
        held.copy_within(here - left..here, 0);
    }
    listing.end()?;
    Ok(sound)
}
