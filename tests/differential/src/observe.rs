// Counts what one trace did: the words, answers and bits from the independent listing, and all that
// a listing does not show by looking on as the independent program replays the trace.

use independent::answer;
use independent::engine::{Engine, Event, Phase, Transfer};
use independent::memory::MOST_WINDOWS;
use independent::monitor::Clock;
use independent::record::{read, Bus, Cause, Form, Record};
use independent::trace::{replay_before, Observer, Replay};
use shared::bursts::{share, sick, Burst, Side};
use shared::coverage::{Counts, CDMACR_BITS, CDMASR_BITS};
use shared::key_hole::{self, BY_BTT};
use shared::registers::{none_at, CDMACR, CDMASR, CHAIN};
use shared::settings::{BEATS, WIDTHS};

use crate::coverage::WORDS;
use crate::maker::MEMORY;
use crate::observe_pairs::{see_forms, turn, Pair};
use crate::observe_steps::{one_step, Memo, Own, Step, Written};

const TOP: u64 = 1 << 32;

/// Replays a trace, counts what it did and gives its listing.
pub fn observe(trace: &[u8], coverage: &mut Counts) -> Vec<u8> {
    coverage.see_if(trace.is_empty(), "empty trace");
    let form = Form::of(trace);
    let without = form == Form::OneEngine && !trace.starts_with(b"CF");
    coverage.see_if(!trace.is_empty() && without, "trace without CF");
    coverage.see_if(trace.len() == 1, "trace of one byte");
    coverage.see_if(trace == b"C", "trace of the byte C alone");
    see_forms(trace, coverage);
    let mut listing = Vec::new();
    replay_before(trace, &mut listing, &mut Watcher::new(form, coverage));
    count_lines(&listing, coverage);
    listing
}

/// Looks on at a replay, and remembers what was before a record or a step.
struct Watcher<'a> {
    coverage: &'a mut Counts,
    memo: Memo,
    /// Of a trace with two engines.
    pair: Option<Pair>,
    /// The engine in turn before the record, and before the step.
    start: Engine,
    engine: Engine,
    flags: u64,
    held: Clock,
    steps: usize,
}

impl Watcher<'_> {
    fn new(form: Form, coverage: &mut Counts) -> Watcher<'_> {
        let Replay { engines: [engine, start], monitor, .. } = Replay::fresh();
        let (flags, held) = (monitor.flags, monitor.before);
        let pair = (form == Form::TwoEngines).then(Pair::default);
        Watcher { coverage, memo: Memo::new(), pair, start, engine, flags, held, steps: 0 }
    }

    fn form(&self) -> Form {
        if self.pair.is_some() {
            Form::TwoEngines
        } else {
            Form::OneEngine
        }
    }
}

impl Observer for Watcher<'_> {
    fn defaulted(&mut self, _: &Replay) {
        self.memo.default = true;
        self.coverage.see("default line");
    }

    fn record(&mut self, replay: &Replay, record: &Record<&[u8]>) {
        if let Some(pair) = &mut self.pair {
            pair.before(replay, record, self.coverage);
        } else {
            self.coverage.see_if(behind_zero(replay), "record after a CF of number 0");
            see_settings(record, ["CF of bad width", "CF of bad beats"], self.coverage);
        }
        before(replay, record, &mut self.memo, self.coverage);
        self.start.clone_from(replay.engine());
        self.flags = replay.monitor.flags;
        self.held = replay.monitor.before;
        self.steps = 0;
    }

    fn carried_out(&mut self, replay: &Replay, record: &Record<&[u8]>) {
        if let Some(pair) = &mut self.pair {
            pair.after(replay, record, self.coverage);
        }
        match record {
            Record::Settings { .. } => {
                let zero = self.pair.is_none() && replay.last == 0;
                self.coverage.see_if(zero, "CF of number 0");
            }
            Record::Steps { steps } => {
                run(replay.engine(), self.steps, usize::from(*steps), self.coverage);
                let (taken, most) = (self.steps as u32, u32::from(*steps));
                key_hole::see_run(&self.start, replay.engine(), taken, most, self.coverage);
            }
            Record::Bus(bus) => {
                clock(bus, &self.held, self.flags, replay.monitor.flags, self.coverage);
            }
            _ => {}
        }
        self.coverage.see_if(replay.last == u32::MAX, "number 4294967295");
    }

    fn refused(&mut self, replay: &Replay, trace: &[u8], answer: u32) {
        let first = replay.place == 0;
        let default = first && self.memo.default;
        self.coverage.see_if(default, "default line before a refused record");
        if let Some(pair) = &self.pair {
            pair.refused(replay, trace, answer, self.coverage);
        }
        match read(trace, self.form(), first) {
            Err(cause) => unreadable(trace, replay, cause, self.memo.default, self.coverage),
            Ok((sequence, _, record, rest)) => {
                let of_one = self.pair.is_none();
                if answer == answer::SEQUENCE {
                    old_number(replay, &record, sequence, self.coverage);
                    let zero = of_one && behind_zero(replay);
                    self.coverage.see_if(zero, "number 0 after a CF of number 0");
                }
                let zero = of_one && sequence == 0 && answer == answer::SETTINGS;
                self.coverage.see_if(zero, "CF of number 0 with settings off the lists");
                self.coverage.see_if(!rest.is_empty(), "records after a bad one");
            }
        }
    }

    fn step(&mut self, replay: &Replay) {
        self.engine.clone_from(replay.engine());
    }

    fn stepped(&mut self, replay: &Replay, event: Event) {
        self.steps += 1;
        let step = Step {
            turn: turn(replay),
            before: &self.engine,
            windows: replay.windows(),
            event,
            after: replay.engine(),
            memory: &replay.memory,
        };
        if let Some(pair) = &mut self.pair {
            pair.step(&step, &replay.engines[1 - step.turn], &self.memo, self.coverage);
        }
        one_step(&step, &mut self.memo, self.coverage);
    }
}

/// Is the next record right behind a CF or C2 of number 0? All other good numbers are above 0.
pub fn behind_zero(replay: &Replay) -> bool {
    replay.place > 0 && replay.last == 0
}

/// Counts the listing's lines.
fn count_lines(listing: &[u8], coverage: &mut Counts) {
    let text = String::from_utf8_lossy(listing);
    for line in text.lines().skip(1) {
        let mut parts = line.split(' ').skip(1);
        let word = parts.next().unwrap_or("");
        let mut number = || parts.next().and_then(|part| part.parse().ok()).unwrap_or(0u32);
        let (first, second) = (number(), number());
        if let Some(known) = WORDS.iter().find(|known| **known == word) {
            coverage.see(known);
        }
        match word {
            "write" | "noread" => coverage.number("answer", second),
            "bad" => coverage.number("answer", first),
            "fault" => coverage.number("fault bit", second),
            "halt" => coverage.number("halt bit", second),
            "update" => coverage.number("update word bit", second.trailing_zeros()),
            "read" if first == CDMACR => coverage.bits(CDMACR_BITS, second),
            "read" if first == CDMASR => coverage.bits(CDMASR_BITS, second),
            "bus" if second != 0 => coverage.number("flag lowest", second),
            _ => {}
        }
    }
}

/// A record that gets answer 10.
fn unreadable(rest: &[u8], replay: &Replay, cause: Cause, default: bool, coverage: &mut Counts) {
    coverage.see(match cause {
        Cause::CutInHead => "cut in a head",
        Cause::CutInBody => "cut in a body",
        Cause::UnknownMark => "unknown mark",
        Cause::NoLength => "MM of no bytes",
        Cause::TooLong => "MM of more than 1,024 bytes",
        Cause::LateSettings if rest.starts_with(b"C2") => "late C2 behind C2",
        Cause::LateSettings => "late CF",
    });
    coverage.see_if(rest.len() == 1, "one byte left over");
    if cause == Cause::UnknownMark && rest.starts_with(b"C2") {
        // Not the first record, or it would be a trace with two engines.
        coverage.see(if default { "late C2 in a trace without both" } else { "late C2 behind CF" });
    }
    coverage.see_if(replay.place == 0 && rest.starts_with(b"CF"), "cut CF");
    if rest.len() >= 6 {
        let sequence = u32::from_le_bytes([rest[2], rest[3], rest[4], rest[5]]);
        coverage.see_if(sequence <= replay.last, "old number beside answer 10");
        let late = cause == Cause::LateSettings && rest.starts_with(b"CF");
        coverage.see_if(late && sequence == 0, "late CF of number 0");
    }
}

/// A record that gets answer 11, so no CF: as a first record it may have any number, and later it
/// gets answer 10.
fn old_number(replay: &Replay, record: &Record<&[u8]>, sequence: u32, coverage: &mut Counts) {
    let last = replay.last;
    coverage.see_if(sequence == 0, "number of zero");
    coverage.see_if(replay.place == 0, "default line before a number of zero");
    coverage.see_if(sequence == last && last != 0, "number repeated");
    coverage.see_if(sequence < last, "number falling");
    let own = match record {
        Record::Memory { address, bytes } => past_end(*address, bytes) > 0,
        Record::Window { .. } => replay.windows().len() == MOST_WINDOWS,
        Record::Write { offset, .. } | Record::Read { offset } => none_at(u32::from(*offset)),
        Record::Settings { .. } | Record::Steps { .. } => false,
        Record::Bus(bus) => !fields_out(bus).is_empty(),
    };
    coverage.see_if(own, "old number beside the record's own answer");
}

/// How many of the bytes lie past the memory's end, by the place of the last.
fn past_end(address: u32, bytes: &[u8]) -> u64 {
    (u64::from(address) + bytes.len() as u64).saturating_sub(u64::from(MEMORY))
}

fn fields_out(bus: &Bus) -> Vec<&'static str> {
    let all = [
        (bus.bits > 7, "AR refused for its bits"),
        (bus.size > 7, "AR refused for its size"),
        (bus.burst > 3, "AR refused for its burst"),
        (bus.cache > 15, "AR refused for its cache"),
        (bus.prot > 7, "AR refused for its prot"),
        (bus.qos > 15, "AR refused for its qos"),
        (bus.region > 15, "AR refused for its region"),
    ];
    all.iter().filter(|(out, _)| *out).map(|(_, name)| *name).collect()
}

/// Settings off the lists, by the names of these two situations.
pub fn see_settings(record: &Record<&[u8]>, names: [&'static str; 2], coverage: &mut Counts) {
    if let Record::Settings { width, beats } = record {
        coverage.see_if(!WIDTHS.contains(&u32::from(*width)), names[0]);
        coverage.see_if(!BEATS.contains(&u32::from(*beats)), names[1]);
    }
}

/// A record with a good number, before it is carried out.
fn before(replay: &Replay, record: &Record<&[u8]>, memo: &mut Memo, coverage: &mut Counts) {
    let engine = replay.engine();
    let busy = !engine.idle();
    match record {
        Record::Settings { .. } => {}
        Record::Memory { address, bytes } => {
            let past = past_end(*address, bytes);
            coverage.see_if(bytes.len() == 1024 && past == 0, "MM of 1,024 bytes");
            let end = *address as usize + bytes.len();
            coverage.see_if(end == MEMORY as usize, "MM up to the memory's end");
            coverage.see_if(past == 1, "MM one byte past the memory's end");
            coverage.see_if(past > 1024, "MM far past the memory's end");
            if past == 0 {
                memo.written[*address as usize..end].fill(Written::default());
                let [source, destination] = over_queues(engine, *address, bytes.len() as u32);
                coverage.see_if(source, "memory put over a fixed source word, in its transfer");
                let row = "memory put over a fixed destination word, in its transfer";
                coverage.see_if(destination, row);
                coverage.see_if(busy, "memory put in the midst of a transfer");
                let fetched = matches!(engine.phase, Phase::Move(_) | Phase::Update(_));
                let current = engine.current as usize;
                let over = end > current && (*address as usize) < current + 32;
                let over = fetched && engine.sg_mode && over;
                coverage.see_if(over, "memory put over a fetched descriptor");
            }
        }
        Record::Window { start, length } => {
            let end = u64::from(*start) + u64::from(*length);
            let over = u64::from(*start) < u64::from(MEMORY) && end > u64::from(MEMORY);
            coverage.see_if(over, "window past the memory's end");
            coverage.see_if(busy, "window added in the midst of a transfer");
            let over = over_queues(engine, *start, *length).contains(&true);
            coverage.see_if(over, "window added over a fixed word, in its transfer");
            coverage.see_if(replay.windows().len() + 1 == MOST_WINDOWS, "sixteen windows");
        }
        Record::Write { offset, value } => {
            coverage.write(u32::from(*offset), engine);
            register_write(engine, *offset, *value, &mut memo.own[turn(replay)], coverage);
        }
        Record::Read { offset } => {
            coverage.read(u32::from(*offset), engine);
        }
        Record::Steps { .. } => {}
        Record::Bus(bus) => {
            let out = fields_out(bus);
            coverage.see_if(!out.is_empty() && bus.bits & 1 == 0, "AR refused in reset");
            coverage.see_if(!out.is_empty() && bus.bits & 2 == 0, "AR refused with valid low");
            for name in out {
                coverage.see(name);
            }
        }
    }
}

/// Do bytes have one in common with the word of a fixed source that moves, of a fixed destination?
fn over_queues(engine: &Engine, start: u32, count: u32) -> [bool; 2] {
    let over = |side: &Side| side.fixed && share(&side.whole, &sick(&(start, count)));
    Burst::before(engine)
        .map_or([false; 2], |burst| [over(&burst.source), over(&burst.destination)])
}

fn register_write(engine: &Engine, offset: u16, value: u32, own: &mut Own, coverage: &mut Counts) {
    let busy = !engine.idle();
    let mut after = engine.clone();
    let answer = after.write(u32::from(offset), value);
    key_hole::see_write(engine, u32::from(offset), value, &after, coverage);
    match offset {
        0x00 if value & 4 != 0 => {
            reset(engine, coverage);
            own.at_tail = false;
            own.restart = false;
            own.old_tail = None;
        }
        0x00 => {
            let mode = (value & CHAIN != 0) != engine.sg_mode;
            coverage.see_if(answer == 4 && mode, "mode change refused while busy");
            coverage.see_if(busy && after != *engine, "enables written while busy");
            own.mode_changed |= after.sg_mode != engine.sg_mode;
        }
        0x04 => {
            coverage.see_if(engine.ioc_irq && !after.ioc_irq, "IOC_Irq cleared");
            let cleared = engine.err_irq && !after.err_irq;
            coverage.see_if(cleared, "Err_Irq cleared");
            let left = cleared && after.in_error();
            coverage.see_if(left, "Err_Irq cleared with the error bit left");
        }
        0x08 if answer == 0 => own.at_tail = false,
        0x10 if answer == 0 && busy && after.tail != engine.tail => {
            own.old_tail = Some(engine.tail);
            coverage.see(match engine.phase {
                Phase::Fetch => "tail replaced before a fetch",
                Phase::Update(_) => "tail replaced before an update",
                _ => "tail replaced before a burst",
            });
        }
        0x10 if answer == 0 && !busy => {
            own.restart = own.at_tail;
            own.old_tail = None;
            own.descriptors = 0;
        }
        0x28 if answer == 0 => {
            let high = value > 0x7f_ffff;
            let zero = value & 0x7f_ffff == 0;
            coverage.see_if(zero && !high, "BTT of zero");
            coverage.see_if(zero && high, "BTT of zero with bits above 22");
            coverage.see_if(!zero && high, "BTT with bits above 22");
            key_hole::see_start(engine, BY_BTT, [engine.sa, engine.da, value], coverage);
        }
        _ => {}
    }
}

fn reset(engine: &Engine, coverage: &mut Counts) {
    coverage.see(match (engine.phase, engine.sg_mode) {
        (Phase::Idle, _) if engine.in_error() => "reset in error",
        (Phase::Idle, _) => "reset when idle",
        (Phase::Fetch, _) => "reset before a fetch",
        (Phase::Update(_), _) => "reset before an update",
        (Phase::Move(_), false) => "reset in a simple transfer",
        (Phase::Move(_), true) => "reset in a chain transfer",
    });
    let written = matches!(engine.phase, Phase::Move(Transfer { moved: 1.., .. }));
    coverage.see_if(written, "reset after a written burst");
}

fn run(engine: &Engine, steps: usize, most: usize, coverage: &mut Counts) {
    let busy = !engine.idle();
    coverage.see_if(most == 0, "run of no steps");
    coverage.see_if(most > 0 && steps == 0, "run on an idle engine");
    coverage.see_if(busy && steps > 0, "run stopped in the midst of a transfer");
    coverage.see_if(!busy && steps > 0 && steps == most, "run that ends with its last step");
    coverage.see_if(!busy && steps > 0 && steps < most, "run that ends before its last step");
    coverage.see_if(steps >= 500, "run of five hundred steps or more");
    coverage.see_if(busy && steps == 65_535, "run stopped after 65,535 steps");
}

/// A good clock after `held`, with the flags before and after it.
fn clock(bus: &Bus, held: &Clock, flags: u64, now: u64, coverage: &mut Counts) {
    for flag in (0..64).filter(|flag| now & !flags & 1 << flag != 0) {
        coverage.number("flag raised", flag);
    }
    let clock = bus.clock();
    coverage.see_if(!clock.reset_high && flags != 0, "flags cleared by reset");
    coverage.see_if(now.count_ones() >= 6, "six flags or more");
    if !clock.reset_high {
        return;
    }
    if clock.valid && clock.burst == 1 {
        let word = 1u64 << clock.size;
        let total = (u64::from(clock.length) + 1) * word;
        let end = u64::from(clock.address) / word * word + total;
        let page = u64::from(clock.address) / 4096;
        let at_end = end.is_multiple_of(4096) && (end - 1) / 4096 == page;
        coverage.see_if(at_end, "last byte of a burst at the page's end");
        coverage.see_if(end > TOP, "last byte of a burst past 2^32");
    }
    let compared = held.reset_high && held.valid;
    let mut same = clock;
    same.ready = held.ready;
    coverage.see_if(compared && !held.ready && clock == *held, "clock held unchanged");
    let ready = compared && !held.ready && same == *held && clock != *held;
    coverage.see_if(ready, "ready alone changed");
    coverage.see_if(compared && held.ready && same != *held, "change after ready");
    same.valid = true;
    let drops = compared && !held.ready && !clock.valid && same != *held;
    coverage.see_if(drops, "change as valid drops");
}
