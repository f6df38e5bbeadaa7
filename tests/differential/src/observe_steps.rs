// Counts what the steps of a run did.

use independent::engine::{Engine, Event, Outcome, Phase, Transfer};
use independent::memory::{Window, MOST_WINDOWS};
use shared::bursts::{full_piece, Burst, Side};
use shared::coverage::Counts;
use shared::fault_place::see_place;
use shared::key_hole::{see_start, BY_DESCRIPTOR};
use shared::key_hole_bursts::see_burst;

use crate::maker::MEMORY;

const TOP: u64 = 1 << 32;

/// One step that was taken.
pub struct Step<'a> {
    /// The place of its engine, from 0.
    pub turn: usize,
    pub before: &'a Engine,
    pub windows: &'a [Window],
    pub event: Event,
    pub after: &'a Engine,
    /// Memory after the step.
    pub memory: &'a [u8],
}

/// What a byte of memory was written by.
#[derive(Clone, Copy, Default)]
pub struct Written {
    /// The place of an engine, from 0, by a burst or an update; none by an MM.
    pub engine: Option<usize>,
    /// A burst, and no MM and no update since.
    copied: bool,
    /// Its value came from a fixed source, or through a fixed destination.
    from_queue: bool,
    through_queue: bool,
}

/// What is remembered of an engine from record to record.
#[derive(Default)]
pub struct Own {
    /// The last good update ended at the tail, and next was not set since.
    pub at_tail: bool,
    pub mode_changed: bool,
    /// The next fetch is that of a restart.
    pub restart: bool,
    /// The tail that was replaced while busy.
    pub old_tail: Option<u32>,
    pub descriptors: u32,
    /// Of source and destination of the fetched descriptor, what all bytes of the word have.
    fetched: [Written; 2],
    /// The fetched descriptor has a fixed side off the multiples.
    off: bool,
}

impl Own {
    /// What the word of a descriptor has that is the first number of a step's line, and so can be
    /// seen: the start of its first burst, or the place of a fault there.
    pub fn shown(&self, before: &Engine, first: u32) -> Written {
        match before.phase {
            Phase::Move(Transfer { source, destination, moved: 0, .. }) if before.sg_mode => {
                let starts = [source, destination];
                let at = starts.iter().position(|start| *start == first);
                at.map_or(Written::default(), |at| self.fetched[at])
            }
            _ => Written::default(),
        }
    }
}

/// What is remembered of a trace from record to record.
pub struct Memo {
    /// The trace got the default settings.
    pub default: bool,
    /// Of each byte of memory.
    pub written: Vec<Written>,
    /// Of engines 1 and 2.
    pub own: [Own; 2],
}

impl Memo {
    pub fn new() -> Memo {
        let written = vec![Written::default(); MEMORY as usize];
        Memo { default: false, written, own: Default::default() }
    }
}

/// Does a window share a byte with the range?
fn touches(windows: &[Window], start: u32, count: u32) -> bool {
    let (from, to) = (u64::from(start), u64::from(start) + u64::from(count));
    windows.iter().any(|&(sick, size)| {
        let sick = u64::from(sick);
        size > 0 && sick < to && from < sick + u64::from(size)
    })
}

/// Counts one step.
pub fn one_step(step: &Step, memo: &mut Memo, coverage: &mut Counts) {
    match step.event {
        Event::None => {}
        Event::Fetch { current } => fetched(step, current, memo, coverage),
        Event::Halt { current, bit } => halted(step, current, bit, memo, coverage),
        Event::Move { start, bytes } => moved(step, start, bytes, memo, coverage),
        Event::Fault { place, .. } => failed(step, place, memo, coverage),
        Event::Update { current, word } => updated(step, current, word, memo, coverage),
    }
}

fn fetched(step: &Step, current: u32, memo: &mut Memo, coverage: &mut Counts) {
    let at = current as usize;
    let word = |place: usize| {
        let bytes = &step.memory[at + place..at + place + 4];
        u32::from_le_bytes([bytes[0], bytes[1], bytes[2], bytes[3]])
    };
    let own = &mut memo.own[step.turn];
    if own.restart {
        coverage.see("restart after the tail");
        coverage.see_if(own.mode_changed, "restart after the tail with a change of mode between");
        own.restart = false;
    }
    own.mode_changed = false;
    own.at_tail = false;
    own.fetched = [0x08, 0x10].map(|place| {
        let bytes = &memo.written[at + place..at + place + 4];
        let engine = bytes[0].engine;
        Written {
            engine: engine.filter(|_| bytes.iter().all(|byte| byte.engine == engine)),
            copied: bytes.iter().all(|byte| byte.copied),
            from_queue: bytes.iter().all(|byte| byte.from_queue),
            through_queue: bytes.iter().all(|byte| byte.through_queue),
        }
    });
    coverage.see_if(current == MEMORY - 64, "descriptor in the last place of memory");
    coverage.see_if(word(0x1c) != 0, "status bits below 31 at a good fetch");
    coverage.see_if(step.after.held_next == current, "next pointer to the descriptor itself");
    if word(0x18) & 0x7f_ffff == 0 {
        coverage.see("count of zero in a descriptor");
        coverage.see_if(word(0x18) != 0, "count of zero with other control bits");
    }
    let off = step.after.phase == Phase::Update(Outcome::Internal);
    own.off = off && word(0x18) & 0x7f_ffff != 0;
    let copy = [word(0x08), word(0x10), word(0x18)];
    see_start(step.before, BY_DESCRIPTOR, copy, coverage);
}

fn halted(step: &Step, current: u32, bit: u32, memo: &mut Memo, coverage: &mut Counts) {
    let own = &mut memo.own[step.turn];
    own.restart = false;
    own.at_tail = false;
    let status = touches(step.windows, current + 0x1c, 4);
    match (step.before.phase, bit) {
        (Phase::Fetch, 8) => coverage.see("stale descriptor"),
        (Phase::Fetch, 9) => {
            let upper = touches(step.windows, current, 0x1c);
            coverage.see_if(upper, "window over the descriptor");
            coverage.see_if(status && !upper, "window over the status word at a fetch");
        }
        (Phase::Fetch, _) => coverage.see("descriptor past the memory's end"),
        _ => coverage.see("window over the status word at an update"),
    }
}

fn burst(step: &Step) -> Burst {
    Burst::before(step.before).expect("a burst of an engine that moves")
}

/// Beats of a trace without CF before there was a default line.
const OLDER_BEATS: u32 = 16;

/// A good burst with the default settings: is it one that the older ones would have cut?
fn default_burst(step: &Step, burst: &Burst, coverage: &mut Counts) {
    let older = Engine { beats: OLDER_BEATS, ..step.before.clone() };
    let cut = Burst::before(&older).is_some_and(|older| older.bytes < burst.bytes);
    coverage.see_if(cut, "default line and a burst that 16 beats would have cut");
    let full = burst.destination.fixed && burst.bytes == full_piece(&older);
    coverage.see_if(full, "default line and a full piece to a fixed destination");
}

/// What the bytes of a good burst have, from those that it read.
fn written(burst: &Burst, turn: usize, memo: &mut Memo) {
    let places = |side: &Side| {
        let used = side.used.clone().into_iter().flatten();
        used.map(|at| at as usize).collect::<Vec<_>>()
    };
    let (from, to) = (places(&burst.source), places(&burst.destination));
    let (read, write) = (burst.source.fixed, burst.destination.fixed);
    // With one side fixed all bytes of the other have the same.
    let old: Vec<Written> = from.iter().map(|at| memo.written[*at]).collect();
    for (place, at) in to.into_iter().enumerate() {
        let old = if read || write { Written::default() } else { old[place] };
        memo.written[at] = Written {
            engine: Some(turn),
            copied: true,
            from_queue: read || old.from_queue,
            through_queue: write || old.through_queue,
        };
    }
}

fn moved(step: &Step, to: u32, bytes: u32, memo: &mut Memo, coverage: &mut Counts) {
    let burst = burst(step);
    written(&burst, step.turn, memo);
    if memo.default {
        default_burst(step, &burst, coverage);
    }
    if burst.has_fixed_side() {
        see_burst(step.before, MEMORY.into(), step.windows, true, coverage);
        return;
    }
    let (from, left) = (burst.source.straight.start as u32, burst.left);
    let (width, beats) = (step.before.width, step.before.beats);
    if bytes < left {
        coverage.cut(width, beats);
        let page = (to + bytes).is_multiple_of(4096);
        coverage.see(if page { "burst ended by the page" } else { "burst ended by the beats" });
        let within = !to.is_multiple_of(width) && !page;
        coverage.see_if(within, "burst from within a word ended by the beats");
    } else {
        coverage.see("burst ended by the count");
    }
    coverage.see_if(from / 4096 != (from + bytes - 1) / 4096, "source crossing a page in a burst");
    coverage.see_if(from < to && to < from + bytes, "burst overlapping upward");
    coverage.see_if(to < from && from < to + bytes, "burst overlapping downward");
    coverage.see_if(from == to, "burst onto itself");
    let more = bytes < left;
    let up = more && from < to && to - from < left;
    coverage.see_if(up, "transfer overlapping upward over bursts");
    let down = more && to < from && from - to < left;
    coverage.see_if(down, "transfer overlapping downward over bursts");
    coverage.see_if(to + bytes == MEMORY || from + bytes == MEMORY, "burst up to the memory's end");
    for &(sick, size) in step.windows {
        let end = u64::from(sick) + u64::from(size);
        let ends = [(from, from + bytes), (to, to + bytes)];
        for (low, high) in ends {
            let below = size > 0 && end == u64::from(low);
            coverage.see_if(below, "window touching a good burst from below");
            coverage.see_if(size > 0 && sick == high, "window touching a good burst from above");
            let inside = size == 0 && low < sick && sick < high;
            coverage.see_if(inside, "empty window inside a good burst");
        }
    }
    let shown = memo.own[step.turn].shown(step.before, to).copied;
    coverage.see_if(shown, "copied word shown by a move line");
    if step.before.sg_mode {
        let over = |place: u32| to < place.saturating_add(32) && place < to + bytes;
        coverage.see_if(over(step.before.current), "burst over its own descriptor");
        let next = step.before.held_next;
        let next = next != step.before.current && over(next);
        coverage.see_if(next, "burst over the next descriptor");
    }
}

fn failed(step: &Step, place: u32, memo: &Memo, coverage: &mut Counts) {
    let burst = burst(step);
    see_place(step.before, MEMORY.into(), step.windows, place, coverage);
    if burst.has_fixed_side() {
        see_burst(step.before, MEMORY.into(), step.windows, false, coverage);
        return;
    }
    let (from, to) = (burst.source.straight.start as u32, burst.destination.straight.start as u32);
    let Burst { bytes: reach, left, moved: done, .. } = burst;
    let past = |start: u32| u64::from(start) + u64::from(reach) > u64::from(MEMORY);
    let (sick_from, sick_to) =
        (touches(step.windows, from, reach), touches(step.windows, to, reach));
    coverage.see_if(done > 0, "fault after a written burst");
    coverage.see_if(past(from), "source past the memory's end");
    coverage.see_if(past(to), "destination past the memory's end");
    coverage.see_if(u64::from(from) + u64::from(reach) > TOP, "source at the top of 2^32");
    coverage.see_if(u64::from(to) + u64::from(left) > TOP, "destination at the top of 2^32");
    let far = step.windows.iter().any(|&(sick, size)| {
        let past_top = u64::from(sick) + u64::from(size) > TOP;
        past_top && (touches(&[(sick, size)], from, reach) || touches(&[(sick, size)], to, reach))
    });
    coverage.see_if(far, "window past 2^32 over a burst");
    let first = &step.windows[..step.windows.len().min(MOST_WINDOWS - 1)];
    let last = !touches(first, from, reach) && !touches(first, to, reach);
    let ended = past(from) || past(to);
    let decides = last && !ended && step.windows.len() == MOST_WINDOWS;
    coverage.see_if(decides, "sixteenth window alone decides");
    coverage.see_if(ended && (sick_from || sick_to), "window and memory's end in one burst");
    if !ended {
        coverage.see(match (sick_from, sick_to) {
            (true, true) => "window over source and destination",
            (true, false) => "window over the source",
            _ => "window over the destination",
        });
    }
    let Written { copied, from_queue, through_queue, .. } =
        memo.own[step.turn].shown(step.before, place);
    coverage.see_if(copied, "copied word shown by a fault line");
    coverage.see_if(from_queue, "word from a fixed source shown by a fault line");
    coverage.see_if(through_queue, "word of a fixed destination shown by a fault line");
}

fn updated(step: &Step, current: u32, word: u32, memo: &mut Memo, coverage: &mut Counts) {
    let status = Written { engine: Some(step.turn), ..Written::default() };
    memo.written[current as usize + 0x1c..current as usize + 0x20].fill(status);
    let own = &mut memo.own[step.turn];
    if word != 0x8000_0000 {
        own.at_tail = false;
        coverage.see_if(own.off, "update after a fixed side off the multiples");
        return;
    }
    own.descriptors += 1;
    if step.after.idle() {
        own.at_tail = true;
        own.mode_changed = false;
        coverage.see_if(own.old_tail.is_some(), "chain ended at its new tail");
        own.old_tail = None;
    } else {
        coverage.see("chain of more than one descriptor");
        let fixed = step.before.key_hole_read || step.before.key_hole_write;
        coverage.see_if(fixed, "chain of more than one descriptor with a fixed side");
        coverage.see_if(own.descriptors == 3, "chain of four descriptors or more");
        let past = own.old_tail == Some(current);
        coverage.see_if(past, "chain went on past a replaced tail");
    }
}
