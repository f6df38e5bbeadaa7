// Counts what a step or a run did, and with which memory and windows.

use independent::cut::LONGEST as MOST_BYTES;
use independent::engine::Engine;
use independent::memory::LONGEST as MOST_MEMORY;

use crate::coverage::Coverage;
use crate::engine_desk::{Call, Given};
use crate::observe::Seen;
use crate::queues::any_fixed;
use crate::reference::pairs;
use shared::bursts::Burst;
use shared::fault_place::see_place;
use shared::interface::{Ran, Stepped};
use shared::key_hole::{self, BY_DESCRIPTOR};
use shared::key_hole_bursts::see_burst;
use shared::words::{
    self, EngineWords, BEATS, COMPLETE_INTERRUPT, CURRENT, DESTINATION, ERROR_BIT, ERROR_INTERRUPT,
    FETCH, IDLE, MOVE, PHASE, SOURCE, TAIL, WIDTH,
};

const TOP: u64 = 1 << 32;

const FETCH_EVENT: u32 = 1;
const MOVE_EVENT: u32 = 2;
const FAULT_EVENT: u32 = 3;
const UPDATE_EVENT: u32 = 4;
const HALT_EVENT: u32 = 5;

/// A group of bytes that a step judged: start and end.
type Group = (u64, u64);

pub fn lent(seen: &Seen, answer: u32, coverage: &mut Coverage) {
    let memory = seen.memory.len();
    coverage.see_if(memory == MOST_MEMORY + 1, "memory of 16,777,217 bytes");
    let odd = !seen.windows.len().is_multiple_of(2);
    match seen.windows.len() / 2 {
        16 => {
            coverage.see_if(!odd, "sixteen windows");
            coverage.see_if(odd, "sixteen windows and an odd number");
        }
        17 => {
            coverage.see_if(!odd, "seventeen windows");
            coverage.see_if(odd, "seventeen windows and an odd number");
        }
        count => coverage.see_if(count == 0 && !odd, "no windows"),
    }
    if answer != 0 {
        return;
    }
    coverage.number_if_expected("number of windows that were taken", seen.windows.len() as u32 / 2);
    coverage.see_if(memory == MOST_MEMORY, "memory of 16,777,216 bytes");
    coverage.see_if(memory == 0 && !seen.null, "memory of no bytes");
    coverage.see_if(seen.null, "memory of no bytes at a null pointer");
    match (seen.call, seen.given) {
        (Call::Step, Given::Stepped(stepped)) => step(seen, &stepped, coverage),
        (Call::Run { most }, Given::Ran(ran)) => run(seen, u32::from(most), &ran, coverage),
        _ => {}
    }
}

fn run(seen: &Seen, most: u32, ran: &Ran, coverage: &mut Coverage) {
    let (before, after) = (seen.before, seen.after);
    let (started, idle) = (before[PHASE] != IDLE, after[PHASE] == IDLE);
    coverage.see_if(!started, "run on an idle engine");
    if !started {
        return;
    }
    coverage.see_if(most == 0, "run of no steps on a busy engine");
    coverage.see_if(most == 1, "run of at most one step");
    coverage.see_if(most > 1 && after[PHASE] == MOVE, "run stopped in the midst of a transfer");
    coverage.see_if(most > 1 && idle && ran.steps == most, "run that ends with its last step");
    coverage.see_if(most > 1 && ran.steps < most, "run that ends before its last step");
    coverage.see_if(most == 65_535 && idle, "run of at most 65,535 steps that ends");
    coverage.see_if(ran.steps == 65_535 && !idle, "run stopped after 65,535 steps");
    if seen.became(ERROR_BIT) {
        coverage.number("error bit after a run", after[ERROR_BIT]);
    }
    let (before, after) = (engine(before), engine(after));
    key_hole::see_run(&before, &after, ran.steps, most, coverage);
    let fixed = before.key_hole_read || before.key_hole_write;
    let all = fixed && ran.steps == 65_535 && !idle;
    coverage.see_if(all, "run stopped after 65,535 bursts with a fixed side");
}

/// The engine of words that were taken.
fn engine(words: &EngineWords) -> Engine {
    words::engine(words).expect("a step that was taken has an engine")
}

fn step(seen: &Seen, stepped: &Stepped, coverage: &mut Coverage) {
    let (before, after) = (seen.before, seen.after);
    coverage.number("event of a step", stepped.event);
    if stepped.event == 0 {
        return;
    }
    coverage.see_if(seen.changed.longer, "memory longer than at the step before");
    coverage.see_if(seen.changed.shorter, "memory shorter than at the step before");
    coverage.see_if(seen.changed.bytes, "other bytes than at the step before");
    coverage.see_if(seen.changed.windows, "other windows than at the step before");
    coverage.see_if(seen.became(ERROR_INTERRUPT), "Err_Irq set by a halt");
    let update = stepped.event == UPDATE_EVENT;
    let complete = seen.became(COMPLETE_INTERRUPT);
    coverage.see_if(complete && !update, "IOC_Irq set by a simple move");
    coverage.see_if(complete && update, "IOC_Irq set by an update");
    if seen.became(ERROR_BIT) {
        coverage.see(error(before[PHASE], after[ERROR_BIT]));
    }
    match stepped.event {
        FETCH_EVENT => fetched(seen, coverage),
        MOVE_EVENT => {
            coverage.see_if(after[PHASE] == MOVE, "transfer of more than one burst");
            if !any_fixed(before) {
                if after[PHASE] == MOVE {
                    coverage.cut(before[WIDTH], before[BEATS]);
                }
                let apart = before[SOURCE].abs_diff(before[DESTINATION]);
                let over = apart != 0 && apart < stepped.second;
                coverage.see_if(over, "burst overlapping its source");
            }
        }
        FAULT_EVENT => {
            coverage.number("bit of a fault", stepped.second);
            let (engine, memory) = (engine(before), seen.memory.len() as u64);
            see_place(&engine, memory, &pairs(seen.windows), stepped.first, coverage);
        }
        UPDATE_EVENT => {
            coverage.number("bit of an updated word", stepped.second.trailing_zeros());
            let good = before[PHASE] == 31;
            let ended = good && before[CURRENT] == before[TAIL];
            coverage.see_if(ended, "chain that ends at its tail");
            coverage.see_if(good && !ended, "chain that goes on to its next descriptor");
        }
        _ => {
            coverage.number("bit of a halt", stepped.second);
            let lost = before[PHASE] != FETCH && stepped.second == 10 && seen.changed.shorter;
            coverage.see_if(lost, "status word lost by a shorter memory, after its fetch");
        }
    }
    groups(seen, stepped, coverage);
}

/// A good fetch, after which memory is as it was.
fn fetched(seen: &Seen, coverage: &mut Coverage) {
    let word = |place: usize| {
        let at = seen.before[CURRENT] as usize + place;
        u32::from_le_bytes(seen.memory[at..at + 4].try_into().expect("four bytes"))
    };
    let copy = [word(0x08), word(0x10), word(0x18)];
    coverage.see_if(copy[2] & MOST_BYTES == 0, "count of zero in a descriptor");
    let refused = copy[2] & MOST_BYTES != 0 && seen.after[PHASE] == 28;
    coverage.see_if(refused, "descriptor refused for a fixed side");
    key_hole::see_start(&engine(seen.before), BY_DESCRIPTOR, copy, coverage);
}

/// The row of an error bit that a step in this phase set.
fn error(phase: u32, bit: u32) -> &'static str {
    match (phase, bit) {
        (FETCH, 8) => "8 at a fetch",
        (FETCH, 9) => "9 at a fetch",
        (FETCH, 10) => "10 at a fetch",
        (MOVE, 5) => "5 in a simple move",
        (MOVE, 6) => "6 in a simple move",
        (_, 4) => "4 at an update",
        (_, 5) => "5 at an update",
        (_, 6) => "6 at an update",
        (_, 9) => "9 at an update, in place of its word",
        _ => "10 at an update, in place of its word",
    }
}

/// The bytes that the step judged, and how memory's end and the windows lay to them.
fn groups(seen: &Seen, stepped: &Stepped, coverage: &mut Coverage) {
    let before = seen.before;
    let current = u64::from(before[CURRENT]);
    let memory = seen.memory.len() as u64;
    let judged: Vec<Group> = match before[PHASE] {
        FETCH => {
            let end = current + 32;
            coverage.see_if(current < memory && memory < end, "descriptor cut by the memory's end");
            coverage.see_if(current == TOP - 64, "descriptor in the last place of 2^32");
            vec![(current, end)]
        }
        MOVE => moved(seen, stepped.event == MOVE_EVENT, coverage),
        _ => {
            let (start, end) = (current + 28, current + 32);
            coverage.see_if(start < memory && memory < end, "status word cut by the memory's end");
            vec![(start, end)]
        }
    };
    let sick = matches!(stepped.event, FAULT_EVENT | HALT_EVENT) && matches!(stepped.second, 5 | 9);
    let good = matches!(stepped.event, FETCH_EVENT | MOVE_EVENT | UPDATE_EVENT);
    windows(seen, &judged, good, sick, coverage);
}

/// The bytes that a burst judged, good or not.
fn moved(seen: &Seen, good: bool, coverage: &mut Coverage) -> Vec<Group> {
    let (engine, memory) = (engine(seen.before), seen.memory.len() as u64);
    let burst = Burst::before(&engine).expect("a burst of an engine that moves");
    let (from, to) = (&burst.source.straight, &burst.destination.straight);
    if burst.has_fixed_side() {
        see_burst(&engine, memory, &pairs(seen.windows), good, coverage);
    } else {
        coverage.see_if(from.end > TOP, "source that passes 2^32 in its burst");
        coverage.see_if(to.start >= TOP - 4096, "destination in the last page of 2^32");
        let past = |end: u64| from.end == memory + end || to.end == memory + end;
        coverage.see_if(past(0) && good, "burst up to the memory's end");
        coverage.see_if(past(1), "burst one byte past the memory's end");
    }
    let used = burst.source.used.iter().chain(&burst.destination.used);
    used.map(|bytes| (bytes.start, bytes.end)).collect()
}

fn windows(seen: &Seen, judged: &[Group], good: bool, sick: bool, coverage: &mut Coverage) {
    let memory = seen.memory.len() as u64;
    let windows = pairs(seen.windows);
    let windows: Vec<Group> = windows
        .iter()
        .map(|(start, length)| (u64::from(*start), u64::from(*start) + u64::from(*length)))
        .collect();
    let shares = |window: &Group, group: &Group| {
        window.0 < window.1 && window.0 < group.1 && group.0 < window.1
    };
    let over = |window: &&Group| judged.iter().any(|group| shares(window, group));
    let any = |test: &dyn Fn(&Group, &Group) -> bool| {
        windows.iter().any(|window| judged.iter().any(|group| test(window, group)))
    };
    let past = judged.iter().any(|group| group.1 > memory);
    let last = TOP - 1;
    coverage.see_if(
        windows.iter().any(|(start, end)| *start == last && *end > TOP),
        "window from 2^32 - 1 on, past 2^32",
    );
    coverage.see_if(past && any(&shares), "window over a group past the memory's end");
    if good {
        let inside =
            any(&|window, group| window.0 == window.1 && group.0 < window.0 && window.0 < group.1);
        coverage.see_if(inside, "empty window inside a good group");
        let below = any(&|window, group| window.0 < window.1 && window.1 == group.0);
        coverage.see_if(below, "window that touches a good group from below");
        let above = any(&|window, group| window.0 < window.1 && window.0 == group.1);
        coverage.see_if(above, "window that touches a good group from above");
        let wraps = any(&|window, group| window.1 > TOP && window.1 - TOP > group.0);
        coverage.see_if(wraps, "window past 2^32 that would wrap onto a good group");
        let left = seen.windows.chunks_exact(2).remainder();
        let inside = |start: &u32| {
            let start = u64::from(*start);
            judged.iter().any(|group| group.0 <= start && start < group.1)
        };
        coverage.see_if(left.iter().any(inside), "odd last number in the place of a group");
    }
    if sick {
        coverage.see_if(
            windows.iter().filter(over).any(|window| window.1 > memory),
            "window past the memory's end over a group",
        );
        coverage.see_if(windows.iter().filter(over).count() > 1, "two windows over a group");
        let alone = windows.len() == 16 && windows[..15].iter().filter(over).count() == 0;
        coverage.see_if(alone, "last of sixteen windows alone over a group");
    }
}
