// What both coverage tables count of a burst with a fixed side: how it was cut, and how its sides,
// the memory's end and the windows lie to each other. From RULES.md, "Descriptor and steps" (6.10).

use independent::engine::Engine;
use independent::memory::Window;

use crate::bursts::{full_piece, share, sick, Burst, Bytes, Side, MOST_FIXED_BEATS, PAGE};
use crate::coverage::Counts;

const TOP: u64 = 1 << 32;

pub const BURSTS: &[&str] = &[
    "source fixed, good burst in simple mode",
    "source fixed, good burst in a chain",
    "source fixed, fault in simple mode",
    "source fixed, fault in a chain",
    "destination fixed, good burst in simple mode",
    "destination fixed, good burst in a chain",
    "destination fixed, fault in simple mode",
    "destination fixed, fault in a chain",
    "both sides fixed, good burst in simple mode",
    "both sides fixed, good burst in a chain",
    "both sides fixed, fault in simple mode",
    "both sides fixed, fault in a chain",
    // Cut.
    "piece of all beats set, below sixteen",
    "piece of sixteen beats, as set",
    "piece of sixteen beats, with more set",
    "piece alone, shorter than a full one",
    "last piece shorter than those before it",
    "last piece as long as those before it",
    "fourth piece or a later one",
    "piece longer than the page of its word has left",
    "piece over a page's end, if its destination incremented",
    "burst from a fixed source ended by the page",
    "burst from a fixed source ended by the beats",
    "burst from a fixed source of more than sixteen beats",
    "burst of less than a word from a fixed source",
    "burst from within a fixed source word",
    // Sides that overlap.
    "source over the word of a fixed destination",
    "source over a word that an earlier piece wrote",
    "destination over the word of a fixed source",
    "fixed source word that an earlier burst wrote",
    "one word for both sides",
    "burst with a fixed side over its own descriptor",
    "burst with a fixed side over the next descriptor",
    // Memory's end.
    "fixed source word up to the memory's end",
    "fixed destination word up to the memory's end",
    "fixed source, past the memory's end if it incremented",
    "fixed destination, past the memory's end if it incremented",
    "fixed source word past the memory's end",
    "fixed destination word past the memory's end",
    "fixed source word at the top of 2^32",
    "fixed destination word at the top of 2^32",
    // Windows.
    "fixed source word sick in its first byte alone",
    "fixed destination word sick in its first byte alone",
    "fixed source word sick in its last byte alone",
    "fixed destination word sick in its last byte alone",
    "window that touches a fixed source word from below",
    "window that touches a fixed destination word from below",
    "window that touches a fixed source word from above",
    "window that touches a fixed destination word from above",
    "window that a fixed source would meet if it incremented",
    "window that a fixed destination would meet if it incremented",
    "sick byte of a fixed source word that a short burst misses",
    // Faults.
    "fault of an incrementing source alone, destination fixed",
    "fault of an incrementing destination alone, source fixed",
    "fault at a fixed destination after a written piece",
    "fault from a fixed source after a written burst",
    "window and memory's end in one burst with a fixed side",
];

/// Bursts of states that no trace reaches.
pub const BURSTS_OFF_THE_MULTIPLES: &[&str] = &[
    "fixed source start off the multiples",
    "fixed destination start off the multiples",
    "count off the multiples, source fixed",
    "count off the multiples, destination fixed",
    "piece of less than a word",
    "piece from within its word",
    "short burst at both ends of a fixed source word",
    "short piece at both ends of its word",
    "sick byte of a fixed destination word that a short piece misses",
    "sick byte between both ends of a fixed source word, missed",
    "sick byte between both ends of a fixed destination word, missed",
    "fixed source word cut by the memory's end",
    "fixed destination word cut by the memory's end",
    "fixed source word cut by the memory's end, missed by a short burst",
    "fixed destination word cut by the memory's end, missed by a short piece",
    "fixed source word that runs past 2^32",
    "fixed destination word that runs past 2^32",
    "words of both sides that overlap in part",
];

/// Counts a step of a transfer with a fixed side, with the engine before it: a good one, or a fault.
pub fn see_burst(
    engine: &Engine,
    memory: u64,
    windows: &[Window],
    good: bool,
    counts: &mut Counts,
) {
    let Some(burst) = Burst::before(engine).filter(Burst::has_fixed_side) else {
        return;
    };
    counts.see(kind(engine, good));
    if good {
        if burst.destination.fixed {
            piece(engine, &burst, counts);
        } else {
            drained(engine, &burst, counts);
        }
        overlaps(engine, &burst, counts);
    } else {
        failed(&burst, memory, windows, counts);
    }
    for (at, side) in [&burst.source, &burst.destination].into_iter().enumerate() {
        if side.fixed {
            let mut row = |seen: bool, rows: [&'static str; 2]| counts.see_if(seen, rows[at]);
            off_the_multiples(engine, &burst, side, &mut row);
            if good {
                memory_around(side, memory, &mut row);
                windows_around(side, windows, &mut row);
            } else {
                memory_over(side, memory, &mut row);
                windows_over(side, windows, &mut row);
            }
        }
    }
}

fn kind(engine: &Engine, good: bool) -> &'static str {
    match (engine.key_hole_read, engine.key_hole_write, good, engine.sg_mode) {
        (true, false, true, false) => "source fixed, good burst in simple mode",
        (true, false, true, true) => "source fixed, good burst in a chain",
        (true, false, false, false) => "source fixed, fault in simple mode",
        (true, false, false, true) => "source fixed, fault in a chain",
        (false, _, true, false) => "destination fixed, good burst in simple mode",
        (false, _, true, true) => "destination fixed, good burst in a chain",
        (false, _, false, false) => "destination fixed, fault in simple mode",
        (false, _, false, true) => "destination fixed, fault in a chain",
        (true, true, true, false) => "both sides fixed, good burst in simple mode",
        (true, true, true, true) => "both sides fixed, good burst in a chain",
        (true, true, false, false) => "both sides fixed, fault in simple mode",
        (true, true, false, true) => "both sides fixed, fault in a chain",
    }
}

/// A good piece to a fixed destination.
fn piece(engine: &Engine, burst: &Burst, counts: &mut Counts) {
    let Burst { bytes, moved, left, .. } = *burst;
    let (full, beats) = (full_piece(engine), engine.beats);
    if bytes == full {
        counts.see(match beats {
            MOST_FIXED_BEATS => "piece of sixteen beats, as set",
            0..MOST_FIXED_BEATS => "piece of all beats set, below sixteen",
            _ => "piece of sixteen beats, with more set",
        });
    }
    if bytes < left {
        counts.piece(engine.width, beats);
    } else if moved == 0 {
        counts.see_if(bytes < full, "piece alone, shorter than a full one");
    } else {
        counts.see_if(bytes < full, "last piece shorter than those before it");
        counts.see_if(bytes == full, "last piece as long as those before it");
    }
    counts.see_if(moved >= 3 * full, "fourth piece or a later one");
    counts.see_if(bytes < engine.width, "piece of less than a word");
    counts.see_if(!moved.is_multiple_of(engine.width), "piece from within its word");
    let passes = |start: u64| start % u64::from(PAGE) + u64::from(bytes) > u64::from(PAGE);
    let word = passes(burst.destination.whole.start);
    counts.see_if(word, "piece longer than the page of its word has left");
    let straight = passes(burst.destination.straight.start);
    counts.see_if(straight, "piece over a page's end, if its destination incremented");
}

/// A good burst from a fixed source to a destination that increments.
fn drained(engine: &Engine, burst: &Burst, counts: &mut Counts) {
    let Burst { bytes, moved, left, .. } = *burst;
    if bytes < left {
        let page = burst.destination.straight.end.is_multiple_of(u64::from(PAGE));
        counts.see(if page {
            "burst from a fixed source ended by the page"
        } else {
            "burst from a fixed source ended by the beats"
        });
    }
    let long = bytes > MOST_FIXED_BEATS * engine.width;
    counts.see_if(long, "burst from a fixed source of more than sixteen beats");
    counts.see_if(bytes < engine.width, "burst of less than a word from a fixed source");
    counts.see_if(!moved.is_multiple_of(engine.width), "burst from within a fixed source word");
}

/// How the sides of a good burst lie to each other and to the descriptors.
fn overlaps(engine: &Engine, burst: &Burst, counts: &mut Counts) {
    let Burst { source, destination, moved, .. } = burst;
    let over = share(&source.whole, &destination.whole);
    match (source.fixed, destination.fixed) {
        (true, true) => {
            let same = source.whole == destination.whole;
            counts.see_if(same, "one word for both sides");
            counts.see_if(over && !same, "words of both sides that overlap in part");
        }
        (true, false) => {
            counts.see_if(over, "destination over the word of a fixed source");
            let before = destination.straight.start - u64::from(*moved)..destination.straight.start;
            let written = share(&source.whole, &before);
            counts.see_if(written, "fixed source word that an earlier burst wrote");
        }
        _ => {
            counts.see_if(over, "source over the word of a fixed destination");
            let written = over && *moved > 0;
            counts.see_if(written, "source over a word that an earlier piece wrote");
        }
    }
    if engine.sg_mode {
        let (current, next) = (engine.current, engine.held_next);
        let over = |place: u32| destination.uses(&(u64::from(place)..u64::from(place) + 32));
        counts.see_if(over(current), "burst with a fixed side over its own descriptor");
        let next = next != current && over(next);
        counts.see_if(next, "burst with a fixed side over the next descriptor");
    }
}

fn failed(burst: &Burst, memory: u64, windows: &[Window], counts: &mut Counts) {
    let Burst { source, destination, moved, .. } = burst;
    let bad = |side: &Side| side.is_past(memory) || side.is_sick(windows);
    let source_alone = !source.fixed && bad(source) && !bad(destination);
    counts.see_if(source_alone, "fault of an incrementing source alone, destination fixed");
    let destination_alone = !destination.fixed && bad(destination) && !bad(source);
    counts.see_if(destination_alone, "fault of an incrementing destination alone, source fixed");
    if *moved > 0 {
        counts.see(if destination.fixed {
            "fault at a fixed destination after a written piece"
        } else {
            "fault from a fixed source after a written burst"
        });
    }
    let both = [source, destination];
    let past = both.iter().any(|side| side.is_past(memory));
    let sick = both.iter().any(|side| side.is_sick(windows));
    counts.see_if(past && sick, "window and memory's end in one burst with a fixed side");
}

/// A row of the source or of the destination, if it was met.
type Row<'a> = &'a mut dyn FnMut(bool, [&'static str; 2]);

/// What no state of a trace has.
fn off_the_multiples(engine: &Engine, burst: &Burst, side: &Side, row: Row) {
    let width = engine.width;
    row(
        !side.whole.start.is_multiple_of(u64::from(width)),
        ["fixed source start off the multiples", "fixed destination start off the multiples"],
    );
    row(
        !(burst.moved + burst.left).is_multiple_of(width),
        ["count off the multiples, source fixed", "count off the multiples, destination fixed"],
    );
    row(
        side.used.len() == 2,
        ["short burst at both ends of a fixed source word", "short piece at both ends of its word"],
    );
}

/// Where memory ends, if the burst is good.
fn memory_around(side: &Side, memory: u64, row: Row) {
    row(
        side.whole.end == memory,
        [
            "fixed source word up to the memory's end",
            "fixed destination word up to the memory's end",
        ],
    );
    row(
        side.straight.end > memory,
        [
            "fixed source, past the memory's end if it incremented",
            "fixed destination, past the memory's end if it incremented",
        ],
    );
    row(
        side.whole.end > memory,
        [
            "fixed source word cut by the memory's end, missed by a short burst",
            "fixed destination word cut by the memory's end, missed by a short piece",
        ],
    );
}

/// Where memory ends, if the burst fails.
fn memory_over(side: &Side, memory: u64, row: Row) {
    row(
        side.whole.start >= memory,
        ["fixed source word past the memory's end", "fixed destination word past the memory's end"],
    );
    row(
        side.is_past(memory) && side.whole.start < memory,
        [
            "fixed source word cut by the memory's end",
            "fixed destination word cut by the memory's end",
        ],
    );
    row(
        side.whole.end == TOP,
        ["fixed source word at the top of 2^32", "fixed destination word at the top of 2^32"],
    );
    row(
        side.whole.end > TOP,
        ["fixed source word that runs past 2^32", "fixed destination word that runs past 2^32"],
    );
}

/// How windows lie to the word, if the burst is good: it uses no byte of them.
fn windows_around(side: &Side, windows: &[Window], row: Row) {
    let any = |test: &dyn Fn(&Bytes) -> bool| {
        windows.iter().map(sick).any(|window| !window.is_empty() && test(&window))
    };
    row(
        any(&|window| window.end == side.whole.start),
        [
            "window that touches a fixed source word from below",
            "window that touches a fixed destination word from below",
        ],
    );
    row(
        any(&|window| window.start == side.whole.end),
        [
            "window that touches a fixed source word from above",
            "window that touches a fixed destination word from above",
        ],
    );
    row(
        any(&|window| share(window, &side.straight) && !share(window, &side.whole)),
        [
            "window that a fixed source would meet if it incremented",
            "window that a fixed destination would meet if it incremented",
        ],
    );
    let within = any(&|window| share(window, &side.whole));
    row(
        within,
        [
            "sick byte of a fixed source word that a short burst misses",
            "sick byte of a fixed destination word that a short piece misses",
        ],
    );
    row(
        within && side.used.len() == 2,
        [
            "sick byte between both ends of a fixed source word, missed",
            "sick byte between both ends of a fixed destination word, missed",
        ],
    );
}

/// How windows lie to the word, if the burst fails.
fn windows_over(side: &Side, windows: &[Window], row: Row) {
    if !side.is_sick(windows) {
        return;
    }
    let met: Vec<Bytes> = windows.iter().map(sick).filter(|window| side.uses(window)).collect();
    let (first, last) = (side.whole.start, side.whole.end - 1);
    row(
        met.iter().all(|window| window.end == first + 1),
        [
            "fixed source word sick in its first byte alone",
            "fixed destination word sick in its first byte alone",
        ],
    );
    row(
        met.iter().all(|window| window.start == last),
        [
            "fixed source word sick in its last byte alone",
            "fixed destination word sick in its last byte alone",
        ],
    );
}
