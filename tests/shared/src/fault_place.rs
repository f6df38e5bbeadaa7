// Where the faults of a run were, for both coverage tables: worked out from the bytes that each side
// of a burst uses, byte by byte: the independent program goes by intervals.
// From RULES.md, "Memory that answers badly" and "Descriptor and steps".

use independent::engine::Engine;
use independent::memory::{Window, MOST_WINDOWS};

use crate::bursts::{sick, Burst, Bytes, Side};
use crate::coverage::Counts;

/// Places that traces reach.
pub const PLACES: &[&str] = &[
    // The sides that gave the winning kind.
    "slave error of the source alone, simple mode",
    "slave error of the source alone, in a chain",
    "slave error of the destination alone, simple mode",
    "slave error of the destination alone, in a chain",
    "slave error of both sides, simple mode",
    "slave error of both sides, in a chain",
    "decode error of the source alone, simple mode",
    "decode error of the source alone, in a chain",
    "decode error of the destination alone, simple mode",
    "decode error of the destination alone, in a chain",
    "decode error of both sides, simple mode",
    "decode error of both sides, in a chain",
    "both sides sick, the destination's byte the lower one",
    "both sides past the memory's end, the destination's byte the lower one",
    "decode error of the source beside a sick destination",
    "decode error of the destination beside a sick source",
    "decode error with a lower sick byte of its side",
    // Where in its side the byte is.
    "sick byte that is the first of its side",
    "sick byte within its side",
    "sick byte that is the last of its side",
    "memory's end within the source",
    "place at the memory's end, the first byte of its side",
    "place past the memory's end",
    "place in the last 256 bytes below 2^32",
    "place in a later burst, within its side",
    "place that is the start of the burst's destination",
    "place below the burst's destination",
    "place above the start of the burst's destination",
    // Windows.
    "sick byte in the first window alone",
    "sick byte in a later window alone",
    "sick byte in two windows or more",
    "sick byte in two windows, the second one starting lower",
    "sick byte in a window after one that is over higher bytes of the side",
    "sick byte in a window before one that is over higher bytes of the side",
    "sick byte in a window that starts before its side",
    "sick byte in a window that runs past the memory's end",
    "sick byte in the sixteenth window alone",
    "empty window on the side, not above the sick byte",
    // Fixed sides.
    "sick first byte of a fixed source",
    "sick later byte of a fixed source",
    "sick first byte of a fixed destination",
    "sick later byte of a fixed destination",
    "fixed source past the memory's end named",
    "fixed destination past the memory's end named",
    "fixed and sick on both sides, the destination's byte the lower one",
    "fixed source gone round, its lowest sick byte not the first in the burst",
    "fixed source gone round, its lowest sick byte the first in the burst",
    "sick byte of a fixed source word, with a lower one that a short burst misses",
];

/// Places of states and memories that no trace has.
pub const PLACES_OF_STATES: &[&str] = &[
    "memory's end within the destination",
    "memory's end within a fixed source word",
    "memory's end within a fixed destination word",
    "fixed source gone round, its lowest byte past the end not the first in the burst",
    "fixed destination gone round, its lowest sick byte not the first in the burst",
    "fixed destination gone round, its lowest byte past the end not the first in the burst",
    "sick byte of a fixed destination word, with a lower one that a short piece misses",
];

#[derive(Clone, Copy, PartialEq, Eq)]
enum Kind {
    Slave,
    Decode,
}

/// The lowest of these bytes that is past the memory's end, or the lowest that is in memory and in a
/// window.
fn lowest(used: &[Bytes], memory: u64, windows: &[Window], kind: Kind) -> Option<u64> {
    let gives = |at: &u64| match kind {
        Kind::Decode => *at >= memory,
        Kind::Slave => *at < memory && windows.iter().any(|window| sick(window).contains(at)),
    };
    used.iter().cloned().flatten().filter(gives).min()
}

/// The lowest byte past the memory's end and the lowest sick one of each side of a burst.
fn find(burst: &Burst, memory: u64, windows: &[Window]) -> [[Option<u64>; 2]; 2] {
    let sides = [&burst.source, &burst.destination];
    [Kind::Decode, Kind::Slave]
        .map(|kind| sides.map(|side| lowest(&side.used, memory, windows, kind)))
}

/// Is it the destination whose byte a fault names, and not the source?
pub fn at_destination(engine: &Engine, memory: u64, windows: &[Window]) -> bool {
    let burst = Burst::before(engine).expect("a fault of an engine that moves");
    let [past, sick] = find(&burst, memory, windows);
    let found = if past == [None, None] { sick } else { past };
    found[0].is_none()
}

/// Counts a fault at `place`, with the engine before it.
pub fn see_place(
    engine: &Engine,
    memory: u64,
    windows: &[Window],
    place: u32,
    counts: &mut Counts,
) {
    let burst = Burst::before(engine).expect("a fault of an engine that moves");
    let sides = [&burst.source, &burst.destination];
    let [past, sick] = find(&burst, memory, windows);
    let (kind, found) = match past {
        [None, None] => (Kind::Slave, sick),
        _ => (Kind::Decode, past),
    };
    let named = usize::from(found[0].is_none());
    let at = found[named].expect("a fault has a byte that fails");
    assert_eq!(at, u64::from(place), "the place that the table works out: {engine:?} {windows:?}");
    see_sides(engine, kind, found, counts);
    if kind == Kind::Decode {
        let beside = past[1].is_none() && sick[1].is_some();
        counts.see_if(beside, "decode error of the source beside a sick destination");
        let beside = past[0].is_none() && sick[0].is_some();
        counts.see_if(beside, "decode error of the destination beside a sick source");
        // A sick byte is in memory, so below it.
        counts.see_if(sick[named].is_some(), "decode error with a lower sick byte of its side");
        see_end(sides[named], named, at, memory, counts);
    } else {
        see_byte(sides[named], at, counts);
        see_windows(sides[named], windows, memory, at, counts);
    }
    let to = start(&burst.destination);
    counts.see_if(at == to, "place that is the start of the burst's destination");
    counts.see_if(at < to, "place below the burst's destination");
    counts.see_if(at > to, "place above the start of the burst's destination");
    let later = burst.moved > 0 && at > start(sides[named]);
    counts.see_if(later, "place in a later burst, within its side");
    counts.see_if(at >= (1 << 32) - 256, "place in the last 256 bytes below 2^32");
    if sides[named].fixed {
        see_fixed(&burst, named, kind, memory, windows, at, counts);
    }
}

/// The lowest byte that a side uses.
fn start(side: &Side) -> u64 {
    side.used.iter().map(|used| used.start).min().expect("a side has bytes")
}

fn end(side: &Side) -> u64 {
    side.used.iter().map(|used| used.end).max().expect("a side has bytes")
}

fn see_sides(engine: &Engine, kind: Kind, found: [Option<u64>; 2], counts: &mut Counts) {
    let rows = match (kind, found) {
        (Kind::Slave, [Some(_), None]) => [
            "slave error of the source alone, simple mode",
            "slave error of the source alone, in a chain",
        ],
        (Kind::Slave, [None, _]) => [
            "slave error of the destination alone, simple mode",
            "slave error of the destination alone, in a chain",
        ],
        (Kind::Slave, _) => {
            ["slave error of both sides, simple mode", "slave error of both sides, in a chain"]
        }
        (Kind::Decode, [Some(_), None]) => [
            "decode error of the source alone, simple mode",
            "decode error of the source alone, in a chain",
        ],
        (Kind::Decode, [None, _]) => [
            "decode error of the destination alone, simple mode",
            "decode error of the destination alone, in a chain",
        ],
        (Kind::Decode, _) => {
            ["decode error of both sides, simple mode", "decode error of both sides, in a chain"]
        }
    };
    counts.see(rows[usize::from(engine.sg_mode)]);
    if let [Some(source), Some(destination)] = found {
        let row = match kind {
            Kind::Slave => "both sides sick, the destination's byte the lower one",
            Kind::Decode => {
                "both sides past the memory's end, the destination's byte the lower one"
            }
        };
        counts.see_if(destination < source, row);
        let fixed = engine.key_hole_read && engine.key_hole_write && kind == Kind::Slave;
        let row = "fixed and sick on both sides, the destination's byte the lower one";
        counts.see_if(fixed && destination < source, row);
    }
}

/// A byte past the memory's end.
fn see_end(side: &Side, named: usize, at: u64, memory: u64, counts: &mut Counts) {
    counts.see_if(at > memory, "place past the memory's end");
    if at == start(side) {
        let row = "place at the memory's end, the first byte of its side";
        counts.see_if(at == memory, row);
    } else if !side.fixed {
        counts
            .see(["memory's end within the source", "memory's end within the destination"][named]);
    }
}

/// A sick byte, by its place in its side.
fn see_byte(side: &Side, at: u64, counts: &mut Counts) {
    let (first, last) = (start(side), end(side) - 1);
    counts.see_if(at == first, "sick byte that is the first of its side");
    counts.see_if(at == last && at > first, "sick byte that is the last of its side");
    counts.see_if(first < at && at < last, "sick byte within its side");
}

/// A sick byte, by the windows on its side.
fn see_windows(side: &Side, windows: &[Window], memory: u64, at: u64, counts: &mut Counts) {
    let holds = |window: &Window| sick(window).contains(&at);
    let holders: Vec<usize> = (0..windows.len()).filter(|one| holds(&windows[*one])).collect();
    let first = holders[0];
    if holders.len() == 1 {
        counts.see_if(first == 0, "sick byte in the first window alone");
        counts.see_if(first > 0, "sick byte in a later window alone");
        counts.see_if(first == MOST_WINDOWS - 1, "sick byte in the sixteenth window alone");
    } else {
        counts.see("sick byte in two windows or more");
        let lower = windows[holders[1]].0 < windows[first].0;
        counts.see_if(lower, "sick byte in two windows, the second one starting lower");
    }
    let higher = |window: &Window| {
        let bytes = sick(window).start..sick(window).end.min(memory);
        !holds(window) && !bytes.is_empty() && side.uses(&bytes)
    };
    let before = windows[..first].iter().any(higher);
    let row = "sick byte in a window after one that is over higher bytes of the side";
    counts.see_if(before, row);
    let behind = windows[first..].iter().any(higher);
    let row = "sick byte in a window before one that is over higher bytes of the side";
    counts.see_if(behind, row);
    let window = sick(&windows[first]);
    let before = window.start < start(side);
    counts.see_if(before, "sick byte in a window that starts before its side");
    let past = window.end > memory;
    counts.see_if(past, "sick byte in a window that runs past the memory's end");
    let empty = |window: &Window| {
        let (at_start, length) = (u64::from(window.0), window.1);
        length == 0 && at_start <= at && side.uses(&(at_start..at_start + 1))
    };
    let empty = windows.iter().any(empty);
    counts.see_if(empty, "empty window on the side, not above the sick byte");
}

/// A byte of a fixed side.
fn see_fixed(
    burst: &Burst,
    named: usize,
    kind: Kind,
    memory: u64,
    windows: &[Window],
    at: u64,
    counts: &mut Counts,
) {
    let side = [&burst.source, &burst.destination][named];
    let width = side.whole.end - side.whole.start;
    if kind == Kind::Slave {
        let rows = if at == side.whole.start {
            ["sick first byte of a fixed source", "sick first byte of a fixed destination"]
        } else {
            ["sick later byte of a fixed source", "sick later byte of a fixed destination"]
        };
        counts.see(rows[named]);
        let word = lowest(std::slice::from_ref(&side.whole), memory, windows, kind);
        let row = [
            "sick byte of a fixed source word, with a lower one that a short burst misses",
            "sick byte of a fixed destination word, with a lower one that a short piece misses",
        ][named];
        counts.see_if(word < Some(at), row);
    } else if side.whole.start >= memory {
        counts.see(
            [
                "fixed source past the memory's end named",
                "fixed destination past the memory's end named",
            ][named],
        );
    } else {
        counts.see(
            [
                "memory's end within a fixed source word",
                "memory's end within a fixed destination word",
            ][named],
        );
    }
    // The burst goes from here to the word's end, and then on from its start.
    let first = side.whole.start + u64::from(burst.moved) % width;
    let round = side.used.iter().any(|used| used.start < first);
    if !round {
        return;
    }
    let front: Vec<Bytes> = side.used.iter().map(|used| used.start.max(first)..used.end).collect();
    let front = lowest(&front, memory, windows, kind);
    let not_first = at < first && front.is_some();
    let row = match (kind, named) {
        (Kind::Slave, 0) => {
            "fixed source gone round, its lowest sick byte not the first in the burst"
        }
        (Kind::Decode, 0) => {
            "fixed source gone round, its lowest byte past the end not the first in the burst"
        }
        (Kind::Slave, _) => {
            "fixed destination gone round, its lowest sick byte not the first in the burst"
        }
        (Kind::Decode, _) => {
            "fixed destination gone round, its lowest byte past the end not the first in the burst"
        }
    };
    // A word that is past the end as a whole is named by its start in any order.
    counts.see_if(not_first && (kind == Kind::Slave || side.whole.start < memory), row);
    let is_first = kind == Kind::Slave && named == 0 && front == Some(at);
    let row = "fixed source gone round, its lowest sick byte the first in the burst";
    counts.see_if(is_first, row);
}
