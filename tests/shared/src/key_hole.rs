// What both coverage tables count of fixed sides: writes of the two bits of CDMACR, starts of
// transfers, and runs. From RULES.md, "Descriptor and steps" (6.10).

use independent::engine::{Engine, Phase};

use crate::coverage::Counts;
use crate::registers::{CDMACR, CHAIN, KEY_HOLE_READ, KEY_HOLE_WRITE, RESET};

/// The count of a BTT write or of a descriptor's control word.
const COUNT_BITS: u32 = 0x7f_ffff;

/// What starts a transfer: columns of the table of starts.
pub const STARTERS: [&str; 2] = ["BTT write", "descriptor"];
pub const BY_BTT: usize = 0;
pub const BY_DESCRIPTOR: usize = 1;

/// Transfers with a fixed side: rows of that table.
pub const STARTS: [&str; 11] = [
    "source fixed",
    "destination fixed",
    "both sides fixed",
    "source fixed, destination off the multiples",
    "destination fixed, source off the multiples",
    "refused for the start of its fixed source alone",
    "refused for the start of its fixed destination alone",
    "refused for its count alone, source fixed",
    "refused for its count alone, destination fixed",
    "refused for its count alone, both sides fixed",
    "refused for a count of zero, start off the multiples",
];

pub const WRITES: &[&str] = &[
    "Key Hole Read set by a write",
    "Key Hole Write set by a write",
    "Key Hole Read cleared by a write",
    "Key Hole Write cleared by a write",
    "Key Hole Read alone changed while busy",
    "Key Hole Write alone changed while busy",
    "mode and key hole bits changed while busy",
    "enables changed while busy, key hole bits kept",
    "key hole bits changed with an error bit set",
    "key hole bits cleared by a reset while idle",
    "key hole bits cleared by a reset while busy",
];

pub const RUNS: &[&str] = &[
    "run of four bursts or more, source fixed",
    "run of four bursts or more, destination fixed",
    "run of four bursts or more, both sides fixed",
    "run stopped in the midst of a transfer with a fixed side",
    "run that ends a transfer with a fixed side with its last step",
    "run that ends a transfer with a fixed side before its last step",
    "run with a fixed side that fails after a good burst",
    "run with a fixed side on to another descriptor",
];

/// Counts what starts a transfer, if a side is fixed: source, destination, and the word with the
/// count.
pub fn see_start(
    engine: &Engine,
    by: usize,
    [source, destination, word]: [u32; 3],
    counts: &mut Counts,
) {
    let off = |number: u32| !number.is_multiple_of(engine.width);
    let count = word & COUNT_BITS;
    let (read, write) = (engine.key_hole_read, engine.key_hole_write);
    if !read && !write {
        return;
    }
    let refused = [read && off(source), write && off(destination), off(count)];
    let row = match (refused, read, write) {
        _ if count == 0 && refused == [false; 3] => return,
        _ if count == 0 => 10,
        ([false, false, false], true, true) => 2,
        ([false, false, false], true, false) => 3 * usize::from(off(destination)),
        ([false, false, false], false, _) => 1 + 3 * usize::from(off(source)),
        ([true, false, false], ..) => 5,
        ([false, true, false], ..) => 6,
        ([false, false, true], true, false) => 7,
        ([false, false, true], false, _) => 8,
        ([false, false, true], true, true) => 9,
        _ => return,
    };
    counts.start(row, by);
}

/// Counts a write of CDMACR, with the engine before and after it.
pub fn see_write(before: &Engine, offset: u32, value: u32, after: &Engine, counts: &mut Counts) {
    if offset != CDMACR {
        return;
    }
    let bits = |engine: &Engine| [engine.key_hole_read, engine.key_hole_write];
    let asked = [value & KEY_HOLE_READ != 0, value & KEY_HOLE_WRITE != 0];
    let [read, write] = [0, 1].map(|at| asked[at] != bits(before)[at]);
    let busy = !before.idle();
    if value & RESET != 0 {
        let set = bits(before) != [false, false];
        counts.see_if(set && !busy, "key hole bits cleared by a reset while idle");
        counts.see_if(set && busy, "key hole bits cleared by a reset while busy");
        return;
    }
    if !busy {
        counts.see_if(read && asked[0], "Key Hole Read set by a write");
        counts.see_if(write && asked[1], "Key Hole Write set by a write");
        counts.see_if(read && !asked[0], "Key Hole Read cleared by a write");
        counts.see_if(write && !asked[1], "Key Hole Write cleared by a write");
        let error = before.in_error() && (read || write);
        counts.see_if(error, "key hole bits changed with an error bit set");
        return;
    }
    match ((value & CHAIN != 0) == before.sg_mode, read, write) {
        (true, true, false) => counts.see("Key Hole Read alone changed while busy"),
        (true, false, true) => counts.see("Key Hole Write alone changed while busy"),
        (false, _, _) if read || write => counts.see("mode and key hole bits changed while busy"),
        (true, false, false) if bits(before) != [false, false] => {
            counts.see_if(after != before, "enables changed while busy, key hole bits kept");
        }
        _ => {}
    }
}

/// Counts a run of at most `most` steps, with the engine before and after it.
pub fn see_run(before: &Engine, after: &Engine, steps: u32, most: u32, counts: &mut Counts) {
    let (read, write) = (before.key_hole_read, before.key_hole_write);
    if !read && !write || steps < 2 {
        return;
    }
    let further = before.sg_mode && after.current != before.current;
    counts.see_if(further, "run with a fixed side on to another descriptor");
    if !matches!(before.phase, Phase::Move(_)) || further {
        return;
    }
    let bursts = match after.phase {
        Phase::Idle if before.sg_mode => steps - 1,
        Phase::Idle if after.in_error() => steps - 1,
        _ => steps,
    };
    if bursts >= 4 {
        counts.see(match (read, write) {
            (true, true) => "run of four bursts or more, both sides fixed",
            (true, false) => "run of four bursts or more, source fixed",
            _ => "run of four bursts or more, destination fixed",
        });
    }
    match after.phase {
        Phase::Move(_) => {
            counts.see("run stopped in the midst of a transfer with a fixed side");
        }
        _ if after.in_error() => counts.see("run with a fixed side that fails after a good burst"),
        _ if steps == most => {
            counts.see("run that ends a transfer with a fixed side with its last step");
        }
        _ => counts.see("run that ends a transfer with a fixed side before its last step"),
    }
}
