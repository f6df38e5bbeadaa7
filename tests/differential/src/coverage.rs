// The coverage table: what the traces of a run made the independent program do.

use shared::clocks::FLAGS;
use shared::coverage::{Counts, Groups, CDMACR_BITS, CDMASR_BITS};
use shared::fault_place::PLACES;
use shared::key_hole::{RUNS, WRITES};
use shared::key_hole_bursts::BURSTS;

use crate::conversion::CONVERSIONS;
use crate::families::FAMILIES;
use crate::observe_pairs;
use crate::situations::SITUATIONS;

/// The words of a listing's lines.
pub const WORDS: [&str; 14] = [
    "set", "memory", "window", "write", "read", "noread", "bus", "fetch", "move", "fault",
    "update", "halt", "stop", "bad",
];

const NUMBERED: &Groups = &[
    ("answer", &[0, 1, 3, 4, 5, 6, 10, 11, 12, 13, 21]),
    ("fault bit", &[5, 6]),
    ("halt bit", &[8, 9, 10]),
    (CDMACR_BITS.0[1], CDMACR_BITS.1),
    (CDMACR_BITS.0[0], CDMACR_BITS.1),
    (CDMASR_BITS.0[1], CDMASR_BITS.1),
    (CDMASR_BITS.0[0], CDMASR_BITS.1),
    ("update word bit", &[28, 29, 30, 31]),
    ("flag raised", &FLAGS),
    ("flag lowest", &FLAGS),
];

pub fn new() -> Counts {
    let of_pairs = [observe_pairs::RECORDS, observe_pairs::ENGINES, observe_pairs::MEETINGS];
    let names = [&WORDS[..], SITUATIONS, CONVERSIONS, WRITES, BURSTS, RUNS, PLACES, &FAMILIES];
    let names = names.into_iter().chain(of_pairs);
    let groups = [NUMBERED, observe_pairs::NUMBERED].concat();
    Counts::new(&groups, names.flatten().copied())
}

/// Prints the table and gives the number of its zeros.
pub fn print(counts: &Counts) -> usize {
    println!("coverage");
    counts.print_words("listing words", &WORDS)
        + counts.print_numbers(NUMBERED)
        + counts.print_tables()
        + counts.print_list("situations", SITUATIONS)
        + counts.print_list("conversions", CONVERSIONS)
        + counts.print_list("key hole bits written", WRITES)
        + counts.print_list("bursts with a fixed side", BURSTS)
        + counts.print_list("runs with a fixed side", RUNS)
        + counts.print_list("places of faults", PLACES)
        + counts.print_numbers(observe_pairs::NUMBERED)
        + counts.print_list("records of traces with two engines", observe_pairs::RECORDS)
        + counts.print_list("two engines", observe_pairs::ENGINES)
        + counts.print_list("bytes of two engines", observe_pairs::MEETINGS)
        + counts.print_list("families of traces", &FAMILIES)
}
