// Counts what a bus clock did.

use independent::answer::settings_listed;

use crate::coverage::{Coverage, Function};
use shared::interface::{Clock, Clocked};
use shared::words::{self, clock_before, MonitorWords, BITS_BEFORE};

/// One clock and the monitor before and after it.
pub struct Seen<'a> {
    pub before: &'a MonitorWords,
    pub after: &'a MonitorWords,
    pub width: u32,
    pub beats: u32,
    pub clock: &'a Clock,
    pub given: Clocked,
    /// Was the clock before refused?
    pub refused: bool,
}

/// Fields of a clock that have a limit: name, what they hold, the most, and the row of the most.
pub fn fields(clock: &Clock) -> [(&'static str, u32, u32, &'static str); 8] {
    [
        ("bits", clock.bits, 7, "bits of 7"),
        ("length", clock.length, 255, "length of 255"),
        ("size", clock.size, 7, "size of 7"),
        ("burst", clock.burst, 3, "burst of 3"),
        ("cache", clock.cache, 15, "cache of 15"),
        ("prot", clock.prot, 7, "prot of 7"),
        ("qos", clock.qos, 15, "qos of 15"),
        ("region", clock.region, 15, "region of 15"),
    ]
}

pub fn bus_clock(seen: &Seen, coverage: &mut Coverage) {
    let (clock, answer) = (seen.clock, seen.given.answer);
    coverage.answer(Function::BusClock, answer, seen.width, seen.beats);
    let fields = fields(clock);
    let mut out = fields.iter().filter(|(_, field, most, _)| field > most);
    let (first, more) = (out.next(), out.next());
    let held = [
        (1, !settings_listed(seen.width, seen.beats)),
        (9, seen.before[BITS_BEFORE] > 7),
        (13, first.is_some()),
    ];
    coverage.beside(Function::BusClock, answer, &held);
    if let (13, Some((name, ..)), None) = (answer, first, more) {
        coverage.see(name);
    }
    coverage.see_if(answer == 13 && clock.bits & 1 == 0, "refused clock in reset");
    coverage.see_if(answer == 13 && clock.bits & 2 == 0, "refused clock with valid low");
    if answer != 0 {
        return;
    }
    for (_, field, most, row) in fields {
        coverage.see_if(field == most, row);
    }
    taken(seen, coverage);
}

fn taken(seen: &Seen, coverage: &mut Coverage) {
    let (clock, before, after) = (seen.clock, seen.before, seen.after);
    let (flags_before, flags) = (words::flags(before), words::flags(after));
    let (snapshot_before, snapshot) = (words::snapshot(before), words::snapshot(after));
    coverage.lowest[seen.given.lowest as usize] += 1;
    coverage.see_if(seen.given.count == 0, "no flag up");
    coverage.see_if(seen.given.count == 64, "all 64 flags up");
    if clock.bits & 1 == 0 {
        coverage.see_if(snapshot_before != 0, "snapshot cleared by reset");
        coverage.see_if(flags_before != 0, "flags cleared by reset");
        return;
    }
    let raised = flags & !flags_before;
    for flag in (0..64).filter(|flag| raised >> flag & 1 == 1) {
        coverage.number("flag raised", flag);
        if raised.is_power_of_two() {
            coverage.number("flag raised alone", flag);
        }
    }
    let rises = flags_before == 0 && flags != 0;
    coverage.see_if(rises, "snapshot set");
    coverage.see_if(rises && snapshot_before != 0, "snapshot set over another");
    let kept = snapshot != 0 && !rises;
    coverage.see_if(kept && raised != 0, "snapshot kept as more flags rise");
    coverage.see_if(kept && raised == 0, "snapshot kept as no flag rises");
    let empty = snapshot == 0 && flags_before != 0;
    coverage.see_if(empty, "snapshot of 0 kept beside flags that are up");
    let stalled = before[BITS_BEFORE] == 3;
    let held_against = seen.refused && stalled;
    coverage
        .see_if(held_against, "refused clock, then one that is held against the clock before it");
    let fields_before = fields(&clock_before(before));
    let mut unlike =
        fields_before.iter().zip(fields(clock)).skip(1).filter(|(old, new)| old.1 != new.1);
    let above = unlike.next().is_some_and(|(old, new)| old.1 & old.2 == new.1);
    coverage.see_if(
        stalled && above && unlike.next().is_none(),
        "clock before unlike in bits that no clock has alone",
    );
    let ready = clock.bits == 7 && stalled && clock_before(before) == Clock { bits: 3, ..*clock };
    coverage.see_if(ready, "ready alone changed");
    let word = 1u64 << clock.size;
    let end = (u64::from(clock.address) & !(word - 1)) + (u64::from(clock.length) + 1) * word;
    coverage
        .see_if(clock.bits & 2 != 0 && clock.burst == 1 && end > 1 << 32, "last byte past 2^32");
}
