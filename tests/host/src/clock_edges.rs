// Cases of monitors that are gone through one by one: the limits of a clock's fields, flags one at
// a time, and the bits that no monitor has.

use crate::clocks::{any_clock, any_monitor, put_out_of_range};
use crate::coverage::Coverage;
use crate::monitor_desk::MonitorDesk;
use shared::interface::Clock;
use shared::random::Random;
use shared::words::{clock_before, monitor_words, BITS_BEFORE};

/// Each field of a clock alone above its limit, on any monitor, in reset and out of it.
pub fn clock_fields(random: &mut Random, coverage: &mut Coverage) -> Result<(), String> {
    let mut desk = MonitorDesk::new();
    for field in 0..8 {
        for _ in 0..200 {
            let sound = any_clock(random);
            let mut clock = sound;
            put_out_of_range(random, &mut clock, field);
            desk.set_words(&any_monitor(random));
            // The refused clock leaves no trace: the one after it is held against the clock before.
            desk.clock((32, 16), clock, coverage)?;
            desk.clock((32, 16), sound, coverage)?;
        }
    }
    Ok(())
}

/// Each flag alone up, each pair of neighbours, all, and none, beside each snapshot of that kind;
/// and bits of a monitor.
pub fn flags(random: &mut Random, coverage: &mut Coverage) -> Result<(), String> {
    let mut desk = MonitorDesk::new();
    let sets = (0..64).map(|flag| 1u64 << flag);
    let sets: Vec<u64> =
        sets.clone().chain(sets.map(|set| set | set << 1)).chain([0, u64::MAX]).collect();
    for flags in &sets {
        for snapshot in [0, *flags, !*flags] {
            for bits in 0..8 {
                let before = Clock { bits, ..clock_before(&any_monitor(random)) };
                let words = monitor_words(*flags, snapshot, &before);
                desk.set_words(&words);
                desk.clock(
                    (4, 16),
                    Clock { bits: random.below(8), ..any_clock(random) },
                    coverage,
                )?;
            }
        }
    }
    for bits in (0..=40).chain((0..32).map(|bit| 1 << bit)).chain([u32::MAX]) {
        let mut words = any_monitor(random);
        words[BITS_BEFORE] = bits;
        desk.set_words(&words);
        desk.clock((4, 16), any_clock(random), coverage)?;
    }
    Ok(())
}
