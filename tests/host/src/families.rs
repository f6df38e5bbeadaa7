// The cases: first those that are gone through one by one, then random ones of each family in turn.

use crate::clock_edges;
use crate::clocks::clocks;
use crate::counts;
use crate::coverage::Coverage;
use crate::edges;
use crate::joined;
use crate::judged;
use crate::large;
use crate::lone_calls::lone_calls;
use crate::pairs;
use crate::plans;
use crate::queue_edges;
use crate::sessions::session;
use shared::random::Random;

type Case = fn(&mut Random, &mut Coverage) -> Result<(), String>;

/// Cases that every run takes once.
const ONCE: [(&str, Case); 21] = [
    ("registers", edges::registers),
    ("interrupts", edges::interrupts),
    ("faults", edges::faults),
    ("no engines", edges::no_engines),
    ("settings", edges::settings),
    ("window counts", edges::window_counts),
    ("judged groups", judged::edges),
    ("key hole bits", queue_edges::control),
    ("key hole starts", queue_edges::starts),
    ("key hole overlaps", queue_edges::overlaps),
    ("key hole sick words", queue_edges::sick_words),
    ("key hole two sick bytes", queue_edges::two_sick_bytes),
    ("key hole pieces", queue_edges::pieces),
    ("clock fields", clock_edges::clock_fields),
    ("flags", clock_edges::flags),
    ("most memory", large::most_memory),
    ("longest transfer", large::longest_transfer),
    ("longest runs", large::longest_runs),
    ("runs joined at the limits", joined::at_the_limits),
    ("longest plans", plans::longest),
    ("longest counts", counts::longest),
];

/// Families of random cases, in turn.
const RANDOM: [(&str, Case); 10] = [
    ("session", session),
    ("lone calls", lone_calls),
    ("session", session),
    ("clocks", clocks),
    ("session", session),
    ("plans", plans::plans),
    ("judged groups", judged::judged),
    ("runs joined", joined::joined),
    ("two engines", pairs::pairs),
    ("judged groups beside steps", judged::beside_steps),
];

/// How many cases come before the random ones.
pub const FIRST: u64 = ONCE.len() as u64;

/// Takes the case `index` of a seed; the error names it.
pub fn take(seed: u64, index: u64, coverage: &mut Coverage) -> Result<(), String> {
    let (name, case) = match ONCE.get(index as usize) {
        Some(case) => *case,
        None => RANDOM[(index % RANDOM.len() as u64) as usize],
    };
    let mut random = Random::new(seed, index);
    case(&mut random, coverage).map_err(|told| {
        let again = format!("again by --seed {seed} --case {index}");
        format!("difference at seed {seed}, case {index} ({name}), {again}\n{told}")
    })
}
