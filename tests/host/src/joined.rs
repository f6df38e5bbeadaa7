// Runs joined: runs one after the other beside one run of the sum of their steps, and beside as many
// single steps, whose events are those of the run.

use independent::memory::LONGEST as MOST_MEMORY;

use crate::coverage::Coverage;
use crate::engine_desk::{Call, EngineDesk, Given};
use crate::large::{fix, moving};
use crate::queues::any_fixed;
use crate::sessions::start;
use crate::spoil::KINDS;
use crate::states::{self, fresh};
use crate::surroundings::{put_descriptor, windows};
use shared::interface::Ran;
use shared::random::Random;
use shared::settings;
use shared::words::{
    BEATS, CURRENT, ERROR_BIT, FETCH, IDLE, KEY_HOLE_READ, KEY_HOLE_WRITE, MOVE, MOVED, PHASE,
    WIDTH,
};

/// Single steps compare all memory each, so longer runs go without.
const MOST_SINGLE_STEPS: u32 = 4_000;

/// Any engine, memory, windows and split.
pub fn joined(random: &mut Random, coverage: &mut Coverage) -> Result<(), String> {
    let room = random.pick(&[300, 1024, 4096 + 700, 3 * 4096]);
    let (width, beats) = settings::listed(random);
    let mut desk = EngineDesk::new(&fresh(width, beats), room as usize);
    let bytes = random.bytes(room);
    desk.put(0, &bytes);
    if random.chance(70) {
        let calm = random.chance(80);
        start(random, &mut desk, calm, coverage)?;
    } else {
        desk.set_words(&states::well_formed(random, room));
        if desk.words()[PHASE] == FETCH {
            let current = desk.words()[CURRENT];
            put_descriptor(random, &mut desk, current);
        }
    }
    let mut words = desk.words();
    if random.chance(40) {
        let numbers = windows(random, &words, room);
        desk.lend_windows(&numbers, random.chance(50));
    }
    match random.below(20) {
        0 => (words[WIDTH], words[BEATS]) = settings::unlisted(random),
        1 => (random.pick(&KINDS.each_ref()).spoil)(&mut words, random),
        _ => {}
    }
    desk.set_words(&words);
    let most = budgets(random);
    join(&desk, &most, coverage)
}

/// Steps of each of two to five runs, at most 65,535 in all.
fn budgets(random: &mut Random) -> Vec<u16> {
    if random.chance(10) {
        let first = random.u32() as u16;
        return vec![first, u16::MAX - first];
    }
    (0..random.between(2, 5)).map(|_| random.pick(&[0, 1, 2, 3, 5, 8, 40, 13_000])).collect()
}

/// Too much memory, and runs of all the steps that one run can take, or of more.
pub fn at_the_limits(random: &mut Random, coverage: &mut Coverage) -> Result<(), String> {
    let desk = EngineDesk::new(&moving(0, 9000, 10, 0), MOST_MEMORY + 1);
    join(&desk, &[1, 2], coverage)?;
    // Bursts of 8 bytes, each of which reads what the one before wrote: 100,000 of them.
    let mut words = moving(0, 8, 800_000, 0);
    words[..2].copy_from_slice(&[4, 2]);
    let mut desk = EngineDesk::new(&words, 800_008);
    let bytes = random.bytes(800_008);
    desk.put(0, &bytes);
    // As many with a fixed side: from a queue, over one, and from one to another.
    for (destination, sides) in [(8, [1, 0]), (400_000, [0, 1]), (400_000, [1, 1])] {
        desk.set_words(&fix(words, destination, sides));
        for most in [[1, 65_534], [40_000, 25_535]] {
            join(&desk, &most, coverage)?;
        }
    }
    desk.set_words(&words);
    for most in [[0, 65_535], [1, 65_534], [32_768, 32_767], [65_535, 0]] {
        join(&desk, &most, coverage)?;
    }
    // No run takes as many at once; all splits agree.
    let (expected, _) = runs(&desk, &[65_535, 34_465], coverage)?;
    for most in [&[50_000, 50_000][..], &[1, 65_535, 34_464], &[34_464, 0, 65_535, 1, 9]] {
        let (after, ran) = runs(&desk, most, coverage)?;
        let steps: u32 = ran.iter().map(|ran| ran.steps).sum();
        if steps != 100_000 || !after.same(&expected) {
            return Err(format!(
                "runs of {most:?} took {steps} steps\n  {}",
                after.beside(&expected)
            ));
        }
        coverage.see("runs joined, above 65,535 steps in all");
    }
    Ok(())
}

/// Runs one after the other, on a copy of the desk.
fn runs(
    desk: &EngineDesk,
    budgets: &[u16],
    coverage: &mut Coverage,
) -> Result<(EngineDesk, Vec<Ran>), String> {
    let mut desk = desk.clone();
    let mut all = Vec::new();
    for (at, &most) in budgets.iter().enumerate() {
        let given = desk.call(Call::Run { most }, coverage)?;
        let Given::Ran(ran) = given else { unreachable!("a run gives what a run gives") };
        all.push(ran);
        if ran.answer == 0 && at + 1 < budgets.len() {
            joint(most, &ran, &desk, coverage);
        }
    }
    Ok((desk, all))
}

/// Where a run stopped that others follow.
fn joint(most: u16, ran: &Ran, desk: &EngineDesk, coverage: &mut Coverage) {
    coverage.see_if(most == 0, "joint after a run of no steps");
    if ran.steps == 0 {
        return;
    }
    let words = desk.words();
    coverage.see(match words[PHASE] {
        IDLE => "joint at an engine that is idle again",
        FETCH => "joint before a fetch",
        MOVE => "joint in the midst of a transfer",
        31 => "joint before a good update",
        _ => "joint between a failure and its update",
    });
    if words[PHASE] != MOVE || !any_fixed(&words) {
        return;
    }
    coverage.see(match words[KEY_HOLE_READ..=KEY_HOLE_WRITE] {
        [1, 1] => "joint before a burst, both sides fixed",
        [1, _] => "joint before a burst, source fixed",
        _ => "joint before a burst, destination fixed",
    });
    let within = words[KEY_HOLE_READ] == 1 && !words[MOVED].is_multiple_of(words[WIDTH]);
    coverage.see_if(within, "joint within a fixed source word");
}

/// All that the claim of joined runs says, by the library's own runs and steps.
fn join(desk: &EngineDesk, budgets: &[u16], coverage: &mut Coverage) -> Result<(), String> {
    let sum = budgets.iter().sum();
    let (parts, ran) = runs(desk, budgets, coverage)?;
    let (whole, one) = runs(desk, &[sum], coverage)?;
    let one = one[0];
    let answers = ran.iter().all(|ran| ran.answer == one.answer);
    let steps: u32 = ran.iter().map(|ran| ran.steps).sum();
    if !answers || steps != one.steps || !parts.same(&whole) {
        let told = format!("runs of {budgets:?} gave {ran:?}, one of {sum} gave {one:?}");
        return Err(format!("{told}\n  {}", parts.beside(&whole)));
    }
    if one.answer != 0 && !whole.same(desk) {
        return Err(format!("a refused run of {sum} changed\n  {}", whole.beside(desk)));
    }
    if one.steps <= MOST_SINGLE_STEPS {
        single_steps(desk, sum, &one, &whole, coverage)?;
    }
    see(desk, &whole, budgets, &one, coverage);
    Ok(())
}

/// As many single steps: their events are those that the independent program tells of the run.
fn single_steps(
    desk: &EngineDesk,
    sum: u16,
    one: &Ran,
    whole: &EngineDesk,
    coverage: &mut Coverage,
) -> Result<(), String> {
    let mut single = desk.clone();
    let mut events = Vec::new();
    for _ in 0..one.steps {
        let given = single.call(Call::Step, coverage)?;
        let Given::Stepped(stepped) = given else { unreachable!("a step gives what a step gives") };
        events.push(stepped);
    }
    let expected = desk.events(sum);
    if events != expected || !single.same(whole) {
        let told = format!("steps told {events:?}\n  expected {expected:?}");
        return Err(format!("{told}\n  {}", single.beside(whole)));
    }
    Ok(())
}

fn see(desk: &EngineDesk, whole: &EngineDesk, budgets: &[u16], one: &Ran, coverage: &mut Coverage) {
    if one.answer != 0 {
        coverage.number("refusal of joined runs", one.answer);
        return;
    }
    let error = |desk: &EngineDesk| desk.words()[ERROR_BIT];
    coverage.see_if(desk.words()[PHASE] == IDLE, "runs joined on an idle engine");
    coverage.see_if(error(desk) == 0 && error(whole) != 0, "runs joined that end in an error");
    coverage.see_if(budgets.len() > 3, "four runs joined or more");
    let all: u32 = budgets.iter().copied().map(u32::from).sum();
    coverage.see_if(all == 65_535, "runs joined of 65,535 steps in all");
    coverage.see_if(one.steps == 65_535, "runs joined that take 65,535 steps");
}
