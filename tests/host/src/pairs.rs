// Two engines on one memory: any order of their steps through the library beside the independent
// program's, in every word and byte. Where neither writes a byte that the other reads or writes, each
// run alone, all orders of the same steps give each engine what it has alone, and one memory.

use std::collections::BTreeSet;

use independent::engine::{Engine, Event};
use independent::two_engines::{self, Addresses, Footprint};
use shared::bursts::Burst;
use shared::interface::{self, Ran, Stepped};
use shared::random::Random;
use shared::record::descriptor;
use shared::settings;
use shared::words::{
    self, EngineWords, BEATS, CHAIN_MODE, CURRENT, DESTINATION, FETCH, KEY_HOLE_READ,
    KEY_HOLE_WRITE, MOVE, PHASE, SOURCE, TAIL, TOTAL, WIDTH,
};

use crate::coverage::{Coverage, Function};
use crate::lent::Lent;
use crate::queues;
use crate::reference;
use crate::states::{fresh, well_formed};
use crate::surroundings::windows;

/// Two engines with all that is lent to their calls.
#[derive(Clone, PartialEq)]
struct Board {
    engines: [Lent<u32>; 2],
    memory: Lent<u8>,
    windows: Lent<u32>,
}

/// One step that both programs took.
struct Taken {
    /// The engine before it.
    before: Engine,
    given: Stepped,
    step: two_engines::Step,
}

impl Board {
    fn words(&self, place: usize) -> EngineWords {
        self.engines[place].cells().try_into().expect("the words of an engine")
    }

    fn engines(&self) -> [Engine; 2] {
        [0, 1].map(|place| words::engine(&self.words(place)).expect("words of an engine"))
    }

    /// A step of the library.
    fn step(&mut self, place: usize) -> Stepped {
        let (bytes, numbers) = (self.memory.len(), self.windows.len());
        let (engine, memory) = (self.engines[place].pointer(), self.memory.pointer());
        // SAFETY: the header: a call reaches the 22 words, the memory's bytes and the windows'
        // numbers alone, and all of them are lent here with their lengths.
        unsafe { interface::belikumba_step(engine, memory, bytes, self.windows.pointer(), numbers) }
    }

    /// A run of the library.
    fn run(&mut self, place: usize, most: u16) -> Ran {
        let (bytes, numbers) = (self.memory.len(), self.windows.len());
        let (engine, memory) = (self.engines[place].pointer(), self.memory.pointer());
        let windows = self.windows.pointer();
        // SAFETY: as for a step.
        unsafe { interface::belikumba_run(engine, memory, bytes, windows, numbers, most) }
    }

    /// A step of the independent program.
    fn expected_step(&mut self, number: u8) -> two_engines::Step {
        let mut engines = self.engines();
        let windows = reference::pairs(self.windows.cells());
        let memory = self.memory.cells_mut();
        let mut steps = two_engines::interleave(&mut engines, memory, &windows, &[number]);
        for (lent, engine) in self.engines.iter_mut().zip(&engines) {
            lent.cells_mut().copy_from_slice(&words::of_engine(engine));
        }
        steps.pop().expect("one step for one number")
    }

    fn tell(&self, expected: &Board) -> String {
        let words = [0, 1].map(|place| self.engines[place].difference(&expected.engines[place]));
        let memory = self.memory.difference(&expected.memory);
        format!("first words that differ {words:?}, first byte that differs {memory:?}")
    }
}

/// Any two engines in memory that is mostly small, so that they meet as often as not.
pub fn pairs(random: &mut Random, coverage: &mut Coverage) -> Result<(), String> {
    let board = board(random);
    let budgets = [(); 2].map(|()| random.pick(&[1, 3, 8, 14, 30]) as usize);
    let alone = [1, 2].map(|number| vec![number; budgets[usize::from(number) - 1]]);
    let (first, steps_of_first) = in_order(&board, &alone[0], coverage)?;
    let (second, steps_of_second) = in_order(&board, &alone[1], coverage)?;
    let alone = Alone { ends: [first, second], steps: [steps_of_first, steps_of_second] };
    let apart = !alone.footprint(0).collides(&alone.footprint(1));
    let mut results = Vec::new();
    for order in orders(random, budgets) {
        let (end, steps) = in_order(&board, &order, coverage)?;
        in_runs(&board, &order, &end, coverage)?;
        if apart {
            alone.agrees(&board, &end, &steps).map_err(|told| {
                format!("engines that do not meet, in the order {order:?}: {told}")
            })?;
        }
        results.push((end, steps));
    }
    if apart {
        see_apart(&alone, coverage);
    } else {
        see_meeting(&alone, &results, coverage);
    }
    Ok(())
}

/// What the engines do alone, each from the same start.
struct Alone {
    ends: [Board; 2],
    steps: [Vec<Taken>; 2],
}

impl Alone {
    fn footprint(&self, place: usize) -> Footprint {
        footprint(self.steps[place].iter())
    }

    /// Is this end of both what the engines have alone?
    fn agrees(&self, start: &Board, end: &Board, steps: &[Taken]) -> Result<(), String> {
        let mut memory = start.memory.clone();
        for place in [0, 1] {
            if events(steps, place) != events(&self.steps[place], place) {
                return Err(format!("engine {} has other events than alone", place + 1));
            }
            if end.engines[place] != self.ends[place].engines[place] {
                return Err(format!("engine {} has other words than alone", place + 1));
            }
            // What is written alone is written here, and nothing else.
            for &at in &self.footprint(place).writes {
                let Some(byte) = self.ends[place].memory.cells().get(at as usize) else {
                    return Err(format!("engine {} writes byte {at}, which is none", place + 1));
                };
                memory.cells_mut()[at as usize] = *byte;
            }
        }
        match end.memory.difference(&memory) {
            None => Ok(()),
            Some(difference) => Err(format!("byte, memory and that of both alone: {difference:?}")),
        }
    }
}

fn footprint<'a>(steps: impl Iterator<Item = &'a Taken>) -> Footprint {
    let mut all = Footprint::default();
    for taken in steps {
        all.reads.extend(&taken.step.footprint.reads);
        all.writes.extend(&taken.step.footprint.writes);
    }
    all
}

/// The events of one engine, as the library told them.
fn events(steps: &[Taken], place: usize) -> Vec<Stepped> {
    let own = steps.iter().filter(|taken| usize::from(taken.step.engine) == place + 1);
    own.map(|taken| taken.given).filter(|given| given.event != 0).collect()
}

/// One engine wholly before the other, both in turn, and any others.
fn orders(random: &mut Random, budgets: [usize; 2]) -> Vec<Vec<u8>> {
    let whole = |first: usize| {
        let numbers = [first, 1 - first].map(|place| vec![place as u8 + 1; budgets[place]]);
        numbers.concat()
    };
    let mut all = vec![whole(0), whole(1)];
    // Those that are over when the other one's steps are used up follow at the end.
    let turns = (0..budgets[0].max(budgets[1]))
        .flat_map(|turn| [0, 1].into_iter().filter(move |&place| turn < budgets[place]));
    all.push(turns.map(|place| place as u8 + 1).collect());
    for _ in 0..2 {
        let mut numbers = whole(0);
        for at in (1..numbers.len()).rev() {
            numbers.swap(at, random.below(at as u32 + 1) as usize);
        }
        all.push(numbers);
    }
    all
}

/// Takes steps in the order of these engine numbers, on both sides, which agree after each.
fn in_order(
    start: &Board,
    numbers: &[u8],
    coverage: &mut Coverage,
) -> Result<(Board, Vec<Taken>), String> {
    let (mut library, mut expected) = (start.clone(), start.clone());
    let mut all = Vec::new();
    for &number in numbers {
        let place = usize::from(number) - 1;
        let engines = expected.engines();
        coverage.pair(place, &engines);
        let given = library.step(place);
        let step = expected.expected_step(number);
        let told = reference::told(step.answer, step.event);
        if given != told || library != expected {
            let difference = library.tell(&expected);
            return Err(format!(
                "step {} of {numbers:?} on engines {engines:?}\n  library  {given:?}\n  \
                 expected {told:?}\n  {difference}",
                all.len()
            ));
        }
        let [before, other] = if place == 0 { engines } else { reversed(engines) };
        let idle = before.idle() && !other.idle();
        coverage.see_if(idle, "step of an idle engine between the other's");
        coverage.answer(Function::Step, given.answer, before.width, before.beats);
        all.push(Taken { before, given, step });
    }
    Ok((library, all))
}

fn reversed([first, second]: [Engine; 2]) -> [Engine; 2] {
    [second, first]
}

/// The same order by runs: the steps of one engine that follow each other are one run.
fn in_runs(
    start: &Board,
    numbers: &[u8],
    end: &Board,
    coverage: &mut Coverage,
) -> Result<(), String> {
    let mut board = start.clone();
    for stretch in numbers.chunk_by(|left, right| left == right) {
        let place = usize::from(stretch[0]) - 1;
        let ran = board.run(place, stretch.len() as u16);
        let words = board.words(place);
        coverage.answer(Function::Run, ran.answer, words[WIDTH], words[BEATS]);
    }
    if board != *end {
        return Err(format!("runs and steps in the order {numbers:?}: {}", board.tell(end)));
    }
    Ok(())
}

fn board(random: &mut Random) -> Board {
    let room = random.pick(&[192, 256, 256, 600, 4096 + 700]);
    let mut bytes = random.bytes(room);
    // Short bursts mostly, so that a transfer takes more than one.
    let (width, beats) = if random.chance(60) {
        random.pick(&[(4, 2), (4, 4), (8, 2)])
    } else {
        settings::listed(random)
    };
    // Now and then each has its own part of memory to write to.
    let parts = random.chance(35);
    let engines = [0, 1].map(|place| {
        let (width, beats) =
            if random.chance(90) { (width, beats) } else { settings::listed(random) };
        let part = if parts { [place * room / 2, room / 2] } else { [0, room] };
        some_engine(random, fresh(width, beats), part, &mut bytes)
    });
    let mut numbers = Vec::new();
    if random.chance(40) {
        let near = random.pick(&engines);
        numbers = windows(random, &near, room);
        numbers.truncate(32);
    }
    Board {
        engines: engines.map(|words| Lent::of(&words, 0xa5a5_a5a5)),
        memory: Lent::of(&bytes, 0xa5),
        windows: Lent::of(&numbers, 0x5a5a_5a5a),
    }
}

/// An engine that is about to write within a part of memory, from its start on so many bytes; or any.
fn some_engine(
    random: &mut Random,
    mut words: EngineWords,
    part: [u32; 2],
    memory: &mut [u8],
) -> EngineWords {
    let room = memory.len() as u32;
    if random.chance(20) {
        return well_formed(random, room);
    }
    [words[KEY_HOLE_READ], words[KEY_HOLE_WRITE]] = queues::any_bits(random);
    if random.chance(50) {
        [words[SOURCE], words[DESTINATION], words[TOTAL]] = transfer(random, &words, part, room);
        // Neither total nor start is out of what an engine may have.
        words[TOTAL] = words[TOTAL].max(1);
        words[PHASE] = MOVE;
        return words;
    }
    let places: BTreeSet<u32> = (0..random.between(1, 3))
        .map(|_| (part[0] + random.below(part[1])).min(room - 32) / 64 * 64)
        .collect();
    let places: Vec<u32> = places.into_iter().collect();
    for (at, &place) in places.iter().enumerate() {
        let next = places.get(at + 1).copied().unwrap_or(places[0]);
        let [source, destination, count] = transfer(random, &words, part, room);
        let status = if random.chance(95) { 0 } else { random.u32() };
        let bytes = descriptor(next, source, destination, count, status, 0);
        memory[place as usize..place as usize + 32].copy_from_slice(&bytes);
    }
    words[CHAIN_MODE] = 1;
    words[PHASE] = FETCH;
    words[CURRENT] = places[0];
    words[TAIL] = places[places.len() - 1];
    words
}

/// Source, destination and count: the source is anywhere, the destination in the part.
fn transfer(random: &mut Random, words: &EngineWords, part: [u32; 2], room: u32) -> [u32; 3] {
    let most = random.pick(&[4, 16, 60, 150]);
    let count = random.between(1, part[1].min(most));
    let source = random.below(room - count + 1);
    let destination = part[0] + random.below(part[1] - count + 1);
    queues::fit(random, words, [source, destination, count])
}

fn meet(left: &Addresses, right: &Addresses) -> bool {
    !left.is_disjoint(right)
}

fn fixed(engine: &Engine) -> bool {
    engine.key_hole_read || engine.key_hole_write
}

/// Counts two engines that do not meet.
fn see_apart(alone: &Alone, coverage: &mut Coverage) {
    coverage.see("engines that do not meet");
    let moved = |place: usize, chain: bool| {
        let moves = |taken: &Taken| matches!(taken.step.event, Event::Move { .. });
        alone.steps[place].iter().any(|taken| moves(taken) && taken.before.sg_mode == chain)
    };
    let [first, second] = [0, 1].map(|place| alone.footprint(place));
    coverage.see_if(moved(0, false) && moved(1, false), "apart, simple transfers of both");
    let mixed = moved(0, false) && moved(1, true) || moved(0, true) && moved(1, false);
    coverage.see_if(mixed, "apart, a simple transfer and a chain");
    coverage.see_if(moved(0, true) && moved(1, true), "apart, chains of both");
    let both = !first.writes.is_empty() && !second.writes.is_empty();
    coverage.see_if(both, "apart, both write");
    coverage.see_if(both && meet(&first.reads, &second.reads), "apart, both read one byte");
    let sides = |place: usize| alone.steps[place].iter().any(|taken| fixed(&taken.before));
    coverage.see_if(both && sides(0) != sides(1), "apart, a fixed side of one engine alone");
    for (place, other) in [(0, &second), (1, &first)] {
        let steps = &alone.steps[place];
        let failed =
            steps.iter().any(|taken| judged(taken).iter().any(|at| other.writes.contains(at)));
        coverage.see_if(failed, "apart, one judges what the other writes");
        let window = |taken: &Taken| matches!(taken.step.event, Event::Fault { bit: 5, .. });
        let window = steps.iter().any(window) && !other.writes.is_empty();
        coverage.see_if(window, "apart, one meets a window");
    }
    let idle = [0, 1].map(|place| alone.ends[place].engines()[place].idle());
    coverage.see_if(both && idle == [true; 2], "apart, both idle in the end");
    coverage.see_if(both && idle == [false; 2], "apart, both stopped in the midst");
}

/// The bytes of memory that a failed step judged and did not read.
fn judged(taken: &Taken) -> Vec<u32> {
    match taken.step.event {
        Event::Fault { .. } => {
            let burst = Burst::before(&taken.before).expect("a burst of an engine that moves");
            let used = [burst.source.used, burst.destination.used].concat();
            used.into_iter().flatten().filter_map(|at| u32::try_from(at).ok()).collect()
        }
        Event::Halt { current, bit: 9 } => (current..current + 32).collect(),
        _ => Vec::new(),
    }
}

/// Counts two engines that meet, and what the orders of their steps gave.
fn see_meeting(alone: &Alone, results: &[(Board, Vec<Taken>)], coverage: &mut Coverage) {
    coverage.see("engines that meet");
    let [first, second] = [0, 1].map(|place| alone.footprint(place));
    let reads = [meet(&first.writes, &second.reads), meet(&second.writes, &first.reads)];
    coverage.see_if(reads[0], "engine 1 writes what engine 2 reads");
    coverage.see_if(reads[1], "engine 2 writes what engine 1 reads");
    let writes = meet(&first.writes, &second.writes);
    coverage.see_if(writes && reads == [false; 2], "both write one byte, and neither reads it");
    for (place, other) in [(0, &second), (1, &first)] {
        let update = |taken: &&Taken| matches!(taken.step.event, Event::Update { .. });
        let words = footprint(alone.steps[place].iter().filter(update));
        coverage.see_if(meet(&words.writes, &other.reads), "status word that the other one reads");
        coverage
            .see_if(meet(&words.writes, &other.writes), "status word that the other one writes");
        let fetch = |taken: &&Taken| matches!(taken.step.event, Event::Fetch { .. });
        let fetched = footprint(alone.steps[place].iter().filter(fetch));
        coverage
            .see_if(meet(&fetched.reads, &other.writes), "descriptor that the other one writes");
        let fixed = alone.steps[place].iter().any(|taken| fixed(&taken.before));
        coverage.see_if(fixed, "engines that meet, with a fixed side");
    }
    let (end, steps) = &results[0];
    let as_first = |place: usize| {
        let events_of_first = events(steps, place);
        results.iter().all(|(_, steps)| events(steps, place) == events_of_first)
    };
    let same_events = as_first(0) && as_first(1);
    let same_memory = results.iter().all(|(other, _)| other.memory == end.memory);
    coverage.see(match (same_events, same_memory) {
        (true, true) => "engines that meet, and all orders agree",
        (true, false) => "engines that meet, and orders differ in memory alone",
        _ => "engines that meet, and orders differ in an event",
    });
}
