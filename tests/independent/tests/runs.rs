// Tests of runs joined: RULES.md 6.8. Runs one behind the other are one run of the sum of their
// budgets: a chain worked out by hand, any engines, refusals, and the largest sum.

mod common;

use common::{chain, descriptor, fresh, put, simple, some_engine, some_memory, some_windows};
use independent::engine::{Engine, Event, Outcome, Phase, Transfer};
use independent::memory::Window;
use shared::random::Random;
use shared::settings::listed;

/// An engine and the memory lent to it, which nothing touches between runs.
#[derive(Clone, PartialEq)]
struct Bench {
    engine: Engine,
    memory: Vec<u8>,
}

/// Answer, steps, and the events in order.
type Report = (u32, u16, Vec<Event>);

impl Bench {
    /// A run of at most `n` steps, which must be the single steps whether its events are asked for
    /// or not.
    fn run(&mut self, windows: &[Window], n: u16) -> Report {
        let (mut silent, mut slow) = (self.clone(), self.clone());
        let report = self.engine.run_events(&mut self.memory, windows, n);
        assert_eq!(report.2.len(), usize::from(report.1), "one event a step");
        let silent_report = silent.engine.run(&mut silent.memory, windows, n);
        assert_eq!(silent_report, (report.0, report.1));
        assert!(slow.single_steps(windows, n) == report, "{n} steps to {:?}", self.engine);
        assert!(silent == *self && slow == *self, "{n} steps to {:?}", self.engine);
        report
    }

    /// The slow model of a run: one step at a time, until idle or `n` taken.
    fn single_steps(&mut self, windows: &[Window], n: u16) -> Report {
        // A run is refused where a step is, idle or of 0 steps too.
        let mut asked = self.clone();
        let (answer, _) = asked.engine.step(&mut asked.memory, windows);
        let mut events = Vec::new();
        while answer == 0 && events.len() < usize::from(n) && self.engine.phase != Phase::Idle {
            let (answer, event) = self.engine.step(&mut self.memory, windows);
            assert_eq!(answer, 0, "a step is never refused where the one before was not");
            events.push(event);
        }
        (answer, events.len() as u16, events)
    }

    /// Runs one behind the other, which must be one run of their sum.
    fn joined_runs(&mut self, windows: &[Window], budgets: &[u16]) -> Report {
        let mut whole = self.clone();
        let whole_report = whole.run(windows, budgets.iter().sum());
        let (mut steps, mut events) = (0, Vec::new());
        for &n in budgets {
            let (answer, taken, told) = self.run(windows, n);
            assert_eq!(answer, whole_report.0, "all refused alike or none");
            steps += taken;
            events.extend(told);
        }
        let report = (whole_report.0, steps, events);
        assert!(report == whole_report, "{budgets:?} to {:?}", self.engine);
        assert!(*self == whole, "{budgets:?} to {:?}", self.engine);
        report
    }
}

// ---- Worked out by hand ----

/// A chain of two descriptors: how all is before its seven steps and after each, and the events.
/// The first one's bytes go three places up over themselves, so a burst moved again shows.
fn worked_chain() -> (Vec<Bench>, Vec<Event>) {
    let counted: Vec<u8> = (1..=64).collect();
    let mut memory = vec![0; 1024];
    put(&mut memory, 64, &descriptor(192, 640, 643, 64, 0));
    put(&mut memory, 192, &descriptor(320, 704, 800, 3, 0));
    put(&mut memory, 640, &counted);
    let events = vec![
        Event::Fetch { current: 64 },
        // As P4: sixteen words from the one of 643 on end at 704.
        Event::Move { start: 643, bytes: 61 },
        Event::Move { start: 704, bytes: 3 },
        Event::Update { current: 64, word: 0x8000_0000 },
        Event::Fetch { current: 192 },
        Event::Move { start: 800, bytes: 3 },
        Event::Update { current: 192, word: 0x8000_0000 },
    ];
    let first = |moved| Phase::Move(Transfer { source: 640, destination: 643, total: 64, moved });
    let second = Phase::Move(Transfer { source: 704, destination: 800, total: 3, moved: 0 });
    let update = Phase::Update(Outcome::Complete);
    // Current, next, held next, IOC_Irq and phase, and the bytes that the step to there writes.
    let states = [
        (64, 64, 0, false, Phase::Fetch, 0, vec![]),
        (64, 64, 192, false, first(0), 0, vec![]),
        (64, 64, 192, false, first(61), 643, counted[..61].to_vec()),
        // The three bytes from 701 on are the last that the burst before wrote.
        (64, 64, 192, false, update, 704, vec![59, 60, 61]),
        (192, 192, 192, true, Phase::Fetch, 64 + 0x1c, vec![0, 0, 0, 0x80]),
        (192, 192, 320, true, second, 0, vec![]),
        (192, 192, 320, true, update, 800, vec![59, 60, 61]),
        (192, 320, 320, true, Phase::Idle, 192 + 0x1c, vec![0, 0, 0, 0x80]),
    ];
    let mut benches = Vec::new();
    for (current, next, held_next, ioc_irq, phase, at, bytes) in states {
        let pointers = Engine { current, next, held_next, tail: 192, ..fresh() };
        let engine = Engine { sg_mode: true, ioc_irq, phase, ..pointers };
        put(&mut memory, at, &bytes);
        benches.push(Bench { engine, memory: memory.clone() });
    }
    assert_eq!(benches[0].engine, chain(64, 192));
    (benches, events)
}

#[test]
fn three_steps_and_four_are_seven() {
    let (benches, events) = worked_chain();
    let mut bench = benches[0].clone();
    assert_eq!(bench.run(&[], 3), (0, 3, events[..3].to_vec()));
    assert_eq!(bench.engine, benches[3].engine);
    assert_eq!(bench.memory, benches[3].memory);
    assert_eq!(bench.run(&[], 4), (0, 4, events[3..].to_vec()));
    assert_eq!(bench.engine, benches[7].engine);
    assert_eq!(bench.memory, benches[7].memory);
    let mut bench = benches[0].clone();
    assert_eq!(bench.run(&[], 7), (0, 7, events));
    assert_eq!(bench.engine, benches[7].engine);
    assert_eq!(bench.memory, benches[7].memory);
}

#[test]
fn every_split_of_the_worked_chain() {
    let (benches, events) = worked_chain();
    for n in 0..=9 {
        // Past the end too, up to the largest sum.
        for m in (0..=9).chain([65_535 - n]) {
            let (split, end) = (n.min(7), (n + m).min(7));
            let (split_at, end_at) = (usize::from(split), usize::from(end));
            let mut bench = benches[0].clone();
            assert_eq!(bench.run(&[], n), (0, split, events[..split_at].to_vec()));
            assert!(bench == benches[split_at], "{n}: {:?}", bench.engine);
            assert_eq!(bench.run(&[], m), (0, end - split, events[split_at..end_at].to_vec()));
            assert!(bench == benches[end_at], "{n} + {m}: {:?}", bench.engine);
            let mut bench = benches[0].clone();
            let report = bench.joined_runs(&[], &[n, m]);
            assert_eq!(report, (0, end, events[..end_at].to_vec()));
            assert!(bench == benches[end_at], "{n} + {m}: {:?}", bench.engine);
        }
    }
}

// ---- Any engines ----

/// An engine in any state, or one at the start of a chain of five that mostly goes well.
fn some_bench(random: &mut Random) -> Bench {
    if random.one_in(2) {
        let length = if random.one_in(3) { 4096 + random.below(5000) } else { random.below(1200) };
        let engine = some_engine(random, length);
        return Bench { engine, memory: some_memory(random, length) };
    }
    let mut memory = random.bytes(4096);
    for at in [0, 64, 128, 192, 256] {
        let (source, destination) = (random.below(3800), random.below(3800));
        let count = if random.one_in(10) { 0 } else { random.below(300) };
        let status = if random.one_in(10) { 0x8000_0000 } else { 0 };
        put(&mut memory, at, &descriptor(at + 64, source, destination, count, status));
    }
    let (width, beats) = listed(random);
    Bench { engine: Engine { width, beats, ..chain(0, 256) }, memory }
}

#[test]
fn joined_runs_of_any_engine() {
    let mut random = Random::new(8, 0);
    // Cases that are refused, and the others by where the first run stops after a step or more.
    let (mut refused, mut idle, mut fetch, mut moving, mut update) = (0, 0, 0, 0, 0);
    for _ in 0..20_000 {
        let start = some_bench(&mut random);
        let windows = some_windows(&mut random, start.memory.len() as u32);
        let budgets: Vec<u16> =
            (0..random.between(2, 6)).map(|_| random.pick(&[0, 1, 2, 3, 5, 8, 40, 300])).collect();
        let mut bench = start.clone();
        let (answer, steps, _) = bench.joined_runs(&windows, &budgets);
        if answer != 0 {
            assert_eq!((answer, steps), (9, 0));
            assert!(bench == start);
        }
        let mut first = start;
        let (_, steps, _) = first.run(&windows, budgets[0]);
        *match first.engine.phase {
            _ if answer != 0 => &mut refused,
            _ if steps == 0 => continue,
            Phase::Idle => &mut idle,
            Phase::Fetch => &mut fetch,
            Phase::Move(_) => &mut moving,
            Phase::Update(_) => &mut update,
        } += 1;
    }
    let joints = [refused, idle, fetch, moving, update];
    assert!(joints.iter().all(|&count| count > 500), "{joints:?}");
}

// ---- Refusals ----

#[test]
fn a_refused_run_and_the_joined_one_get_the_same_answer() {
    let (benches, _) = worked_chain();
    // A fetch, which would put a good pointer in the place of the bad one; a move, which would write;
    // and idle, which is refused too.
    for bench in [&benches[0], &benches[1], &benches[7]] {
        let settings = Engine { beats: 3, ..bench.engine.clone() };
        let pointer = Engine { held_next: 32, ..bench.engine.clone() };
        let mut memory = bench.memory.clone();
        memory.resize(16_777_217, 0);
        let cases = [
            (1, Bench { engine: settings, ..bench.clone() }, 0),
            (2, Bench { memory, ..bench.clone() }, 0),
            (6, bench.clone(), 17),
            (9, Bench { engine: pointer, ..bench.clone() }, 0),
        ];
        for (answer, refused, windows) in cases {
            for budgets in [[0, 7], [7, 0], [40_000, 25_535]] {
                let mut bench = refused.clone();
                let report = bench.joined_runs(&vec![(0, 0); windows], &budgets);
                assert_eq!(report, (answer, 0, vec![]));
                assert!(bench == refused, "{answer}: {:?}", bench.engine);
            }
        }
    }
}

#[test]
fn no_run_is_refused_at_the_limits() {
    // The longest memory, in it the longest transfer up to its end, and sixteen windows over the two
    // bytes between source and destination.
    let (total, destination) = (8_388_607, 8_388_609);
    let engine = Engine { width: 128, beats: 256, ..simple(0, destination, total) };
    let memory = Random::new(8, 1).bytes(16_777_216);
    let source = memory[..total as usize].to_vec();
    let mut bench = Bench { engine, memory };
    let (answer, steps, events) = bench.joined_runs(&[(total, 2); 16], &[0, 1000, 1047, 0, 9]);
    // One byte less than a page, and 2,047 pages.
    assert_eq!((answer, steps), (0, 2048));
    assert_eq!(events[0], Event::Move { start: destination, bytes: 4095 });
    assert_eq!(events[2047], Event::Move { start: 16_773_120, bytes: 4096 });
    assert_eq!(bench.engine.phase, Phase::Idle);
    assert!(bench.memory[destination as usize..] == source);
}

// ---- The largest sum ----

#[test]
fn sums_of_65_535() {
    let (source, destination) = (64, 64 + 8 * 65_536);
    let splits: [&[u16]; 7] = [
        &[0, 65_535],
        &[1, 65_534],
        &[32_767, 32_768],
        &[65_534, 1],
        &[65_535, 0],
        &[21_845, 21_845, 21_845],
        &[0, 40_000, 0, 25_535, 0],
    ];
    // A fetch, bursts of two beats of 4 bytes, an update. These are one step less than the sum, just
    // as many, one more and two more.
    for bursts in 65_532..=65_535 {
        let phase = match bursts {
            65_534 => Phase::Update(Outcome::Complete),
            65_535 => {
                let moved = 8 * 65_534;
                Phase::Move(Transfer { source, destination, total: 8 * bursts, moved })
            }
            _ => Phase::Idle,
        };
        let ended = phase == Phase::Idle;
        let events: Vec<Event> = [Event::Fetch { current: 0 }]
            .into_iter()
            .chain(
                (0..bursts).map(|burst| Event::Move { start: destination + 8 * burst, bytes: 8 }),
            )
            .chain([Event::Update { current: 0, word: 0x8000_0000 }])
            .take(65_535)
            .collect();
        let mut memory = Random::new(8, 2).bytes(destination + 8 * 65_536);
        put(&mut memory, 0, &descriptor(0, source, destination, 8 * bursts, 0));
        let start = Bench { engine: Engine { beats: 2, ..chain(0, 0) }, memory };
        let mut end = start.clone();
        end.engine = Engine { phase, ioc_irq: ended, ..end.engine };
        let moved = 8 * bursts.min(65_534) as usize;
        end.memory.copy_within(64..64 + moved, destination as usize);
        if ended {
            put(&mut end.memory, 0x1c, &[0, 0, 0, 0x80]);
        }
        for budgets in splits {
            let mut bench = start.clone();
            let report = bench.joined_runs(&[], budgets);
            assert!(report == (0, events.len() as u16, events.clone()), "{bursts} {budgets:?}");
            assert!(bench == end, "{bursts} {budgets:?} to {:?}", bench.engine);
        }
    }
}
