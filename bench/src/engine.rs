// The engine: `belikumba_run` and `belikumba_step` of the C library beside the independent program's engine.

use crate::race::{print_heading, print_row, race, wanted};
use independent::engine::Engine;
use independent::memory::{Window, LONGEST};
use shared::interface as library;
use shared::interface::ENGINE_WORDS;
use shared::record::descriptor;
use shared::registers::{BTT, CDMACR, CDMASR, CHAIN, CURDESC, DA, SA, TAILDESC};
use shared::words::{of_engine, EngineWords, IDLE, PHASE};
use std::hint::black_box;

/// What an engine works on. The windows are here as the independent engine and as the C library take them.
#[derive(Clone)]
struct Lent {
    memory: Vec<u8>,
    windows: Vec<Window>,
    window_numbers: Vec<u32>,
}

impl Lent {
    fn new(windows: &[Window]) -> Lent {
        Lent {
            memory: (0..LONGEST).map(|at| (at * at / 7) as u8).collect(),
            windows: windows.to_vec(),
            window_numbers: windows.iter().flat_map(|&(start, length)| [start, length]).collect(),
        }
    }
}

// ---- Two sides

/// An engine until it is idle; gives the steps that it took.
trait Side: Copy {
    type Engine: Clone;

    /// A fresh engine after these writes.
    fn start(self, width: u32, beats: u32, writes: &[(u32, u32)]) -> Self::Engine;
    fn runs(self, engine: &mut Self::Engine, lent: &mut Lent) -> u64;
    fn steps(self, engine: &mut Self::Engine, lent: &mut Lent) -> u64;
}

#[derive(Clone, Copy)]
struct Proved;

// SAFETY, in each call: by include/belikumba.h, whatever the numbers are, a call reaches the 22 words of the engine
// and the lent bytes and windows alone, and keeps none of them.
impl Side for Proved {
    type Engine = EngineWords;

    fn start(self, width: u32, beats: u32, writes: &[(u32, u32)]) -> EngineWords {
        let mut engine = [0; ENGINE_WORDS];
        (engine[0], engine[1]) = (width, beats);
        for &(offset, value) in writes {
            let answer = unsafe { library::belikumba_write(engine.as_mut_ptr(), offset, value) };
            assert_eq!(answer, 0, "a write of this bench is refused");
        }
        engine
    }

    fn runs(self, engine: &mut EngineWords, lent: &mut Lent) -> u64 {
        let (memory, windows) = (&mut lent.memory, &lent.window_numbers);
        let mut steps = 0;
        while engine[PHASE] != IDLE {
            let (engine, bytes) = (engine.as_mut_ptr(), memory.as_mut_ptr());
            let (numbers, count) = (windows.as_ptr(), windows.len());
            let ran = unsafe {
                library::belikumba_run(engine, bytes, memory.len(), numbers, count, u16::MAX)
            };
            assert_eq!(ran.answer, 0, "a run of this bench is refused");
            steps += u64::from(ran.steps);
        }
        steps
    }

    fn steps(self, engine: &mut EngineWords, lent: &mut Lent) -> u64 {
        let (memory, windows) = (&mut lent.memory, &lent.window_numbers);
        let mut steps = 0;
        while engine[PHASE] != IDLE {
            let (engine, bytes) = (engine.as_mut_ptr(), memory.as_mut_ptr());
            let (numbers, count) = (windows.as_ptr(), windows.len());
            let stepped =
                unsafe { library::belikumba_step(engine, bytes, memory.len(), numbers, count) };
            assert_eq!(stepped.answer, 0, "a step of this bench is refused");
            black_box((stepped.event, stepped.first, stepped.second));
            steps += 1;
        }
        steps
    }
}

#[derive(Clone, Copy)]
struct Plain;

impl Side for Plain {
    type Engine = Engine;

    fn start(self, width: u32, beats: u32, writes: &[(u32, u32)]) -> Engine {
        let mut engine = Engine::fresh(width, beats);
        for &(offset, value) in writes {
            assert_eq!(engine.write(offset, value), 0, "a write of this bench is refused");
        }
        engine
    }

    fn runs(self, engine: &mut Engine, lent: &mut Lent) -> u64 {
        let mut steps = 0;
        while !engine.idle() {
            let (answer, taken) = engine.run(&mut lent.memory, &lent.windows, u16::MAX);
            assert_eq!(answer, 0, "a run of this bench is refused");
            steps += u64::from(taken);
        }
        steps
    }

    fn steps(self, engine: &mut Engine, lent: &mut Lent) -> u64 {
        let mut steps = 0;
        while !engine.idle() {
            let (answer, event) = engine.step(&mut lent.memory, &lent.windows);
            assert_eq!(answer, 0, "a step of this bench is refused");
            black_box(event);
            steps += 1;
        }
        steps
    }
}

// ---- Jobs

/// A fresh engine's settings, the writes that start it, and how often it is started in one measure.
struct Job {
    width: u32,
    beats: u32,
    writes: [(u32, u32); 3],
    times: u64,
}

const HALF: u32 = (LONGEST / 2) as u32;

/// A transfer from the lower half of memory to the upper one. The longest leaves out the last byte of each.
fn transfer(width: u32, beats: u32, count: u32) -> Job {
    let times = u64::from((64 * 1024 / count).max(1));
    Job { width, beats, writes: [(SA, 0), (DA, HALF), (BTT, count)], times }
}

/// Windows on the bytes that the longest transfer leaves out, and past the end.
fn untouched_windows() -> Vec<Window> {
    [(HALF - 1, 1), (2 * HALF - 1, 1), (2 * HALF, HALF), (u32::MAX, u32::MAX)].repeat(4)
}

const DESCRIPTORS: u32 = 4096;
const DESCRIPTOR_BYTES: u32 = 64;

/// A chain whose descriptors are one behind the other from 0 on. Each copies one burst of 64 bytes: the descriptor
/// before it as it was at first, and the first one the last. So none is found stale, however often the chain runs.
fn chain() -> Job {
    let tail = (DESCRIPTORS - 1) * DESCRIPTOR_BYTES;
    let writes = [(CDMACR, CHAIN), (CURDESC, 0), (TAILDESC, tail)];
    Job { width: 4, beats: 16, writes, times: 1 }
}

fn put_chain(memory: &mut [u8]) {
    let chain_bytes = DESCRIPTORS * DESCRIPTOR_BYTES;
    for at in (0..chain_bytes).step_by(DESCRIPTOR_BYTES as usize) {
        let next = at + DESCRIPTOR_BYTES;
        let before = (at + chain_bytes - DESCRIPTOR_BYTES) % chain_bytes;
        let bytes = descriptor(next, HALF + before, before, DESCRIPTOR_BYTES, 0, 0);
        memory[at as usize..at as usize + bytes.len()].copy_from_slice(&bytes);
    }
    memory.copy_within(..chain_bytes as usize, HALF as usize);
}

// ---- Races

/// By runs or step by step.
#[derive(Clone, Copy, PartialEq)]
enum How {
    Runs,
    Steps,
}

fn go<S: Side>(side: S, how: How, engine: &mut S::Engine, lent: &mut Lent) -> u64 {
    match how {
        How::Runs => side.runs(engine, lent),
        How::Steps => side.steps(engine, lent),
    }
}

/// Both sides make the same of a job, of the engine and of every byte of memory, and do so again on the memory that
/// this leaves, as a race does; gives the number of steps.
fn compare(job: &Job, how: How, lent: &Lent) -> u64 {
    let (mut proved_lent, mut plain_lent) = (lent.clone(), lent.clone());
    let twice = [(); 2].map(|()| {
        let mut proved = Proved.start(job.width, job.beats, &job.writes);
        let mut plain = Plain.start(job.width, job.beats, &job.writes);
        let steps = go(Proved, how, &mut proved, &mut proved_lent);
        assert_eq!(steps, go(Plain, how, &mut plain, &mut plain_lent), "other steps");
        assert_eq!(proved, of_engine(&plain), "the proved engine and the plain one differ");
        assert!(proved_lent.memory == plain_lent.memory, "the two engines leave different memory");
        assert_eq!(
            plain.read(CDMASR),
            (0, 0x0001_100a),
            "a transfer of this bench does not end well"
        );
        steps
    });
    assert_eq!(twice[0], twice[1], "a job done again goes another way");
    twice[0]
}

fn work<S: Side>(side: S, how: How, job: &Job) -> impl Fn(&mut Lent) {
    let started = side.start(job.width, job.beats, &job.writes);
    let times = job.times;
    move |lent: &mut Lent| {
        for _ in 0..times {
            let mut engine = black_box(&started).clone();
            black_box(go(side, how, &mut engine, lent));
            black_box(&engine);
        }
    }
}

fn print_race(what: &str, job: &Job, how: How, lent: &mut Lent) {
    if !wanted(what) {
        return;
    }
    let steps = compare(job, how, lent) * job.times;
    print_row(what, &race(steps, lent, work(Proved, how, job), work(Plain, how, job)));
}

/// The longest transfer in bursts of 64 and of 4,096 bytes, without windows and with sixteen.
fn print_longest(how: How) {
    for (bursts, width, beats) in [("64-byte", 4, 16), ("4,096-byte", 128, 256)] {
        let job = transfer(width, beats, HALF - 1);
        for (with, windows) in [("", vec![]), (", 16 windows", untouched_windows())] {
            let what = format!("8 MiB, {bursts} bursts{with}");
            print_race(&what, &job, how, &mut Lent::new(&windows));
        }
    }
}

pub fn bench() {
    print_heading("engine, run", "nanoseconds a step");
    print_longest(How::Runs);
    let mut lent = Lent::new(&[]);
    print_race("1,024 bytes, 64-byte bursts", &transfer(4, 16, 1024), How::Runs, &mut lent);
    print_race("65 bytes, two steps", &transfer(4, 16, 65), How::Runs, &mut lent);
    put_chain(&mut lent.memory);
    print_race("chain of 4,096 descriptors", &chain(), How::Runs, &mut lent);
    print_heading("engine, step", "nanoseconds a step");
    print_longest(How::Steps);
}
