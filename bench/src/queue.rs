// Transfers with a fixed side: `belikumba_run` of the C library beside loops written by hand for this one purpose. The independent
// program is no match here: it goes byte by byte.

use crate::race::{print_heading, print_row, race, wanted};
use independent::memory::{good_bytes, LONGEST};
use shared::interface as library;
use shared::interface::ENGINE_WORDS;
use shared::registers::{BTT, CDMACR, DA, SA};
use shared::words::{EngineWords, IDLE, PHASE};
use std::hint::black_box;

const KEY_HOLE_READ: u32 = 1 << 4;
const KEY_HOLE_WRITE: u32 = 1 << 5;
const HALF: u32 = (LONGEST / 2) as u32;
const WIDEST: usize = 128;
const PAGE: u32 = 4096;

/// A transfer of a queue at the memory's start, or to it.
struct Job {
    width: u32,
    beats: u32,
    control: u32,
    source: u32,
    destination: u32,
    total: u32,
}

// SAFETY, in each call: by include/belikumba.h, whatever the numbers are, a call reaches the words of the engine and the lent
// bytes alone, and keeps none of them.
fn started(job: &Job) -> EngineWords {
    let mut engine = [0; ENGINE_WORDS];
    (engine[0], engine[1]) = (job.width, job.beats);
    let writes = [(CDMACR, job.control), (SA, job.source), (DA, job.destination), (BTT, job.total)];
    for (offset, value) in writes {
        let answer = unsafe { library::belikumba_write(engine.as_mut_ptr(), offset, value) };
        assert_eq!(answer, 0, "a write of this bench is refused");
    }
    engine
}

fn proved(started: &EngineWords, memory: &mut [u8]) -> u64 {
    let mut engine = *black_box(started);
    let mut steps = 0;
    while engine[PHASE] != IDLE {
        let (words, bytes) = (engine.as_mut_ptr(), memory.as_mut_ptr());
        let windows = std::ptr::NonNull::dangling().as_ptr();
        let ran =
            unsafe { library::belikumba_run(words, bytes, memory.len(), windows, 0, u16::MAX) };
        assert_eq!(ran.answer, 0, "a run of this bench is refused");
        steps += u64::from(ran.steps);
    }
    steps
}

/// What of a side is good from byte `moved` on, asked once: a fixed side's word is good or not.
fn good(job: &Job, memory: &[u8], fixed: bool, start: u32) -> bool {
    let bytes = if fixed { job.width } else { job.total };
    good_bytes(memory.len(), &[], start, bytes) == bytes
}

fn by_hand(job: &Job, memory: &mut [u8]) -> u64 {
    let job = black_box(job);
    let (reads, writes) = (job.control & KEY_HOLE_READ != 0, job.control & KEY_HOLE_WRITE != 0);
    assert!(good(job, memory, reads, job.source) && good(job, memory, writes, job.destination));
    if writes {
        push(job, memory, reads)
    } else {
        drain(job, memory)
    }
}

/// From a fixed word: it is read at each burst, as the burst before may have changed it.
fn drain(job: &Job, memory: &mut [u8]) -> u64 {
    let (width, source) = (job.width as usize, job.source as usize);
    let (mut moved, mut steps) = (0, 0);
    while moved < job.total {
        let to = job.destination + moved;
        // Widths are powers of two.
        let reach = (to & !(job.width - 1)) + job.width * job.beats;
        let bytes = reach.min((to & !(PAGE - 1)) + PAGE).min(job.destination + job.total) - to;
        let mut word = [0; WIDEST];
        word[..width].copy_from_slice(&memory[source..source + width]);
        word[..width].rotate_left(moved as usize % width);
        for beat in memory[to as usize..][..bytes as usize].chunks_mut(width) {
            beat.copy_from_slice(&word[..beat.len()]);
        }
        moved += bytes;
        steps += 1;
    }
    steps
}

/// To a fixed word: of each piece the last beat.
fn push(job: &Job, memory: &mut [u8], fixed: bool) -> u64 {
    let piece = job.width * job.beats.min(16);
    let width = job.width as usize;
    let (mut moved, mut steps) = (0, 0);
    while moved < job.total {
        let bytes = piece.min(job.total - moved);
        let last = if fixed { job.source } else { job.source + moved + bytes - job.width } as usize;
        memory.copy_within(last..last + width, job.destination as usize);
        moved += bytes;
        steps += 1;
    }
    steps
}

fn print_race(what: &str, job: &Job) {
    if !wanted(what) {
        return;
    }
    let mut memory: Vec<u8> = (0..LONGEST).map(|at| (at * at / 7) as u8).collect();
    let engine = started(job);
    let (mut first, mut second) = (memory.clone(), memory.clone());
    let steps = proved(&engine, &mut first);
    assert_eq!(steps, by_hand(job, &mut second), "other steps");
    assert!(first == second, "the two sides leave different memory");
    let times = race(
        steps,
        &mut memory,
        |memory: &mut Vec<u8>| {
            black_box(proved(&engine, memory));
        },
        |memory: &mut Vec<u8>| {
            black_box(by_hand(job, memory));
        },
    );
    print_row(what, &times);
}

pub fn bench() {
    print_heading("queue, run", "nanoseconds a step");
    for (pieces, width, beats) in [("4-byte", 4, 16), ("16-byte", 16, 16), ("128-byte", 128, 16)] {
        let total = 8_388_604 / width * width;
        let job = |control, source, destination| Job {
            width,
            beats,
            control,
            source,
            destination,
            total,
        };
        print_race(&format!("queue to 8 MiB, {pieces} words"), &job(KEY_HOLE_READ, 0, HALF));
        print_race(&format!("8 MiB to queue, {pieces} words"), &job(KEY_HOLE_WRITE, HALF, 0));
        let both = KEY_HOLE_READ | KEY_HOLE_WRITE;
        print_race(&format!("queue to queue, {pieces} words"), &job(both, 0, HALF));
    }
}
