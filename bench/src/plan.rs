// The cutter: `belikumba_plan` and `belikumba_count` of the C library beside the independent program's.

use crate::race::{print_heading, print_row, race, wanted};
use independent::cut::{self, plan_bytes, LONGEST};
use shared::interface::{belikumba_count, belikumba_plan, Planned};
use shared::random::Random;
use std::hint::black_box;

type Planner = fn(u32, u32, u32, u32, &mut [u8]) -> Planned;

fn proved(width: u32, beats: u32, start: u32, count: u32, places: &mut [u8]) -> Planned {
    // SAFETY: include/belikumba.h: it writes to the `length` lent bytes alone, whatever the numbers are.
    unsafe { belikumba_plan(width, beats, start, count, places.as_mut_ptr(), places.len()) }
}

fn plain(width: u32, beats: u32, start: u32, count: u32, places: &mut [u8]) -> Planned {
    let (answer, bursts) = plan_bytes(width, beats, start, count, places);
    Planned { answer, bursts }
}

type Counter = fn(u32, u32, u32, u32) -> Planned;

fn proved_count(width: u32, beats: u32, start: u32, count: u32) -> Planned {
    // SAFETY: include/belikumba.h: it is lent nothing, and takes any numbers.
    unsafe { belikumba_count(width, beats, start, count) }
}

fn plain_count(width: u32, beats: u32, start: u32, count: u32) -> Planned {
    let (answer, bursts) = cut::count(width, beats, start, count);
    Planned { answer, bursts }
}

struct Transfer {
    start: u32,
    count: u32,
}

/// The largest transfers, from the edges of words, pages and addresses and from between.
fn large() -> Vec<Transfer> {
    [0, 1, 4000, 4095, 12_352, 123_456_789, 2_147_483_647, u32::MAX - LONGEST + 1]
        .map(|start| Transfer { start, count: LONGEST })
        .into()
}

/// Transfers below a page, from anywhere.
fn small() -> Vec<Transfer> {
    let mut random = Random::new(1, 0);
    let transfer = |_| Transfer { start: random.below(1 << 31), count: random.between(1, 4095) };
    (0..1000).map(transfer).collect()
}

/// Transfers of one length, from anywhere.
fn of_length(count: u32) -> Vec<Transfer> {
    let mut random = Random::new(2, 0);
    (0..1000).map(|_| Transfer { start: random.below(u32::MAX - LONGEST), count }).collect()
}

/// Both make the same of every transfer, and of the bytes beyond their places; gives the number of bursts.
fn compare(width: u32, beats: u32, transfers: &[Transfer], places: &mut [u8]) -> u64 {
    let mut others = places.to_vec();
    let mut bursts = 0;
    for transfer in transfers {
        let planned = proved(width, beats, transfer.start, transfer.count, places);
        let other = plain(width, beats, transfer.start, transfer.count, &mut others);
        assert_eq!(planned, other, "the proved cutter and the plain one differ");
        assert!(places == others, "the proved cutter and the plain one write different places");
        assert_eq!(planned.answer, 0, "a transfer of this bench is refused");
        bursts += u64::from(planned.bursts);
    }
    bursts
}

/// Both count the same bursts in every transfer.
fn compare_counts(width: u32, beats: u32, transfers: &[Transfer]) {
    for transfer in transfers {
        let counted = proved_count(width, beats, transfer.start, transfer.count);
        let other = plain_count(width, beats, transfer.start, transfer.count);
        assert_eq!(counted, other, "the proved count and the plain one differ");
        assert_eq!(counted.answer, 0, "a transfer of this bench is refused");
    }
}

fn plan_all(planner: Planner, width: u32, beats: u32, transfers: &[Transfer], places: &mut [u8]) {
    for transfer in transfers {
        black_box(planner(
            black_box(width),
            black_box(beats),
            black_box(transfer.start),
            black_box(transfer.count),
            black_box(&mut *places),
        ));
    }
}

fn count_all(counter: Counter, width: u32, beats: u32, transfers: &[Transfer]) {
    for transfer in transfers {
        black_box(counter(
            black_box(width),
            black_box(beats),
            black_box(transfer.start),
            black_box(transfer.count),
        ));
    }
}

pub fn bench() {
    bench_plans();
    bench_counts();
}

fn bench_plans() {
    print_heading("plan", "nanoseconds a burst");
    for (size, transfers) in [("large", large()), ("small", small())] {
        // A burst takes 8 bytes here and moves many more, so the longest transfer's length is room enough.
        let mut places = vec![0; transfers.iter().map(|t| t.count as usize).max().unwrap_or(0)];
        for (most, width, beats) in [("64-byte", 4, 16), ("4,096-byte", 128, 256)] {
            let what = format!("{size}, {most} bursts");
            if !wanted(&what) {
                continue;
            }
            let bursts = compare(width, beats, &transfers, &mut places);
            let work = |planner: Planner| {
                let transfers = &transfers;
                move |places: &mut [u8]| {
                    plan_all(black_box(planner), width, beats, transfers, places)
                }
            };
            let times = race(bursts, &mut places[..], work(proved), work(plain));
            print_row(&what, &times);
        }
    }
}

fn bench_counts() {
    print_heading("count", "nanoseconds a call");
    let (width, beats) = (4, 16);
    for (what, count) in [("8,388,607 bytes", LONGEST), ("64 bytes", 64)] {
        if !wanted(what) {
            continue;
        }
        let transfers = of_length(count);
        compare_counts(width, beats, &transfers);
        let work = |counter: Counter| {
            let transfers = &transfers;
            move |_: &mut ()| count_all(black_box(counter), width, beats, transfers)
        };
        let times = race(transfers.len() as u64, &mut (), work(proved_count), work(plain_count));
        print_row(what, &times);
    }
}
