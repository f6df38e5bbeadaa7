// Tests of the count: RULES.md 3.4 worked out by hand, answers 1 and 7, the number of the brute plan
// for short transfers and of the plan for long ones. Each plan of cut.rs is counted too.

use independent::answer;
use independent::cut::{brute_plan, count, plan, LONGEST};
use shared::random::Random;
use shared::settings::{BEATS, WIDTHS};

const PAGE: u32 = 4096;

#[test]
fn worked_out_by_hand() {
    // P1 to P6 and P8.
    assert_eq!(count(4, 16, 0, 1), (0, 1));
    assert_eq!(count(4, 16, 0, 64), (0, 1));
    assert_eq!(count(4, 16, 0, 65), (0, 2));
    assert_eq!(count(4, 16, 3, 64), (0, 2));
    assert_eq!(count(4, 16, 4088, 16), (0, 2));
    assert_eq!(count(4, 16, u32::MAX, 1), (0, 1));
    assert_eq!(count(128, 256, 0, 8192), (0, 2));
    // 2,047 whole pages of 64 bursts and one of 4,095 bytes, which has 64 too.
    assert_eq!(count(4, 16, 0, LONGEST), (0, 131_072));
    // One byte, 2,047 whole pages of 512 bursts, and 4,094 bytes in 512.
    assert_eq!(count(4, 2, 4095, LONGEST), (0, 1_048_577));
    // Page by page, though a burst of 256 words of 128 bytes would span eight: 4,095 bytes from 1
    // on, then 2,047 whole pages.
    assert_eq!(count(128, 256, 1, LONGEST), (0, 2048));
    assert_eq!(count(128, 256, 4095, 2), (0, 2));
    // 33 words of the first page in 3 bursts, two whole pages of 32, and one word of the last.
    assert_eq!(count(8, 16, PAGE - 257, 257 + 2 * PAGE + 8), (0, 3 + 2 * 32 + 1));
}

#[test]
fn answer_7_at_its_edges() {
    let top = u32::MAX - LONGEST + 1;
    assert_eq!(count(4, 16, top, LONGEST), (0, 131_072));
    for (start, bytes) in [
        (0, 0),
        (u32::MAX, 0),
        (0, LONGEST + 1),
        (0, u32::MAX),
        (u32::MAX, 2),
        (top + 1, LONGEST),
        (u32::MAX, u32::MAX),
    ] {
        assert_eq!(count(4, 16, start, bytes), (answer::PLAN, 0), "{start} {bytes}");
        // 1 comes first.
        assert_eq!(count(5, 16, start, bytes), (answer::SETTINGS, 0), "{start} {bytes}");
        assert_eq!(count(4, 17, start, bytes), (answer::SETTINGS, 0), "{start} {bytes}");
    }
}

fn all_settings() -> impl Iterator<Item = (u32, u32)> {
    WIDTHS.into_iter().flat_map(|width| BEATS.map(|beats| (width, beats)))
}

/// Places in a page near each kind of edge: of a word, of a full burst, of the page.
fn places(width: u32, beats: u32) -> Vec<u32> {
    let span = (width * beats).min(PAGE);
    let edges = [0, width, span, PAGE - span, PAGE - width, PAGE];
    let around = |edge: u32| [edge.wrapping_sub(1), edge, edge + 1, edge + width - 1];
    let mut places = edges.map(around).as_flattened().to_vec();
    places.retain(|&place| place < PAGE);
    places.sort_unstable();
    places.dedup();
    places
}

#[test]
fn count_is_the_brute_plans_from_every_edge_to_every_edge() {
    for (width, beats) in all_settings() {
        let places = places(width, beats);
        let lasts = [0, PAGE, 2 * PAGE].map(|page| places.iter().map(move |place| page + place));
        let lasts: Vec<u32> = lasts.into_iter().flatten().collect();
        for &first in &places {
            for last in lasts.iter().filter(|last| **last >= first) {
                // From the first page of all on, and up to the last byte of all.
                for start in [first, first + 0xffff_d000] {
                    let bytes = last - first + 1;
                    let bursts = brute_plan(width, beats, start, bytes).len() as u32;
                    let counted = count(width, beats, start, bytes);
                    assert_eq!(counted, (0, bursts), "{width} {beats} {start} {bytes}");
                }
            }
        }
    }
}

#[test]
fn count_is_the_plans_for_long_transfers() {
    let mut random = Random::new(3, 0);
    let mut room = vec![0; 2 * (LONGEST as usize / 8 + 2)];
    for (width, beats) in all_settings() {
        let places = places(width, beats);
        for round in 0..20 {
            let first = random.pick(&places);
            let last = random.between(1, 2046) * PAGE + random.pick(&places);
            let bytes = if round % 4 == 0 { LONGEST } else { last - first + 1 };
            // From the first page of all on, from any, or from the last that leaves room for it.
            let last_page = (0u32.wrapping_sub(bytes) - first) / PAGE;
            let any_page = random.below(last_page);
            let start = random.pick(&[0, any_page, last_page]) * PAGE + first;
            let planned = plan(width, beats, start, bytes, &mut room);
            assert_eq!(planned.0, answer::DONE);
            let counted = count(width, beats, start, bytes);
            assert_eq!(counted, planned, "{width} {beats} {start} {bytes}");
        }
    }
}
