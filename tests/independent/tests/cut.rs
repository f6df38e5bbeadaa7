// Tests of the cutter: RULES.md, "Cutting a transfer", P1 to P8, and answers 1, 7 and 8.
// The plan and its count against the brute plan, over all settings; count.rs has more of the count.

use independent::answer;
use independent::cut::{self, brute_plan, plan, plan_bytes, LONGEST};
use shared::random::Random;
use shared::settings::{BEATS, WIDTHS};

const MARK: u32 = 0xa5a5_5a5a;

/// A plan with ample room, through both forms, with the untouched places checked; and its number
/// of bursts as the count has it.
fn planned(width: u32, beats: u32, start: u32, count: u32) -> Vec<(u32, u32)> {
    let mut probe = vec![MARK; 2 * (count as usize / 2 + 8)];
    let (answer, bursts) = plan(width, beats, start, count, &mut probe);
    assert_eq!(answer, 0);
    assert_eq!(
        cut::count(width, beats, start, count),
        (0, bursts),
        "{width} {beats} {start} {count}"
    );
    let used = 2 * bursts as usize;
    assert!(probe[used..].iter().all(|&place| place == MARK));
    let mut bytes = vec![0x5a; 4 * used + 7];
    assert_eq!(plan_bytes(width, beats, start, count, &mut bytes), (0, bursts));
    let places: Vec<u32> = bytes[..4 * used]
        .chunks_exact(4)
        .map(|four| u32::from_le_bytes(four.try_into().unwrap()))
        .collect();
    assert_eq!(places, probe[..used]);
    assert_eq!(bytes[4 * used..], [0x5a; 7]);
    probe[..used].chunks_exact(2).map(|pair| (pair[0], pair[1])).collect()
}

#[test]
fn p1_to_p5() {
    assert_eq!(planned(4, 16, 0, 1), [(0, 1)]);
    assert_eq!(planned(4, 16, 0, 64), [(0, 64)]);
    assert_eq!(planned(4, 16, 0, 65), [(0, 64), (64, 1)]);
    assert_eq!(planned(4, 16, 3, 64), [(3, 61), (64, 3)]);
    assert_eq!(planned(4, 16, 4088, 16), [(4088, 8), (4096, 8)]);
}

#[test]
fn p6_top_of_the_addresses() {
    assert_eq!(planned(4, 16, u32::MAX, 1), [(u32::MAX, 1)]);
    let mut places = [MARK; 8];
    assert_eq!(plan(4, 16, u32::MAX, 2, &mut places), (answer::PLAN, 0));
    assert_eq!(places, [MARK; 8]);
}

#[test]
fn p7_count_zero() {
    let mut places = [MARK; 8];
    assert_eq!(plan(4, 16, 0, 0, &mut places), (answer::PLAN, 0));
    assert_eq!(places, [MARK; 8]);
}

#[test]
fn p8_pages() {
    assert_eq!(planned(128, 256, 0, 8192), [(0, 4096), (4096, 4096)]);
}

#[test]
fn p3_room() {
    let mut three = [MARK; 3];
    assert_eq!(plan(4, 16, 0, 65, &mut three), (answer::ROOM, 0));
    assert_eq!(three, [MARK; 3]);
    let mut four = [MARK; 4];
    assert_eq!(plan(4, 16, 0, 65, &mut four), (0, 2));
    assert_eq!(four, [0, 64, 64, 1]);
    let mut five = [MARK; 5];
    assert_eq!(plan(4, 16, 0, 65, &mut five), (0, 2));
    assert_eq!(five, [0, 64, 64, 1, MARK]);
    let mut bytes = [9; 15];
    assert_eq!(plan_bytes(4, 16, 0, 65, &mut bytes), (answer::ROOM, 0));
    assert_eq!(bytes, [9; 15]);
    let mut bytes = [9; 19];
    assert_eq!(plan_bytes(4, 16, 0, 65, &mut bytes), (0, 2));
    assert_eq!(bytes, [0, 0, 0, 0, 64, 0, 0, 0, 64, 0, 0, 0, 1, 0, 0, 0, 9, 9, 9]);
}

#[test]
fn answer_1_for_every_setting_off_the_lists() {
    for width in 0..=300 {
        for beats in 0..=600 {
            let listed = WIDTHS.contains(&width) && BEATS.contains(&beats);
            let expected = if listed { (0, 1) } else { (answer::SETTINGS, 0) };
            assert_eq!(plan(width, beats, 0, 1, &mut [0; 2]), expected);
            assert_eq!(plan_bytes(width, beats, 0, 1, &mut [0; 8]), expected);
            assert_eq!(cut::count(width, beats, 0, 1), expected);
            assert_eq!(answer::settings_listed(width, beats), listed);
        }
    }
    assert!(!answer::settings_listed(u32::MAX, 16));
    assert!(!answer::settings_listed(4, 1 << 31));
    assert_eq!(cut::count(u32::MAX, 16, 0, 1), (answer::SETTINGS, 0));
    assert_eq!(cut::count(4, 1 << 31, 0, 1), (answer::SETTINGS, 0));
}

#[test]
fn answer_7_at_its_edges() {
    let mut places = vec![0; 1 << 20];
    assert_eq!(plan(4, 16, 0, LONGEST, &mut places).0, 0);
    assert_eq!(plan(4, 16, 0, LONGEST + 1, &mut places), (answer::PLAN, 0));
    assert_eq!(plan(4, 16, 0, u32::MAX, &mut places), (answer::PLAN, 0));
    let top = u32::MAX - LONGEST + 1;
    assert_eq!(plan(4, 16, top, LONGEST, &mut places).0, 0);
    assert_eq!(plan(4, 16, top + 1, LONGEST, &mut places), (answer::PLAN, 0));
    assert_eq!(plan(4, 16, u32::MAX, u32::MAX, &mut places), (answer::PLAN, 0));
}

#[test]
fn order_1_7_8() {
    assert_eq!(plan(5, 16, 0, 0, &mut []), (answer::SETTINGS, 0));
    assert_eq!(plan(4, 17, 0, 1, &mut []), (answer::SETTINGS, 0));
    assert_eq!(plan(4, 16, 0, 0, &mut []), (answer::PLAN, 0));
    assert_eq!(plan(4, 16, 0, 1, &mut []), (answer::ROOM, 0));
    assert_eq!(plan(4, 16, 0, 1, &mut [0]), (answer::ROOM, 0));
    assert_eq!(plan_bytes(0, 16, 0, 0, &mut []), (answer::SETTINGS, 0));
    assert_eq!(plan_bytes(4, 16, 0, 0, &mut []), (answer::PLAN, 0));
    assert_eq!(plan_bytes(4, 16, 0, 1, &mut [0; 7]), (answer::ROOM, 0));
    assert_eq!(plan_bytes(4, 16, 0, 1, &mut [0; 8]), (0, 1));
}

/// Starts of interest within a page for one width and beats.
fn offsets(width: u32, beats: u32) -> Vec<u32> {
    let chunk = (width * beats).min(4096);
    let mut all = vec![0, 1, 3, 2048, 2049];
    for edge in [width, chunk, 4096 - chunk, 4096 - width, 4096] {
        for offset in [edge.wrapping_sub(1), edge, edge + 1] {
            if offset < 4096 {
                all.push(offset);
            }
        }
    }
    all.sort_unstable();
    all.dedup();
    all
}

#[test]
fn plan_is_brute_plan_at_every_edge() {
    for width in WIDTHS {
        for beats in BEATS {
            let chunk = width * beats;
            let mut counts = vec![1, 2, 3, 4, 5, 4095, 4096, 4097, 8192, 8193];
            for near in [width, chunk.min(9000), (2 * chunk).min(9000)] {
                counts.extend([near - 1, near, near + 1]);
            }
            counts.sort_unstable();
            counts.dedup();
            for base in [0, 4096, 0x7fff_f000, 0xffff_d000, 0xffff_e000, 0xffff_f000] {
                for offset in offsets(width, beats) {
                    let start = base + offset;
                    for &count in &counts {
                        if u64::from(start) + u64::from(count) <= 1 << 32 {
                            assert_eq!(
                                planned(width, beats, start, count),
                                brute_plan(width, beats, start, count),
                                "W={width} L={beats} {start},{count}"
                            );
                        } else {
                            assert_eq!(plan(width, beats, start, count, &mut [0; 9]).0, 7);
                            assert_eq!(cut::count(width, beats, start, count), (7, 0));
                        }
                    }
                    // Up to the very top.
                    if base == 0xffff_e000 || base == 0xffff_f000 {
                        let count = start.wrapping_neg();
                        assert_eq!(
                            planned(width, beats, start, count),
                            brute_plan(width, beats, start, count)
                        );
                    }
                }
            }
        }
    }
}

#[test]
fn plan_is_brute_plan_for_every_small_case() {
    // Every start of a short stretch over a page edge, every count up to a few words.
    for width in [4, 8] {
        for beats in [2, 4] {
            for start in 4096 - 70..4096 + 20 {
                for count in 1..=150 {
                    assert_eq!(
                        planned(width, beats, start, count),
                        brute_plan(width, beats, start, count)
                    );
                }
            }
        }
    }
}

#[test]
fn plan_is_brute_plan_at_random() {
    let mut random = Random::new(1, 0);
    for _ in 0..20_000 {
        let (width, beats) = (random.pick(&WIDTHS), random.pick(&BEATS));
        let count = 1 + random.below(10_000);
        let start = match random.below(3) {
            0 => random.below(20_000),
            1 => u32::MAX - count - random.below(5000) + 1,
            _ => random.u32().min(u32::MAX - count),
        };
        assert_eq!(planned(width, beats, start, count), brute_plan(width, beats, start, count));
    }
}

#[test]
fn long_plans_are_legal_greedy_and_whole() {
    let mut random = Random::new(2, 0);
    let mut places = vec![0; 3 << 20];
    for width in WIDTHS {
        for beats in BEATS {
            for round in 0..3 {
                let count = if round == 0 { LONGEST } else { LONGEST - random.below(5000) };
                let start = random.u32().min(u32::MAX - LONGEST);
                let (answer, bursts) = plan(width, beats, start, count, &mut places);
                assert_eq!(answer, 0);
                let (w, l) = (u64::from(width), u64::from(beats));
                let legal = |a: u64, b: u64| a / 4096 == (b - 1) / 4096 && (b - 1) / w - a / w < l;
                let end = u64::from(start) + u64::from(count);
                let mut at = u64::from(start);
                for pair in places[..2 * bursts as usize].chunks_exact(2) {
                    let to = at + u64::from(pair[1]);
                    assert_eq!(u64::from(pair[0]), at);
                    assert!(at < to && to <= end && legal(at, to));
                    assert!(to == end || !legal(at, to + 1));
                    at = to;
                }
                assert_eq!(at, end);
                // Room to the place: one place fewer is refused, nothing written.
                let used = 2 * bursts as usize;
                let mut room = vec![MARK; used - 1];
                assert_eq!(plan(width, beats, start, count, &mut room), (answer::ROOM, 0));
                assert!(room.iter().all(|&place| place == MARK));
                room.push(MARK);
                assert_eq!(plan(width, beats, start, count, &mut room), (0, bursts));
            }
        }
    }
}
