// Tests of the memory's answers: RULES.md, "Memory that answers badly".
// The interval judgement against one byte by byte.

use independent::memory::{good_bytes, verdict, Verdict, Window};
use shared::random::Random;

/// The rule as it stands, a byte at a time.
fn byte_by_byte(length: usize, windows: &[Window], start: u32, count: u32) -> Verdict {
    let mut worst = Verdict::Okay;
    for at in u64::from(start)..u64::from(start) + u64::from(count) {
        let byte = if at >= length as u64 {
            Verdict::Decode
        } else if windows
            .iter()
            .any(|&(s, l)| u64::from(s) <= at && at < u64::from(s) + u64::from(l))
        {
            Verdict::Slave
        } else {
            Verdict::Okay
        };
        worst = match (worst, byte) {
            (Verdict::Decode, _) | (_, Verdict::Decode) => Verdict::Decode,
            (Verdict::Slave, _) | (_, Verdict::Slave) => Verdict::Slave,
            _ => Verdict::Okay,
        };
    }
    worst
}

#[test]
fn edges() {
    assert_eq!(verdict(100, &[], [0], 100), Verdict::Okay);
    assert_eq!(verdict(100, &[], [0], 101), Verdict::Decode);
    assert_eq!(verdict(100, &[], [100], 1), Verdict::Decode);
    assert_eq!(verdict(0, &[], [0], 1), Verdict::Decode);
    assert_eq!(verdict(100, &[], [u32::MAX], 8), Verdict::Decode);
    assert_eq!(verdict(100, &[(10, 5)], [5], 5), Verdict::Okay);
    assert_eq!(verdict(100, &[(10, 5)], [5], 6), Verdict::Slave);
    assert_eq!(verdict(100, &[(10, 5)], [14], 1), Verdict::Slave);
    assert_eq!(verdict(100, &[(10, 5)], [15], 1), Verdict::Okay);
    // An empty window holds no byte, also in the midst of a group.
    assert_eq!(verdict(100, &[(10, 0)], [5], 10), Verdict::Okay);
    // Past the end and inside a window: decode error.
    assert_eq!(verdict(100, &[(90, 50)], [95], 10), Verdict::Decode);
    assert_eq!(verdict(100, &[(90, 50)], [95], 5), Verdict::Slave);
    // No wrapping at 2^32.
    assert_eq!(verdict(100, &[(u32::MAX, 50)], [0], 10), Verdict::Okay);
    assert_eq!(verdict(100, &[(1, u32::MAX)], [99], 1), Verdict::Slave);
    assert_eq!(verdict(100, &[(1, u32::MAX)], [0], 1), Verdict::Okay);
    // Overlapping windows, and a group of no bytes.
    assert_eq!(verdict(100, &[(5, 10), (7, 20)], [26], 1), Verdict::Slave);
    assert_eq!(verdict(100, &[(5, 10)], [7], 0), Verdict::Okay);
    assert_eq!(verdict(100, &[], [500], 0), Verdict::Okay);
}

/// Memory, windows, two starts and a count, at the edges of each other and of 2^32.
fn some_groups(random: &mut Random) -> (usize, Vec<Window>, [u32; 2], u32) {
    let length = random.below(80) as usize;
    let windows = (0..random.below(4)).map(|_| {
        let start = if random.one_in(8) { u32::MAX - random.below(4) } else { random.below(90) };
        let size = if random.one_in(8) { u32::MAX - random.below(90) } else { random.below(12) };
        (start, size)
    });
    let windows = windows.collect();
    let starts =
        [(); 2].map(
            |()| {
                if random.one_in(8) {
                    u32::MAX - random.below(20)
                } else {
                    random.below(90)
                }
            },
        );
    (length, windows, starts, random.below(40))
}

#[test]
fn intervals_are_byte_by_byte() {
    let mut random = Random::new(3, 0);
    for _ in 0..200_000 {
        let (length, windows, starts, count) = some_groups(&mut random);
        let each = starts.map(|start| byte_by_byte(length, &windows, start, count));
        let told = format!("{length} {windows:?} {starts:?},{count}");
        assert_eq!(verdict(length, &windows, [starts[0]], count), each[0], "{told}");
        let both = match each {
            [Verdict::Decode, _] | [_, Verdict::Decode] => Verdict::Decode,
            [Verdict::Slave, _] | [_, Verdict::Slave] => Verdict::Slave,
            _ => Verdict::Okay,
        };
        assert_eq!(verdict(length, &windows, starts, count), both, "{told}");
    }
}

#[test]
fn good_bytes_end_at_the_first_that_is_not() {
    let mut random = Random::new(4, 0);
    for _ in 0..200_000 {
        let (length, windows, [start, _], most) = some_groups(&mut random);
        let good = |bytes: &u32| byte_by_byte(length, &windows, start, *bytes) == Verdict::Okay;
        let expected = (0..=most).rev().find(good).unwrap();
        let told = format!("{length} {windows:?} {start},{most}");
        assert_eq!(good_bytes(length, &windows, start, most), expected, "{told}");
    }
}
