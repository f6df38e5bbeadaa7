// Tests of the monitor: RULES.md, "Bus clocks", M1 to M3, answers 1 and 13,
// and each flag on and off.

mod common;

use common::{QUIET, VALID};
use independent::answer;
use independent::monitor::{Clock, Monitor};
use shared::random::Random;
use shared::settings::{BEATS, WIDTHS};

fn set(numbers: &[u32]) -> u64 {
    numbers.iter().fold(0, |flags, number| flags | 1 << number)
}

/// A monitor whose clock before was out of reset with valid low.
fn quiet() -> Monitor {
    let mut monitor = Monitor::fresh();
    assert_eq!(monitor.clock(4, 16, &QUIET), 0);
    assert_eq!((monitor.flags, monitor.snapshot), (0, 0));
    monitor
}

/// Flags of one clock after a quiet one, at the width given.
fn flags_at(width: u32, clock: Clock) -> u64 {
    let mut monitor = quiet();
    assert_eq!(monitor.clock(width, 16, &clock), 0);
    assert_eq!(monitor.snapshot, monitor.flags);
    monitor.flags
}

fn flags(clock: Clock) -> u64 {
    flags_at(4, clock)
}

/// Flags of a second clock after a first one that is valid, not ready and clean.
fn changed(first: Clock, second: Clock) -> u64 {
    let mut monitor = quiet();
    assert_eq!(monitor.clock(4, 16, &first), 0);
    assert_eq!(monitor.flags, 0);
    assert_eq!(monitor.clock(4, 16, &second), 0);
    monitor.flags
}

#[test]
fn m1() {
    let clock = Clock { burst: 1, length: 15, size: 2, ..VALID };
    assert_eq!(flags(Clock { address: 0xfc0, ..clock }), 0);
    assert_eq!(flags(Clock { address: 0xfc1, ..clock }), 0);
}

#[test]
fn m2() {
    let clock = Clock { burst: 1, length: 15, size: 2, address: 0xfc4, ..VALID };
    assert_eq!(flags(clock), set(&[37]));
}

#[test]
fn m3() {
    assert_eq!(flags(Clock { length: 15, ..VALID }), 0);
    assert_eq!(flags(Clock { length: 16, ..VALID }), set(&[42]));
}

#[test]
fn flag_37_at_its_edges() {
    let clock = Clock { burst: 1, ..VALID };
    // 256 beats of 16 bytes fill a page, but only from its start.
    let wide = Clock { length: 255, size: 4, ..clock };
    assert_eq!(flags_at(128, wide), 0);
    assert_eq!(flags_at(128, Clock { address: 15, ..wide }), 0);
    assert_eq!(flags_at(128, Clock { address: 16, ..wide }), set(&[37]));
    // At the top of the addresses: reckoned without wrapping.
    assert_eq!(flags(Clock { address: u32::MAX, ..clock }), 0);
    assert_eq!(flags(Clock { address: u32::MAX, length: 1, ..clock }), set(&[37]));
    // Only burst 1 (burst 2 with good settings and burst 0 stay quiet).
    assert_eq!(flags(Clock { address: 0xffe, length: 3, ..VALID }), 0);
    assert_eq!(flags(Clock { address: 0xffe, length: 3, burst: 2, ..VALID }), 0);
    assert_eq!(flags(Clock { address: 0xffe, length: 3, burst: 1, ..VALID }), set(&[37]));
}

#[test]
fn flags_38_39_43() {
    let wrap = Clock { burst: 2, length: 3, size: 2, ..VALID };
    assert_eq!(flags(Clock { address: 8, ..wrap }), 0);
    assert_eq!(flags(Clock { address: 9, ..wrap }), set(&[38]));
    assert_eq!(flags(Clock { address: 9, burst: 1, ..wrap }), 0);
    assert_eq!(flags(Clock { address: 9, burst: 0, ..wrap }), 0);
    assert_eq!(flags(Clock { burst: 3, ..VALID }), set(&[39]));
    assert_eq!(flags(Clock { burst: 3, length: 255, address: 0xfff, ..VALID }), set(&[39]));
    for length in 0..=255 {
        let good = matches!(length, 1 | 3 | 7 | 15);
        let expected = if good { 0 } else { set(&[43]) };
        assert_eq!(flags(Clock { burst: 2, length, ..VALID }), expected);
    }
}

#[test]
fn flag_41_over_all_caches() {
    for cache in 0..16 {
        let up = cache == 4 || cache == 5 || cache == 8 || cache == 9 || cache == 12 || cache == 13;
        let expected = if up { set(&[41]) } else { 0 };
        assert_eq!(flags(Clock { cache, ..VALID }), expected, "{cache}");
    }
}

#[test]
fn flag_42_over_all_lengths() {
    for length in 0..=255 {
        let expected = if length > 15 { set(&[42]) } else { 0 };
        assert_eq!(flags(Clock { length, ..VALID }), expected);
    }
}

#[test]
fn flag_44_over_all_sizes() {
    for width in WIDTHS {
        for size in 0..8 {
            let expected = if 1 << size > width { set(&[44]) } else { 0 };
            assert_eq!(flags_at(width, Clock { size, ..VALID }), expected);
        }
    }
}

#[test]
fn flag_45_and_a_fresh_monitor() {
    let mut monitor = Monitor::fresh();
    assert_eq!(monitor.clock(4, 16, &VALID), 0);
    assert_eq!(monitor.flags, set(&[45]));
    // The next valid clock does not set it, but flags stay.
    assert_eq!(monitor.clock(4, 16, &VALID), 0);
    assert_eq!(monitor.flags, set(&[45]));
    assert_eq!((monitor.count(), monitor.lowest()), (1, 45));
    // Valid high in reset sets nothing; the clock after it does.
    assert_eq!(monitor.clock(4, 16, &Clock { reset_high: false, ..VALID }), 0);
    assert_eq!((monitor.flags, monitor.snapshot), (0, 0));
    assert_eq!((monitor.count(), monitor.lowest()), (0, 0));
    assert_eq!(monitor.clock(4, 16, &Clock { burst: 3, ..VALID }), 0);
    assert_eq!(monitor.flags, set(&[39, 45]));
    assert_eq!(monitor.snapshot, set(&[39, 45]));
    assert_eq!((monitor.count(), monitor.lowest()), (2, 39));
}

#[test]
fn address_flags_need_valid() {
    let bad = Clock { valid: false, burst: 3, cache: 4, size: 7, length: 255, ..VALID };
    assert_eq!(flags(bad), 0);
    assert_eq!(flags(Clock { valid: true, ..bad }), set(&[39, 41, 44]));
}

/// Each field check with the clock that changes that field alone.
fn changes(first: Clock) -> [(u32, Clock); 10] {
    [
        (46, Clock { address: first.address + 1, ..first }),
        (47, Clock { burst: 1, ..first }),
        (48, Clock { cache: 2, ..first }),
        (49, Clock { id: u32::MAX, ..first }),
        (50, Clock { length: 2, ..first }),
        (52, Clock { prot: 7, ..first }),
        (53, Clock { size: 1, ..first }),
        (54, Clock { qos: 15, ..first }),
        (55, Clock { region: 15, ..first }),
        (56, Clock { valid: false, ..first }),
    ]
}

#[test]
fn flags_46_to_56_one_by_one() {
    for (number, second) in changes(VALID) {
        assert_eq!(changed(VALID, second), set(&[number]));
        // Ready now is never compared, and a wait may go on.
        assert_eq!(changed(VALID, Clock { ready: true, ..second }), set(&[number]));
        // Off: the clock before was ready, or not valid, or in reset, or this one is in reset.
        assert_eq!(changed(Clock { ready: true, ..VALID }, second), 0);
        assert_eq!(changed(Clock { valid: false, ..VALID }, second), 0);
        assert_eq!(changed(VALID, Clock { reset_high: false, ..second }), 0);
        let mut monitor = Monitor::fresh();
        assert_eq!(monitor.clock(4, 16, &Clock { reset_high: false, ..VALID }), 0);
        assert_eq!(monitor.clock(4, 16, &second), 0);
        let expected = if second.valid { set(&[45]) } else { 0 };
        assert_eq!(monitor.flags, expected);
    }
    assert_eq!(changed(VALID, VALID), 0);
    assert_eq!(changed(VALID, Clock { ready: true, ..VALID }), 0);
}

#[test]
fn field_checks_hold_when_valid_drops() {
    let second = Clock {
        valid: false,
        address: 3,
        burst: 3,
        cache: 4,
        id: 9,
        length: 255,
        prot: 1,
        size: 7,
        qos: 1,
        region: 1,
        ..QUIET
    };
    assert_eq!(changed(VALID, second), set(&[46, 47, 48, 49, 50, 52, 53, 54, 55, 56]));
}

#[test]
fn flags_stay_and_the_snapshot_is_the_first() {
    let mut monitor = quiet();
    monitor.clock(4, 16, &Clock { burst: 3, ..VALID });
    assert_eq!(monitor.snapshot, set(&[39]));
    monitor.clock(4, 16, &Clock { burst: 3, size: 7, ..VALID });
    assert_eq!(monitor.flags, set(&[39, 44, 53]));
    assert_eq!(monitor.snapshot, set(&[39]));
    monitor.clock(4, 16, &QUIET);
    assert_eq!(monitor.flags, set(&[39, 44, 47, 53, 56]));
    monitor.clock(4, 16, &QUIET);
    assert_eq!(monitor.flags, set(&[39, 44, 47, 53, 56]));
    assert_eq!((monitor.count(), monitor.lowest()), (5, 39));
    assert_eq!(monitor.snapshot, set(&[39]));
    monitor.clock(4, 16, &Clock { reset_high: false, ..QUIET });
    assert_eq!((monitor.flags, monitor.snapshot), (0, 0));
    monitor.clock(4, 16, &QUIET);
    monitor.clock(4, 16, &Clock { size: 3, ..VALID });
    assert_eq!((monitor.flags, monitor.snapshot), (set(&[44]), set(&[44])));
}

#[test]
fn answer_13_for_each_field_and_no_clock_taken() {
    let bad = [
        Clock { length: 256, ..VALID },
        Clock { size: 8, ..VALID },
        Clock { burst: 4, ..VALID },
        Clock { cache: 16, ..VALID },
        Clock { prot: 8, ..VALID },
        Clock { qos: 16, ..VALID },
        Clock { region: 16, ..VALID },
        Clock { size: u32::MAX, ..VALID },
        Clock { length: u32::MAX, ..VALID },
    ];
    for clock in bad {
        for (reset_high, valid) in [(true, true), (true, false), (false, true), (false, false)] {
            let clock = Clock { reset_high, valid, ..clock };
            let mut monitor = quiet();
            monitor.clock(4, 16, &Clock { burst: 3, ..VALID });
            let before = monitor;
            assert_eq!(monitor.clock(4, 16, &clock), answer::FIELD);
            assert_eq!(monitor, before);
            assert_eq!(monitor.clock(5, 16, &clock), answer::SETTINGS);
            assert_eq!(monitor.clock(4, 3, &clock), answer::SETTINGS);
            assert_eq!(monitor, before);
        }
    }
    let edge = Clock {
        length: 255,
        size: 7,
        burst: 3,
        cache: 15,
        prot: 7,
        qos: 15,
        region: 15,
        id: u32::MAX,
        address: u32::MAX,
        ..VALID
    };
    assert_eq!(quiet().clock(4, 16, &edge), 0);
}

#[test]
fn answer_1_over_all_settings() {
    for width in 0..200 {
        for beats in 0..300 {
            let listed = WIDTHS.contains(&width) && BEATS.contains(&beats);
            let expected = if listed { 0 } else { answer::SETTINGS };
            let mut monitor = Monitor::fresh();
            assert_eq!(monitor.clock(width, beats, &VALID), expected);
            if !listed {
                assert_eq!(monitor, Monitor::fresh());
            }
        }
    }
}

#[test]
fn random_clocks_keep_to_the_flags_there_are() {
    let mut random = Random::new(4, 0);
    let mut monitor = Monitor::fresh();
    let there_are = set(&[37, 38, 39, 41, 42, 43, 44, 45, 46, 47, 48, 49, 50, 52, 53, 54, 55, 56]);
    let mut seen = 0;
    for _ in 0..200_000 {
        let clock = Clock {
            reset_high: !random.one_in(20),
            valid: !random.one_in(3),
            ready: random.one_in(2),
            address: random.u32(),
            length: random.below(258),
            size: random.below(9),
            burst: random.below(5),
            cache: random.below(17),
            prot: random.below(9),
            qos: random.below(17),
            region: random.below(17),
            id: random.below(2),
        };
        let width = random.pick(&WIDTHS);
        let before = monitor;
        let answer = monitor.clock(width, 2, &clock);
        assert_eq!(monitor.flags & !there_are, 0);
        assert_eq!(monitor.snapshot & !monitor.flags, 0);
        assert_eq!(monitor.snapshot == 0, monitor.flags == 0);
        match answer {
            0 if clock.reset_high => assert_eq!(before.flags & !monitor.flags, 0),
            0 => assert_eq!((monitor.flags, monitor.snapshot), (0, 0)),
            _ => assert_eq!((answer, monitor), (answer::FIELD, before)),
        }
        seen |= monitor.flags;
    }
    assert_eq!(seen, there_are);
}
