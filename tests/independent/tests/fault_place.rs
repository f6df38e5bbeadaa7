// Tests of where a fault was: RULES.md, "Memory that answers badly" and "Descriptor and steps". The
// lowest byte that gave the winning kind, the source's before the destination's, with sides
// incrementing and fixed, in both modes; and what a library caller gets for a group of bytes.
// Worked out by hand from the rules, and then random groups byte by byte.

mod common;

use common::{descriptor, put, some_engine, some_memory, some_windows, Trace};
use independent::engine::{Engine, Event, Phase, Transfer};
use independent::memory::{judge, lowest, Judged, Side, Verdict, Window};
use independent::record::Record;
use independent::trace::{replay, replay_before, Observer, Replay};
use shared::random::Random;
use shared::registers::{BTT, CDMACR, CDMASR, CHAIN, CURDESC, DA, SA, TAILDESC};

// Bits of CDMACR.
const READ: u32 = 1 << 4;
const WRITE: u32 = 1 << 5;
const BOTH: u32 = READ | WRITE;

// Bits of CDMASR.
const SLAVE: u32 = 5;
const DECODE: u32 = 6;

// Verdicts as a library caller gets them.
const OKAY_VERDICT: u32 = 0;
const SLAVE_VERDICT: u32 = 1;
const DECODE_VERDICT: u32 = 2;

fn moved(start: u32, bytes: u32) -> Event {
    Event::Move { start, bytes }
}

fn fault(place: u32, bit: u32) -> Event {
    Event::Fault { place, bit }
}

fn idle(settings: (u32, u32), control: u32) -> Engine {
    let mut engine = Engine::fresh(settings.0, settings.1);
    assert_eq!(engine.write(CDMACR, control), 0);
    engine
}

/// All events until idle, one by one and as one run.
fn finish(engine: &mut Engine, memory: &mut [u8], windows: &[Window]) -> Vec<Event> {
    let (mut ran, mut lent) = (engine.clone(), memory.to_vec());
    let mut events = Vec::new();
    while engine.phase != Phase::Idle {
        let (answer, event) = engine.step(memory, windows);
        assert_eq!(answer, 0);
        events.push(event);
    }
    let steps = events.len() as u16;
    assert_eq!(ran.run_events(&mut lent, windows, u16::MAX), (0, steps, events.clone()));
    assert_eq!(ran, *engine);
    assert!(lent == memory, "a run leaves the memory of its steps");
    events
}

/// The moves of a transfer up to its fault or its end, in simple mode and in chain mode, which must
/// be the same. The memory has room for the descriptor, at 0, and no window is over it.
fn moves(
    settings: (u32, u32),
    control: u32,
    (source, destination, count): (u32, u32, u32),
    length: usize,
    windows: &[Window],
) -> Vec<Event> {
    let mut memory = vec![0; length];
    let mut engine = idle(settings, control);
    assert_eq!(engine.write(SA, source), 0);
    assert_eq!(engine.write(DA, destination), 0);
    assert_eq!(engine.write(BTT, count), 0);
    let alone = finish(&mut engine, &mut memory, windows);
    put(&mut memory, 0, &descriptor(64, source, destination, count, 0));
    let mut engine = idle(settings, CHAIN | control);
    assert_eq!(engine.write(CURDESC, 0), 0);
    assert_eq!(engine.write(TAILDESC, 0), 0);
    let chained = finish(&mut engine, &mut memory, windows);
    let [first, between @ .., last] = &chained[..] else { panic!("{chained:?}") };
    assert_eq!(*first, Event::Fetch { current: 0 });
    assert!(matches!(last, Event::Update { current: 0, .. }), "{last:?}");
    assert_eq!(between, alone, "both modes");
    if let [.., Event::Fault { bit, .. }] = alone[..] {
        assert_eq!(engine.read(CDMASR), (0, 0x0001_400a | 1 << bit));
        assert_eq!(*last, Event::Update { current: 0, word: 1 << (24 + bit) });
    }
    alone
}

/// The same for both sides incrementing, W=4, L=16 and 512 bytes of memory.
fn plain(transfer: (u32, u32, u32), windows: &[Window]) -> Vec<Event> {
    moves((4, 16), 0, transfer, 512, windows)
}

// ---- Both sides incrementing ----

#[test]
fn the_sick_byte_of_either_side() {
    for sick in 256..272 {
        assert_eq!(plain((256, 384, 16), &[(sick, 1)]), [fault(sick, SLAVE)]);
        assert_eq!(plain((384, 256, 16), &[(sick, 1)]), [fault(sick, SLAVE)]);
    }
    // One before and one behind are nothing to it.
    assert_eq!(plain((256, 384, 16), &[(255, 1), (272, 1)]), [moved(384, 16)]);
    // The lowest of several, in any order of the windows.
    assert_eq!(plain((256, 384, 16), &[(270, 1), (260, 2), (265, 1)]), [fault(260, SLAVE)]);
    assert_eq!(plain((384, 256, 16), &[(265, 1), (270, 1), (260, 2)]), [fault(260, SLAVE)]);
}

#[test]
fn both_sides_sick_is_the_source() {
    let low = (258, 1);
    let high = (390, 2);
    for windows in [[low, high], [high, low]] {
        assert_eq!(plain((256, 384, 16), &windows), [fault(258, SLAVE)]);
        // The destination's place is lower.
        assert_eq!(plain((384, 256, 16), &windows), [fault(390, SLAVE)]);
    }
    // One window over both: each side's own first byte.
    assert_eq!(plain((256, 384, 16), &[(200, 300)]), [fault(256, SLAVE)]);
    assert_eq!(plain((384, 256, 16), &[(200, 300)]), [fault(384, SLAVE)]);
    // Sides that overlap: 256 to 271 and 264 to 279.
    for (sick, place) in [(256, 256), (265, 265), (271, 271), (272, 272), (279, 279)] {
        assert_eq!(plain((256, 264, 16), &[(sick, 1)]), [fault(place, SLAVE)]);
        assert_eq!(plain((264, 256, 16), &[(sick, 1)]), [fault(place, SLAVE)]);
    }
    // From 264 on the source's own first byte is 264.
    assert_eq!(plain((264, 256, 16), &[(256, 16)]), [fault(264, SLAVE)]);
    assert_eq!(plain((256, 264, 16), &[(256, 16)]), [fault(256, SLAVE)]);
}

#[test]
fn the_first_byte_at_or_past_the_end() {
    // The memory's end in the midst of a side, at its start, and before it.
    for start in 497..=512 {
        assert_eq!(plain((start, 256, 16), &[]), [fault(512, DECODE)]);
    }
    for start in [513, 600, 40_000, 0x8000_0000, u32::MAX - 16, u32::MAX] {
        assert_eq!(plain((start, 256, 16), &[]), [fault(start, DECODE)]);
        assert_eq!(plain((256, start, 16), &[]), [fault(start, DECODE)]);
    }
    for start in 500..=512 {
        assert_eq!(plain((256, start, 16), &[]), [fault(512, DECODE)]);
    }
    assert_eq!(plain((496, 256, 16), &[]), [moved(256, 16)]);
    assert_eq!(plain((256, 496, 16), &[]), [moved(496, 16)]);
}

#[test]
fn both_sides_past_the_end_is_the_source() {
    for (source, destination, place) in [
        (600, 700, 600),
        // The destination's place is lower.
        (700, 600, 700),
        (600, 504, 600),
        (504, 600, 512),
        (504, 508, 512),
        (u32::MAX, 512, u32::MAX),
    ] {
        assert_eq!(plain((source, destination, 16), &[]), [fault(place, DECODE)]);
    }
}

/// Decode wins, and a lower sick byte is not named, whichever side it is of.
#[test]
fn decode_beside_a_lower_sick_byte() {
    // Of the same side.
    assert_eq!(plain((504, 256, 16), &[(505, 1)]), [fault(512, DECODE)]);
    assert_eq!(plain((256, 504, 16), &[(505, 1)]), [fault(512, DECODE)]);
    // A sick source and a destination past the end: the source does not give the winning kind.
    assert_eq!(plain((256, 504, 16), &[(260, 1)]), [fault(512, DECODE)]);
    assert_eq!(plain((256, 700, 16), &[(260, 1)]), [fault(700, DECODE)]);
    // And the other way round.
    assert_eq!(plain((504, 256, 16), &[(260, 1)]), [fault(512, DECODE)]);
    assert_eq!(plain((700, 256, 16), &[(256, 16)]), [fault(700, DECODE)]);
    // A window over the byte past the end changes nothing.
    assert_eq!(plain((504, 256, 16), &[(505, 10)]), [fault(512, DECODE)]);
    assert_eq!(plain((504, 256, 16), &[(513, 1)]), [fault(512, DECODE)]);
}

#[test]
fn windows_that_overlap_touch_or_are_empty() {
    // The first by number starts higher.
    assert_eq!(plain((256, 384, 16), &[(262, 8), (258, 20)]), [fault(258, SLAVE)]);
    assert_eq!(plain((256, 384, 16), &[(258, 20), (262, 8)]), [fault(258, SLAVE)]);
    // One in the other, and two that touch.
    assert_eq!(plain((256, 384, 16), &[(260, 2), (250, 100)]), [fault(256, SLAVE)]);
    assert_eq!(plain((256, 384, 16), &[(264, 4), (260, 4)]), [fault(260, SLAVE)]);
    // Empty ones hold nothing, be they below, in the midst or the only ones.
    let empty = [(256, 0), (258, 0), (262, 1), (259, 0)];
    assert_eq!(plain((256, 384, 16), &empty), [fault(262, SLAVE)]);
    assert_eq!(plain((256, 384, 16), &empty[..2]), [moved(384, 16)]);
    assert_eq!(plain((256, 384, 16), &[(0, 0), (u32::MAX, 0)]), [moved(384, 16)]);
}

#[test]
fn windows_that_start_before_the_group_or_end_behind_the_memory() {
    assert_eq!(plain((256, 384, 16), &[(200, 57)]), [fault(256, SLAVE)]);
    assert_eq!(plain((256, 384, 16), &[(200, 56)]), [moved(384, 16)]);
    assert_eq!(plain((256, 384, 16), &[(383, 2)]), [fault(384, SLAVE)]);
    for length in [13, 100, u32::MAX - 500, u32::MAX] {
        assert_eq!(plain((496, 256, 16), &[(500, length)]), [fault(500, SLAVE)]);
        assert_eq!(plain((500, 256, 8), &[(500, length)]), [fault(500, SLAVE)]);
        assert_eq!(plain((497, 256, 16), &[(500, length)]), [fault(512, DECODE)]);
    }
    // A window does not wrap at 2^32 into the memory.
    assert_eq!(plain((256, 384, 16), &[(u32::MAX, u32::MAX)]), [moved(384, 16)]);
}

/// It is the byte of the burst that failed, not of the transfer: earlier bursts were good.
#[test]
fn a_later_burst() {
    assert_eq!(plain((256, 384, 100), &[(330, 1)]), [moved(384, 64), fault(330, SLAVE)]);
    assert_eq!(plain((256, 384, 100), &[(319, 1)]), [fault(319, SLAVE)]);
    // An unaligned destination: 61 bytes and then the others.
    assert_eq!(plain((256, 387, 100), &[(316, 1)]), [fault(316, SLAVE)]);
    assert_eq!(plain((256, 387, 100), &[(317, 1)]), [moved(387, 61), fault(317, SLAVE)]);
    assert_eq!(plain((256, 387, 100), &[(449, 9)]), [moved(387, 61), fault(449, SLAVE)]);
    // The end of memory in the second burst, on either side.
    assert_eq!(plain((420, 128, 100), &[]), [moved(128, 64), fault(512, DECODE)]);
    assert_eq!(plain((128, 424, 100), &[]), [moved(424, 64), fault(512, DECODE)]);
    // Both sides of the second burst: the source's, 340, and not 460 or the first burst's.
    let windows = [(460, 1), (340, 1)];
    assert_eq!(plain((256, 384, 100), &windows), [moved(384, 64), fault(340, SLAVE)]);
    let windows = [(140, 1), (470, 1)];
    assert_eq!(plain((384, 64, 100), &windows), [moved(64, 64), fault(470, SLAVE)]);
    // Bytes of a burst to come are not looked at.
    assert_eq!(plain((256, 384, 100), &[(470, 1), (300, 1)]), [fault(300, SLAVE)]);
    assert_eq!(plain((256, 384, 100), &[(350, 1), (400, 1)]), [fault(400, SLAVE)]);
}

#[test]
fn a_burst_of_a_whole_page() {
    let run = |windows: &[Window]| moves((128, 256), 0, (4096, 8192, 4096), 12_288, windows);
    assert_eq!(run(&[]), [moved(8192, 4096)]);
    assert_eq!(run(&[(8191, 1)]), [fault(8191, SLAVE)]);
    assert_eq!(run(&[(12_287, 1)]), [fault(12_287, SLAVE)]);
    assert_eq!(run(&[(12_287, 1), (8191, 1)]), [fault(8191, SLAVE)]);
    assert_eq!(
        moves((128, 256), 0, (4096, 8192, 4096), 12_287, &[(8191, 1)]),
        [fault(12_287, DECODE)]
    );
}

/// Each step judges what it is lent, and so does its place.
#[test]
fn windows_and_memory_that_change_between_steps() {
    let mut memory = vec![0; 512];
    let start = {
        let mut engine = idle((4, 2), 0);
        engine.write(SA, 256);
        engine.write(DA, 384);
        engine.write(BTT, 32);
        assert_eq!(engine.step(&mut memory, &[(264, 1)]), (0, moved(384, 8)));
        engine
    };
    let step = |memory: &mut [u8], windows: &[Window]| start.clone().step(memory, windows).1;
    assert_eq!(step(&mut memory, &[(264, 1)]), fault(264, SLAVE));
    assert_eq!(step(&mut memory, &[(266, 1), (393, 1)]), fault(266, SLAVE));
    assert_eq!(step(&mut memory, &[(393, 1), (392, 0)]), fault(393, SLAVE));
    assert_eq!(step(&mut memory[..395], &[(393, 1)]), fault(395, DECODE));
    assert_eq!(step(&mut memory[..270], &[(265, 1)]), fault(270, DECODE));
    assert_eq!(step(&mut [], &[]), fault(264, DECODE));
}

// ---- Fixed sides ----

#[test]
fn a_fixed_source() {
    let run = |windows: &[Window]| moves((4, 16), READ, (256, 384, 32), 512, windows);
    for sick in 256..260 {
        assert_eq!(run(&[(sick, 1)]), [fault(sick, SLAVE)]);
    }
    // Bytes behind the word are not of the group; the destination's are.
    assert_eq!(run(&[(260, 28)]), [moved(384, 32)]);
    assert_eq!(run(&[(200, 56), (410, 1)]), [fault(410, SLAVE)]);
    // Both: the source's.
    assert_eq!(run(&[(384, 1), (259, 1)]), [fault(259, SLAVE)]);
    let below = |windows: &[Window]| moves((4, 16), READ, (384, 256, 32), 512, windows);
    assert_eq!(below(&[(256, 1), (387, 9)]), [fault(387, SLAVE)]);
    // The memory's end in the word, or in the destination.
    for length in 496..500 {
        let all = moves((4, 16), READ, (496, 256, 32), length, &[(496, 1)]);
        assert_eq!(all, [fault(length as u32, DECODE)]);
    }
    let all = moves((4, 16), READ, (256, 384, 32), 400, &[(256, 4)]);
    assert_eq!(all, [fault(400, DECODE)]);
}

#[test]
fn a_fixed_destination() {
    let run = |windows: &[Window]| moves((4, 16), WRITE, (256, 384, 68), 512, windows);
    for sick in 384..388 {
        assert_eq!(run(&[(sick, 1)]), [fault(sick, SLAVE)]);
    }
    assert_eq!(run(&[(388, 100), (320, 0)]), [moved(384, 64), moved(384, 4)]);
    assert_eq!(run(&[(300, 1)]), [fault(300, SLAVE)]);
    assert_eq!(run(&[(321, 1)]), [moved(384, 64), fault(321, SLAVE)]);
    // Both: the source's, also below the destination's word.
    assert_eq!(run(&[(386, 1), (300, 1)]), [fault(300, SLAVE)]);
    let below = |windows: &[Window]| moves((4, 16), WRITE, (384, 256, 64), 512, windows);
    assert_eq!(below(&[(257, 1), (390, 1)]), [fault(390, SLAVE)]);
    assert_eq!(below(&[(257, 1)]), [fault(257, SLAVE)]);
    // A source in the midst of which the memory ends, beside a queue past it: 500 and not 508.
    let all = moves((4, 16), WRITE, (480, 508, 32), 500, &[(480, 4)]);
    assert_eq!(all, [fault(500, DECODE)]);
    let all = moves((4, 16), WRITE, (256, 508, 32), 500, &[(256, 4)]);
    assert_eq!(all, [fault(508, DECODE)]);
    for length in 508..512 {
        let all = moves((4, 16), WRITE, (256, 508, 32), length, &[]);
        assert_eq!(all, [fault(length as u32, DECODE)]);
    }
}

#[test]
fn both_sides_fixed() {
    let run = |windows: &[Window]| moves((8, 2), BOTH, (256, 384, 24), 512, windows);
    assert_eq!(run(&[(264, 120), (392, 9)]), [moved(384, 16), moved(384, 8)]);
    for sick in 256..264 {
        assert_eq!(run(&[(sick, 1)]), [fault(sick, SLAVE)]);
        assert_eq!(run(&[(384, 8), (sick, 1)]), [fault(sick, SLAVE)]);
    }
    assert_eq!(run(&[(391, 1), (388, 1)]), [fault(388, SLAVE)]);
    let below = |windows: &[Window]| moves((8, 2), BOTH, (384, 256, 24), 512, windows);
    assert_eq!(below(&[(256, 8), (391, 1)]), [fault(391, SLAVE)]);
    assert_eq!(moves((8, 2), BOTH, (384, 256, 24), 388, &[(384, 4)]), [fault(388, DECODE)]);
    assert_eq!(moves((8, 2), BOTH, (256, 384, 24), 388, &[(256, 4)]), [fault(388, DECODE)]);
    assert_eq!(moves((8, 2), BOTH, (640, 520, 24), 512, &[]), [fault(640, DECODE)]);
}

/// A destination just below a page's end: two bytes go first, and the next burst goes through the
/// word as 2, 3, 0, 1. The lowest address counts, not the first in this order.
#[test]
fn a_fixed_source_in_wrapped_order() {
    let mut memory = vec![0; 8192];
    let mut start = idle((4, 16), READ);
    start.write(SA, 256);
    start.write(DA, 4094);
    start.write(BTT, 16);
    assert_eq!(start.step(&mut memory, &[]), (0, moved(4094, 2)));
    let step = |memory: &mut [u8], windows: &[Window]| start.clone().step(memory, windows).1;
    for (windows, place) in [
        (vec![(256, 4)], 256),
        (vec![(259, 1), (256, 1)], 256),
        (vec![(258, 1), (257, 1)], 257),
        (vec![(258, 2)], 258),
        (vec![(259, 1)], 259),
        (vec![(257, 2)], 257),
        // The burst has 14 bytes, to 4096 and on.
        (vec![(4109, 1)], 4109),
        (vec![(4096, 1), (257, 1)], 257),
    ] {
        assert_eq!(step(&mut memory, &windows), fault(place, SLAVE), "{windows:?}");
    }
    // Less memory: bytes 1 to 3 of the word are past its end, and 2 comes first.
    for length in 0..=259 {
        let place = fault((length as u32).max(256), DECODE);
        assert_eq!(step(&mut memory[..length], &[]), place);
    }
    assert_eq!(step(&mut memory[..260], &[(256, 4)]), fault(4096, DECODE));
    assert_eq!(step(&mut memory[..4100], &[(256, 4)]), fault(4100, DECODE));
}

/// Moving states that no trace reaches, with either side in wrapped order.
#[test]
fn wrapped_order_off_the_multiples() {
    let step = |control, transfer, length, windows: &[Window]| {
        let phase = Phase::Move(transfer);
        let mut engine = Engine { phase, ..idle((8, 16), control) };
        let (answer, event) = engine.step(&mut vec![0; length], windows);
        assert_eq!(answer, 0);
        event
    };
    // Bytes 6 to 9 of a word at 66: 72, 73, 66, 67.
    let source = Transfer { source: 66, destination: 200, total: 10, moved: 6 };
    let destination = Transfer { source: 200, destination: 66, total: 10, moved: 6 };
    let both = Transfer { source: 66, destination: 66, total: 10, moved: 6 };
    for (control, transfer) in [(READ, source), (WRITE, destination), (BOTH, both)] {
        assert_eq!(step(control, transfer, 256, &[(60, 20)]), fault(66, SLAVE));
        assert_eq!(step(control, transfer, 256, &[(72, 1), (67, 1)]), fault(67, SLAVE));
        assert_eq!(step(control, transfer, 256, &[(73, 1), (68, 5)]), fault(72, SLAVE));
        assert_eq!(step(control, transfer, 256, &[(73, 1), (68, 4)]), fault(73, SLAVE));
    }
    assert_eq!(step(READ, source, 73, &[(66, 1)]), fault(73, DECODE));
    assert_eq!(step(READ, source, 67, &[(66, 1)]), fault(67, DECODE));
    assert_eq!(step(READ, source, 0, &[]), fault(66, DECODE));
    // Past the last address there is no byte to name, but one below it is always used.
    let top = Transfer { source: u32::MAX - 2, destination: u32::MAX - 9, total: 10, moved: 2 };
    assert_eq!(step(READ, top, 256, &[]), fault(u32::MAX - 2, DECODE));
    assert_eq!(step(WRITE, top, 256, &[]), fault(u32::MAX, DECODE));
    assert_eq!(step(0, top, 256, &[]), fault(u32::MAX, DECODE));
}

// ---- Through a trace ----

/// Looks at each step, so that the replay takes them one by one.
struct Looker;

impl Observer for Looker {
    fn carried_out(&mut self, _: &Replay, _: &Record<&[u8]>) {}
}

/// Checks a sound listing, with its steps as one run and one by one.
fn lists(trace: &Trace, expected: &str) {
    let (mut alone, mut watched) = (Vec::new(), Vec::new());
    assert!(replay(&trace.0, &mut alone));
    assert!(replay_before(&trace.0, &mut watched, &mut Looker));
    let expected = format!("seq event first second\n{expected}");
    assert_eq!(String::from_utf8(alone).unwrap(), expected);
    assert_eq!(String::from_utf8(watched).unwrap(), expected);
}

#[test]
fn a_trace_in_simple_mode() {
    let trace = Trace::new()
        .cf(0, 4, 16)
        .sw(1, 1030, 1)
        .sw(2, 1028, 4)
        .wr(3, 24, 1024)
        .wr(4, 32, 512)
        .wr(5, 40, 65)
        .st(6, 9)
        .wr(7, 0, 4)
        .wr(8, 24, 32_760)
        .wr(9, 32, 1029)
        .wr(10, 40, 9)
        .st(11, 9);
    lists(
        &trace,
        "0 set 4 16\n1 window 1030 1\n2 window 1028 4\n3 write 24 0\n4 write 32 0\n5 write 40 0\n\
         6 fault 1028 5\n6 stop 1 1\n7 write 0 0\n8 write 24 0\n9 write 32 0\n10 write 40 0\n\
         11 fault 32768 6\n11 stop 1 1\n",
    );
}

/// The halt of a fetch or an update names the descriptor and not the byte.
#[test]
fn a_trace_of_a_chain_and_its_halts() {
    let trace = Trace::new()
        .cf(0, 4, 16)
        .mm(1, 64, &descriptor(128, 1024, 2048, 4, 0))
        .mm(2, 128, &descriptor(192, 1024, 3001, 64, 0))
        .sw(3, 3064, 5)
        .wr(4, 0, 8)
        .wr(5, 8, 64)
        .wr(6, 16, 128)
        .st(7, 20)
        .wr(8, 0, 4)
        .wr(9, 0, 8)
        .sw(10, 287, 1)
        .wr(11, 8, 256)
        .wr(12, 16, 256)
        .st(13, 9)
        .wr(14, 0, 4)
        .mm(15, 64, &descriptor(128, 1024, 2048, 4, 0))
        .wr(16, 0, 8)
        .wr(17, 8, 64)
        .wr(18, 16, 64)
        .st(19, 2)
        .sw(20, 95, 1)
        .st(21, 9);
    lists(
        &trace,
        "0 set 4 16\n1 memory 64 32\n2 memory 128 32\n3 window 3064 5\n4 write 0 0\n5 write 8 0\n\
         6 write 16 0\n7 fetch 64 0\n7 move 2048 4\n7 update 64 2147483648\n7 fetch 128 0\n\
         7 move 3001 63\n7 fault 3064 5\n7 update 128 536870912\n7 stop 7 1\n8 write 0 0\n\
         9 write 0 0\n10 window 287 1\n11 write 8 0\n12 write 16 0\n13 halt 256 9\n13 stop 1 1\n\
         14 write 0 0\n15 memory 64 32\n16 write 0 0\n17 write 8 0\n18 write 16 0\n19 fetch 64 0\n\
         19 move 2048 4\n19 stop 2 0\n20 window 95 1\n21 halt 64 9\n21 stop 1 1\n",
    );
}

/// Windows set between the bursts of a fixed source in wrapped order.
#[test]
fn a_trace_in_wrapped_order() {
    let trace = Trace::new()
        .cf(0, 4, 16)
        .wr(1, 0, READ)
        .wr(2, 24, 256)
        .wr(3, 32, 4094)
        .wr(4, 40, 16)
        .st(5, 1)
        .sw(6, 259, 1)
        .sw(7, 256, 2)
        .st(8, 9);
    lists(
        &trace,
        "0 set 4 16\n1 write 0 0\n2 write 24 0\n3 write 32 0\n4 write 40 0\n5 move 4094 2\n\
         5 stop 1 0\n6 window 259 1\n7 window 256 2\n8 fault 256 5\n8 stop 1 1\n",
    );
}

#[test]
fn a_trace_of_two_engines() {
    let trace = Trace::new()
        .c2(0, 4, 16)
        .sw(1, 520, 1)
        .wr_of(2, 1, 24, 256)
        .wr_of(3, 1, 32, 512)
        .wr_of(4, 1, 40, 16)
        .wr_of(5, 2, 24, 32_764)
        .wr_of(6, 2, 32, 516)
        .wr_of(7, 2, 40, 16)
        .st_of(8, 1, 1)
        .st_of(9, 2, 1);
    lists(
        &trace,
        "0 set 4 16\n1 window 520 1\n2 write 24 0\n3 write 32 0\n4 write 40 0\n5 write 24 0\n\
         6 write 32 0\n7 write 40 0\n8 fault 520 5\n8 stop 1 1\n9 fault 32768 6\n9 stop 1 1\n",
    );
}

// ---- What a library caller gets ----

fn refused(answer: u32) -> Judged {
    Judged { answer, verdict: 0, place: 0, window: 0 }
}

fn okay() -> Judged {
    Judged { answer: 0, verdict: OKAY_VERDICT, place: 0, window: 0 }
}

fn sick(place: u32, window: u32) -> Judged {
    Judged { answer: 0, verdict: SLAVE_VERDICT, place, window }
}

fn past_the_end(place: u32) -> Judged {
    Judged { answer: 0, verdict: DECODE_VERDICT, place, window: 0 }
}

#[test]
fn judged_windows() {
    let judged = |windows: &[u32]| judge(512, windows, 256, 16);
    assert_eq!(judged(&[]), okay());
    assert_eq!(judged(&[260, 1]), sick(260, 0));
    assert_eq!(judged(&[256, 1]), sick(256, 0));
    assert_eq!(judged(&[271, 1]), sick(271, 0));
    assert_eq!(judged(&[272, 1, 255, 1]), okay());
    assert_eq!(judged(&[270, 1, 260, 2, 265, 1]), sick(260, 1));
    // Overlapping: the first by number that holds the lowest byte, not the one that starts first.
    assert_eq!(judged(&[262, 8, 258, 20]), sick(258, 1));
    assert_eq!(judged(&[262, 8, 258, 20, 258, 1]), sick(258, 1));
    assert_eq!(judged(&[260, 8, 200, 100]), sick(256, 1));
    assert_eq!(judged(&[250, 20, 200, 100]), sick(256, 0));
    assert_eq!(judged(&[300, 1, 250, 20, 200, 100]), sick(256, 1));
    assert_eq!(judged(&[262, 8, 262, 8]), sick(262, 0));
    assert_eq!(judged(&[270, 9, 262, 1, 261, 9]), sick(261, 2));
    // Empty ones hold nothing but have a number.
    assert_eq!(judged(&[256, 0, 258, 0, 260, 1]), sick(260, 2));
    assert_eq!(judged(&[256, 0, 271, 0]), okay());
    // Windows that start before it, and those that end behind the memory.
    assert_eq!(judged(&[0, 256]), okay());
    assert_eq!(judged(&[0, 257]), sick(256, 0));
    assert_eq!(judged(&[0, u32::MAX]), sick(256, 0));
    assert_eq!(judged(&[264, u32::MAX]), sick(264, 0));
    assert_eq!(judged(&[u32::MAX, u32::MAX]), okay());
    assert_eq!(judged(&[1, u32::MAX]), sick(256, 0));
    assert_eq!(judge(512, &[1, u32::MAX], 0, 1), okay());
    assert_eq!(judge(512, &[1, u32::MAX], 0, 2), sick(1, 0));
}

#[test]
fn judged_ends() {
    for (start, bytes, expected) in [
        (0, 512, okay()),
        (0, 513, past_the_end(512)),
        (511, 1, okay()),
        (511, 2, past_the_end(512)),
        (512, 1, past_the_end(512)),
        (513, 1, past_the_end(513)),
        (0, u32::MAX, past_the_end(512)),
        (1, u32::MAX, past_the_end(512)),
        (512, u32::MAX, past_the_end(512)),
        (u32::MAX, 1, past_the_end(u32::MAX)),
        (u32::MAX, 2, past_the_end(u32::MAX)),
        (u32::MAX, u32::MAX, past_the_end(u32::MAX)),
        (0x8000_0000, 0x8000_0000, past_the_end(0x8000_0000)),
        // No bytes.
        (0, 0, okay()),
        (511, 0, okay()),
        (512, 0, okay()),
        (513, 0, okay()),
        (u32::MAX, 0, okay()),
    ] {
        assert_eq!(judge(512, &[], start, bytes), expected, "{start} {bytes}");
    }
    // A lower sick byte is not named, and no window, the one over that place neither.
    assert_eq!(judge(512, &[500, 1], 496, 32), past_the_end(512));
    assert_eq!(judge(512, &[9, 0, 500, 100], 496, 32), past_the_end(512));
    assert_eq!(judge(512, &[9, 0, 600, 100], 600, 32), past_the_end(600));
    // No bytes are in no window.
    assert_eq!(judge(512, &[256, 16], 260, 0), okay());
}

#[test]
fn judged_memories() {
    const MOST: usize = 16_777_216;
    for (length, start, bytes, expected) in [
        (0, 0, 0, okay()),
        (0, 9, 0, okay()),
        (0, 0, 1, past_the_end(0)),
        (0, 9, u32::MAX, past_the_end(9)),
        (0, u32::MAX, 1, past_the_end(u32::MAX)),
        (1, 0, 1, okay()),
        (1, 0, 2, past_the_end(1)),
        (MOST, 0, MOST as u32, okay()),
        (MOST, 0, MOST as u32 + 1, past_the_end(MOST as u32)),
        (MOST, 0, u32::MAX, past_the_end(MOST as u32)),
        (MOST, MOST as u32 - 1, 1, okay()),
        (MOST, MOST as u32, 1, past_the_end(MOST as u32)),
        (MOST, u32::MAX, u32::MAX, past_the_end(u32::MAX)),
        (MOST + 1, 0, 1, refused(2)),
        (MOST + 1, 0, 0, refused(2)),
        (MOST + 1, u32::MAX, u32::MAX, refused(2)),
        (1 << 32, 0, 1, refused(2)),
        ((1 << 32) + 5, 0, 1, refused(2)),
        (usize::MAX, 0, 1, refused(2)),
    ] {
        assert_eq!(judge(length, &[], start, bytes), expected, "{length} {start} {bytes}");
        // A window behind the group or an empty one changes nothing.
        assert_eq!(judge(length, &[u32::MAX, 9, 0, 0], start, bytes), expected);
    }
    assert_eq!(judge(MOST, &[MOST as u32 - 1, 1], 0, MOST as u32), sick(MOST as u32 - 1, 0));
    assert_eq!(judge(0, &[0, 1], 0, 1), past_the_end(0));
}

#[test]
fn judged_numbers_of_windows() {
    // Fifteen empty ones, and one more over the group's third byte.
    let mut numbers = [256, 0].repeat(15);
    numbers.extend([258, 1]);
    assert_eq!(judge(512, &numbers, 256, 16), sick(258, 15));
    assert_eq!(judge(512, &numbers[..30], 256, 16), okay());
    // An odd last number is of no use: no window starts with it, and it is no seventeenth.
    assert_eq!(judge(512, &numbers[..31], 256, 16), okay());
    numbers.push(256);
    assert_eq!(judge(512, &numbers, 256, 16), sick(258, 15));
    assert_eq!(judge(512, &[256], 256, 16), okay());
    assert_eq!(judge(512, &[300, 5, 256], 256, 16), okay());
    assert_eq!(judge(512, &[258, 1, 256], 256, 16), sick(258, 0));
    // Seventeen: 6, whatever is asked, and empty ones too; after 2.
    numbers.push(0);
    for (start, bytes) in [(256, 16), (0, 0), (600, 1), (u32::MAX, u32::MAX)] {
        assert_eq!(judge(512, &numbers, start, bytes), refused(6));
        assert_eq!(judge(512, &[0; 34], start, bytes), refused(6));
        assert_eq!(judge(512, &[0; 35], start, bytes), refused(6));
        assert_eq!(judge(0, &[0; 34], start, bytes), refused(6));
        assert_eq!(judge(16_777_216, &[0; 1000], start, bytes), refused(6));
        assert_eq!(judge(16_777_217, &[0; 34], start, bytes), refused(2));
        assert_eq!(judge(16_777_217, &[0; 32], start, bytes), refused(2));
    }
}

// ---- Byte by byte ----

/// A group as the rules say it, all its bytes one by one, each with every window.
fn byte_by_byte(length: usize, windows: &[Window], group: &[u64]) -> Judged {
    let mut group = group.to_vec();
    group.sort();
    if let Some(&at) = group.iter().find(|&&at| at >= length as u64) {
        return past_the_end(at as u32);
    }
    for at in group {
        for (number, &(start, count)) in windows.iter().enumerate() {
            if (0..u64::from(count)).contains(&at.wrapping_sub(start.into())) {
                return sick(at as u32, number as u32);
            }
        }
    }
    okay()
}

#[test]
fn random_groups() {
    let mut random = Random::new(5, 7);
    let mut seen = [[0; 3]; 3];
    for _ in 0..200_000 {
        let length = random.below(80) as usize;
        let near = |random: &mut Random| match random.below(8) {
            0 => u32::MAX - random.below(20),
            _ => random.below(90),
        };
        let windows: Vec<Window> = (0..random.below(6))
            .map(|_| {
                let huge = random.one_in(8);
                let count = if huge { u32::MAX - random.below(90) } else { random.below(12) };
                (near(&mut random), count)
            })
            .collect();
        let mut numbers: Vec<u32> =
            windows.iter().flat_map(|&(start, count)| [start, count]).collect();
        if random.one_in(2) {
            numbers.push(random.below(90));
        }
        let (start, bytes) = (near(&mut random), random.below(40));
        let group: Vec<u64> = (u64::from(start)..).take(bytes as usize).collect();
        let expected = byte_by_byte(length, &windows, &group);
        let told = format!("{length} {windows:?} {start},{bytes}");
        assert_eq!(judge(length, &numbers, start, bytes), expected, "{told}");
        let at = if expected.place == start { 0 } else { 1 };
        seen[expected.verdict as usize][if expected.window > 0 { 2 } else { at }] += 1;
    }
    // No error; decode at the start and in the midst; slave so too, and in a later window.
    let [[none, other, _], slave, [at_start, inside, _]] = seen;
    let all = [none + other, slave[0], slave[1], slave[2], at_start, inside];
    assert!(all.iter().all(|&count| count > 2000), "{seen:?}");
}

/// The lowest of these bytes that gives this error, one by one, each with every window.
fn lowest_byte(length: u64, windows: &[Window], group: &[u64], kind: Verdict) -> Option<u64> {
    let holds = |&(start, count): &Window, at: u64| {
        (0..u64::from(count)).contains(&at.wrapping_sub(start.into()))
    };
    let gives = |at: u64| match kind {
        Verdict::Decode => at >= length,
        _ => at < length && windows.iter().any(|window| holds(window, at)),
    };
    group.iter().copied().filter(|&at| gives(at)).min()
}

/// A side as a run, by intervals, and as places, for each kind: also one that does not win, as of a
/// sick source beside a destination past the end. Nothing is lent, so the memory may end at 2^32.
#[test]
fn random_sides() {
    const TOP: u64 = 1 << 32;
    let mut random = Random::new(8, 7);
    let mut seen = [[0; 4]; 2];
    for _ in 0..200_000 {
        // All of it near 0, or all of it near 2^32.
        let top = random.one_in(2);
        let length = u64::from(random.below(80)) + if top { TOP - 60 } else { 0 };
        let near = |random: &mut Random| match top {
            true => u32::MAX - random.below(80),
            false => random.below(90),
        };
        let windows: Vec<Window> = (0..random.below(6))
            .map(|_| {
                let count = match random.below(8) {
                    0 => u32::MAX - random.below(90),
                    1 => 0,
                    _ => random.below(12),
                };
                (near(&mut random), count)
            })
            .collect();
        let (start, count) = (near(&mut random), random.below(40));
        let mut group: Vec<u64> = (u64::from(start)..).take(count as usize).collect();
        let errors = [Verdict::Slave, Verdict::Decode];
        let expected = errors.map(|kind| lowest_byte(length, &windows, &group, kind));
        let told = format!("{length} {windows:?} {start},{count}");
        let found = |side| errors.map(|kind| lowest(length as usize, &windows, side, kind));
        assert_eq!(found(Side::Run(start, count)), expected, "{told}");
        // The order of places does not matter, nor that one comes twice.
        group.reverse();
        group.extend_from_within(..group.len() / 2);
        assert_eq!(found(Side::Places(&group)), expected, "{told}");
        let row = match expected {
            [None, None] => 0,
            [Some(_), None] => 1,
            [None, Some(_)] => 2,
            [Some(_), Some(_)] => 3,
        };
        seen[usize::from(top)][row] += 1;
    }
    // Good sides, those with one error, and those with both.
    assert!(seen.iter().flatten().all(|&count| count > 2000), "{seen:?}");
}

/// A step that faults gives the place that a library caller gets for its source bytes if they give
/// the step's kind, else for its destination bytes.
#[test]
fn random_steps() {
    let mut random = Random::new(6, 7);
    let mut seen = [[0; 4]; 2];
    let mut taken = 0;
    while taken < 40_000 {
        let length = if random.one_in(3) { 4096 + random.below(5000) } else { random.below(1200) };
        let mut engine = some_engine(&mut random, length);
        let Phase::Move(Transfer { source, destination, total, moved }) = engine.phase else {
            continue;
        };
        if !engine.well_formed() || engine.key_hole_read || engine.key_hole_write {
            continue;
        }
        taken += 1;
        let mut memory = some_memory(&mut random, length);
        let windows = some_windows(&mut random, length);
        let (_, event) = engine.step(&mut memory, &windows);
        let Event::Fault { place, bit } = event else { continue };
        let start = destination + moved;
        let bytes = independent::cut::brute_plan(
            engine.width,
            engine.beats,
            start,
            (total - moved).min(5000),
        )[0]
        .1;
        let numbers: Vec<u32> = windows.iter().flat_map(|&(start, count)| [start, count]).collect();
        let sides =
            [source + moved, start].map(|from| judge(length as usize, &numbers, from, bytes));
        let gives = sides.map(|side| side.verdict + 4 == bit);
        let expected = if gives[0] { sides[0] } else { sides[1] };
        assert_eq!(place, expected.place);
        let row = match gives {
            [true, false] => 0,
            [false, true] => 1,
            _ if sides[1].place < sides[0].place => 2,
            _ => 3,
        };
        seen[(bit - SLAVE) as usize][row] += 1;
    }
    // The source's, the destination's, both with the destination's lower, and both otherwise.
    assert!(seen.iter().flatten().all(|&count| count > 100), "{seen:?}");
}
