// Tests of two engines on one memory: RULES.md, what it says of the second engine. Traces that start
// with C2, answer 21, and interleavings of steps with the bytes that they read and write: worked out
// by hand from the rules, and any traces and engines.

mod common;

use common::{
    chain, damage, descriptor, fresh, from_all_streams, put, simple, slow_listing, some_engine,
    some_memory, some_trace, some_windows, Trace, HEADER, QUIET, VALID,
};
use independent::answer;
use independent::engine::{Engine, Event, Outcome, Phase};
use independent::memory::Window;
use independent::monitor::Clock;
use independent::record::{read, Cause, Form, Record};
use independent::trace::{replay, replay_before, replay_stream, Observer, Replay};
use independent::two_engines::{events, footprint, interleave, Addresses, Footprint, Step};
use shared::random::Random;
use shared::registers::{BTT, CDMACR, DA, KEY_HOLE, KEY_HOLE_READ, KEY_HOLE_WRITE, SA};
use shared::settings::listed;
use std::ops::Range;

// ---- Listings ----

fn list(trace: &[u8]) -> String {
    let mut output = Vec::new();
    let sound = replay(trace, &mut output);
    let text = String::from_utf8(output).unwrap();
    let last = text.lines().last().unwrap();
    assert_eq!(sound, last.split(' ').nth(1) != Some("bad"), "{text}");
    text
}

/// Looks at each step, so that the replay takes them one by one; keeps the last engines and memory.
#[derive(Default)]
struct Looker(Vec<Engine>, Vec<u8>);

impl Observer for Looker {
    fn carried_out(&mut self, replay: &Replay, _: &Record<&[u8]>) {
        *self = Looker(replay.engines.to_vec(), replay.memory.to_vec());
    }
}

/// Checks the lines under the header, of the whole trace and of streams, with steps in runs and one
/// by one. Gives the memory after the last good record.
fn lists(trace: &Trace, lines: &str) -> Vec<u8> {
    let expected = format!("{HEADER}{lines}");
    assert_eq!(list(&trace.0), expected, "{:?}", trace.0);
    from_all_streams(&trace.0, |input| {
        let mut output = Vec::new();
        replay_stream(input, &mut output).unwrap();
        assert_eq!(String::from_utf8(output).unwrap(), expected);
    });
    let (mut watched, mut looker) = (Vec::new(), Looker::default());
    replay_before(&trace.0, &mut watched, &mut looker);
    assert_eq!(String::from_utf8(watched).unwrap(), expected);
    looker.1
}

/// A C2 with number 0, W=4 and L=16: ten bytes.
fn started() -> Trace {
    Trace::new().c2(0, 4, 16)
}

/// A good record of each kind that is for an engine, with these numbers.
fn records_of(number: u32, engine: u8) -> [Trace; 3] {
    [
        Trace::new().wr_of(number, engine, 24, 1),
        Trace::new().rd_of(number, engine, 8),
        Trace::new().st_of(number, engine, 1),
    ]
}

/// A good record of each other kind but CF and C2, with this number.
fn other_records(number: u32) -> [Trace; 3] {
    [
        Trace::new().mm(number, 0, &[1, 2, 3]),
        Trace::new().sw(number, 1, 2),
        Trace::new().ar(number, &QUIET),
    ]
}

/// The bytes from 1 on.
fn counted(count: u8) -> Vec<u8> {
    (1..=count).collect()
}

// ---- Good traces ----

#[test]
fn each_copies_what_the_other_wrote() {
    let prepared = started()
        .mm(1, 256, &[1, 2, 3, 4])
        .wr_of(2, 1, 24, 256)
        .wr_of(3, 2, 24, 512)
        .wr_of(4, 1, 32, 512)
        .wr_of(5, 2, 32, 768)
        .wr_of(6, 1, 40, 4)
        .wr_of(7, 2, 40, 4);
    let lines = "0 set 4 16\n1 memory 256 4\n2 write 24 0\n3 write 24 0\n4 write 32 0\n\
                 5 write 32 0\n6 write 40 0\n7 write 40 0\n";
    let memory = lists(
        &prepared.clone().st_of(8, 1, 1).st_of(9, 2, 1),
        &format!("{lines}8 move 512 4\n8 stop 1 1\n9 move 768 4\n9 stop 1 1\n"),
    );
    assert_eq!((&memory[512..516], &memory[768..772]), (&[1, 2, 3, 4][..], &[1, 2, 3, 4][..]));
    // The other way round the second copies the zeros that were there before.
    let memory = lists(
        &prepared.st_of(8, 2, 1).st_of(9, 1, 1),
        &format!("{lines}8 move 768 4\n8 stop 1 1\n9 move 512 4\n9 stop 1 1\n"),
    );
    assert_eq!((&memory[512..516], &memory[768..772]), (&[1, 2, 3, 4][..], &[0; 4][..]));
}

#[test]
fn two_chains_interleaved() {
    let trace = started()
        .mm(1, 64, &descriptor(128, 1024, 2048, 65, 0))
        .mm(2, 192, &descriptor(192, 1100, 3000, 8, 0))
        .mm(3, 1024, &counted(84))
        .wr_of(4, 1, 0, 8)
        .wr_of(5, 2, 0, 8)
        .wr_of(6, 1, 8, 64)
        .wr_of(7, 2, 8, 192)
        .wr_of(8, 1, 16, 64)
        .wr_of(9, 2, 16, 192)
        .st_of(10, 1, 1)
        .st_of(11, 2, 2)
        .st_of(12, 1, 2)
        .st_of(13, 2, 9)
        .rd_of(14, 1, 4)
        .rd_of(15, 2, 4)
        .st_of(16, 1, 9)
        .rd_of(17, 1, 8)
        .rd_of(18, 2, 8);
    let memory = lists(
        &trace,
        "0 set 4 16\n1 memory 64 32\n2 memory 192 32\n3 memory 1024 84\n4 write 0 0\n5 write 0 0\n\
         6 write 8 0\n7 write 8 0\n8 write 16 0\n9 write 16 0\n10 fetch 64 0\n10 stop 1 0\n\
         11 fetch 192 0\n11 move 3000 8\n11 stop 2 0\n12 move 2048 64\n12 move 2112 1\n12 stop 2 0\n\
         13 update 192 2147483648\n13 stop 1 1\n14 read 4 65544\n15 read 4 69642\n\
         16 update 64 2147483648\n16 stop 1 1\n17 read 8 64\n18 read 8 192\n",
    );
    assert_eq!(memory[2048..2114], [&counted(65)[..], &[0]].concat());
    assert_eq!(memory[3000..3009], [77, 78, 79, 80, 81, 82, 83, 84, 0]);
    assert_eq!((&memory[92..96], &memory[220..224]), (&[0, 0, 0, 128][..], &[0, 0, 0, 128][..]));
}

/// The second engine halts on a descriptor that the first one made stale.
#[test]
fn one_finishes_the_descriptor_of_the_other() {
    let trace = started()
        .mm(1, 64, &descriptor(64, 256, 512, 4, 0))
        .wr_of(2, 1, 0, 8)
        .wr_of(3, 2, 0, 8)
        .wr_of(4, 1, 8, 64)
        .wr_of(5, 2, 8, 64)
        .wr_of(6, 1, 16, 64)
        .wr_of(7, 2, 16, 64)
        .st_of(8, 1, 9)
        .st_of(9, 2, 9)
        .rd_of(10, 2, 4)
        .rd_of(11, 1, 4);
    lists(
        &trace,
        "0 set 4 16\n1 memory 64 32\n2 write 0 0\n3 write 0 0\n4 write 8 0\n5 write 8 0\n\
         6 write 16 0\n7 write 16 0\n8 fetch 64 0\n8 move 512 4\n8 update 64 2147483648\n\
         8 stop 3 1\n9 halt 64 8\n9 stop 1 1\n10 read 4 82186\n11 read 4 69642\n",
    );
}

#[test]
fn registers_are_separate() {
    let trace = started()
        .wr_of(1, 1, 0, 0x5008)
        .rd_of(2, 1, 0)
        .rd_of(3, 2, 0)
        .wr_of(4, 1, 8, 0x1c5)
        .rd_of(5, 1, 8)
        .rd_of(6, 2, 8)
        .wr_of(7, 2, 24, 7)
        .rd_of(8, 1, 24)
        .rd_of(9, 2, 24)
        .wr_of(10, 1, 32, 9)
        .rd_of(11, 2, 32)
        .rd_of(12, 1, 32)
        // TAILDESC in simple mode, and in chain mode, where it starts.
        .wr_of(13, 2, 16, 64)
        .wr_of(14, 1, 16, 64)
        .rd_of(15, 1, 16)
        .rd_of(16, 2, 16)
        .rd_of(17, 1, 4)
        .rd_of(18, 2, 4)
        // The one busy, the other not; then in error.
        .wr_of(19, 1, 40, 3)
        .wr_of(20, 2, 40, 0)
        .rd_of(21, 2, 4)
        .rd_of(22, 1, 4)
        .wr_of(23, 2, 24, 1)
        .wr_of(24, 1, 24, 1)
        .wr_of(25, 2, 4, 0x4000)
        .rd_of(26, 2, 4)
        .rd_of(27, 1, 40)
        .st_of(28, 2, 9)
        .st_of(29, 1, 9)
        .rd_of(30, 1, 4)
        .rd_of(31, 2, 4);
    lists(
        &trace,
        "0 set 4 16\n1 write 0 0\n2 read 0 86026\n3 read 0 65538\n4 write 8 0\n5 read 8 448\n\
         6 read 8 0\n7 write 24 0\n8 read 24 0\n9 read 24 7\n10 write 32 0\n11 read 32 0\n\
         12 read 32 9\n13 write 16 4\n14 write 16 0\n15 read 16 64\n16 read 16 0\n17 read 4 65544\n\
         18 read 4 65546\n19 write 40 4\n20 write 40 0\n21 read 4 81946\n22 read 4 65544\n\
         23 write 24 5\n24 write 24 4\n25 write 4 0\n26 read 4 65562\n27 read 40 0\n28 stop 0 1\n\
         29 fetch 448 0\n29 update 448 268435456\n29 stop 2 1\n30 read 4 81946\n31 read 4 65562\n",
    );
}

#[test]
fn a_reset_of_one_leaves_the_other() {
    // Two beats of four bytes: bursts of eight.
    let trace = Trace::new()
        .c2(1, 4, 2)
        .wr_of(2, 1, 40, 24)
        .wr_of(3, 2, 32, 256)
        .wr_of(4, 2, 40, 24)
        .st_of(5, 1, 1)
        .st_of(6, 2, 1)
        .wr_of(7, 1, 0, 4)
        .rd_of(8, 1, 4)
        .rd_of(9, 1, 40)
        .rd_of(10, 2, 4)
        .rd_of(11, 2, 40)
        .st_of(12, 1, 9)
        .st_of(13, 2, 1)
        // The settings are kept.
        .wr_of(14, 1, 40, 17)
        .wr_of(15, 2, 0, 4)
        .rd_of(16, 2, 32)
        .rd_of(17, 1, 4)
        .st_of(18, 1, 9)
        .st_of(19, 2, 9)
        .wr_of(20, 2, 40, 9)
        .st_of(21, 2, 9);
    lists(
        &trace,
        "1 set 4 2\n2 write 40 0\n3 write 32 0\n4 write 40 0\n5 move 0 8\n5 stop 1 0\n\
         6 move 256 8\n6 stop 1 0\n7 write 0 0\n8 read 4 65546\n9 read 40 0\n10 read 4 65544\n\
         11 read 40 24\n12 stop 0 1\n13 move 264 8\n13 stop 1 0\n14 write 40 0\n15 write 0 0\n\
         16 read 32 0\n17 read 4 65544\n18 move 0 8\n18 move 8 8\n18 move 16 1\n18 stop 3 1\n\
         19 stop 0 1\n20 write 40 0\n21 move 0 8\n21 move 8 1\n21 stop 2 1\n",
    );
}

#[test]
fn both_have_the_settings_and_are_fresh() {
    for engine in [1, 2] {
        let mut trace = Trace::new().c2(3, 8, 2);
        let mut lines = "3 set 8 2\n".to_string();
        // CDMACR, CDMASR, and all else.
        for (number, offset, value) in
            (0..11).map(|n| (n + 4, 4 * n, [65538, 65546].get(n as usize).unwrap_or(&0)))
        {
            trace = trace.rd_of(number, engine, offset as u16);
            lines += &format!("{number} read {offset} {value}\n");
        }
        // Two beats of eight bytes.
        let trace = trace.wr_of(20, engine, 32, 5).wr_of(21, engine, 40, 20).st_of(22, engine, 9);
        lists(
            &trace,
            &format!(
                "{lines}20 write 32 0\n21 write 40 0\n22 move 5 11\n22 move 16 9\n22 stop 2 1\n"
            ),
        );
    }
}

#[test]
fn one_list_of_windows() {
    let trace = started()
        .sw(1, 520, 1)
        .wr_of(2, 1, 24, 256)
        .wr_of(3, 1, 32, 512)
        .wr_of(4, 1, 40, 16)
        .wr_of(5, 2, 24, 520)
        .wr_of(6, 2, 32, 1024)
        .wr_of(7, 2, 40, 16)
        .st_of(8, 1, 9)
        .st_of(9, 2, 9)
        .rd_of(10, 1, 4)
        .rd_of(11, 2, 4)
        .wr_of(12, 2, 0, 4)
        // Behind the window the second one copies well, until there is a window there too.
        .mm(13, 521, &counted(65))
        .wr_of(14, 2, 24, 521)
        .wr_of(15, 2, 32, 1024)
        .wr_of(16, 2, 40, 65)
        .st_of(17, 2, 1)
        .sw(18, 1088, 1)
        .st_of(19, 2, 1)
        .rd_of(20, 2, 4)
        .rd_of(21, 1, 4);
    let memory = lists(
        &trace,
        "0 set 4 16\n1 window 520 1\n2 write 24 0\n3 write 32 0\n4 write 40 0\n5 write 24 0\n\
         6 write 32 0\n7 write 40 0\n8 fault 520 5\n8 stop 1 1\n9 fault 520 5\n9 stop 1 1\n\
         10 read 4 81962\n11 read 4 81962\n12 write 0 0\n13 memory 521 65\n14 write 24 0\n\
         15 write 32 0\n16 write 40 0\n17 move 1024 64\n17 stop 1 0\n18 window 1088 1\n\
         19 fault 1088 5\n19 stop 1 1\n20 read 4 81962\n21 read 4 81962\n",
    );
    assert_eq!(memory[1024..1090], [&counted(64)[..], &[0, 0]].concat());
}

#[test]
fn a_seventeenth_window() {
    let (mut trace, mut lines) = (started(), "0 set 4 16\n".to_string());
    for number in 1..=16 {
        trace = trace.sw(number, 9, 0);
        lines += &format!("{number} window 9 0\n");
    }
    lists(&trace, &lines);
    lists(&trace.clone().sw(17, 9, 0), &format!("{lines}16 bad 6 234\n")); // 10 + 16 * 14
    lists(&trace.st_of(17, 2, 1), &format!("{lines}17 stop 0 1\n"));
}

#[test]
fn one_monitor_with_the_width_of_c2() {
    let clock = |size| Clock { size, ready: true, ..VALID };
    let trace = Trace::new()
        .c2(0, 8, 2)
        .ar(1, &QUIET)
        .rd_of(2, 2, 8)
        .ar(3, &clock(3))
        .ar(4, &clock(4))
        .wr_of(5, 1, 0, 4)
        .wr_of(6, 2, 0, 4)
        .ar(7, &QUIET)
        .st_of(8, 1, 1)
        .ar(9, &Clock { burst: 3, ..clock(0) });
    lists(
        &trace,
        "0 set 8 2\n1 bus 0 0\n2 read 8 0\n3 bus 0 0\n4 bus 1 44\n5 write 0 0\n6 write 0 0\n\
         7 bus 1 44\n8 stop 0 1\n9 bus 2 39\n",
    );
    lists(&started().ar(1, &QUIET).ar(2, &clock(3)), "0 set 4 16\n1 bus 0 0\n2 bus 1 44\n");
    lists(&started().ar(1, &VALID), "0 set 4 16\n1 bus 1 45\n");
    lists(&started().ar_bits(1, 8, &VALID), "0 set 4 16\n0 bad 13 10\n");
}

#[test]
fn refused_writes_and_reads_are_good_records() {
    let trace = started().wr_of(1, 1, 44, 0).rd_of(2, 2, 41).wr_of(3, 2, 16, 0).rd_of(3, 1, 8);
    // 10 + 13 + 9 + 13
    lists(&trace, "0 set 4 16\n1 write 44 3\n2 noread 41 3\n3 write 16 4\n3 bad 11 45\n");
}

// ---- Answer 21 ----

#[test]
fn an_engine_number_but_1_and_2() {
    for engine in 0..=255 {
        for (kind, record) in records_of(9, engine).into_iter().enumerate() {
            let line = match engine {
                1 | 2 => ["9 write 24 0\n", "9 read 8 0\n", "9 stop 0 1\n"][kind],
                _ => "0 bad 21 10\n",
            };
            assert_eq!(list(&started().raw(&record.0).0), format!("{HEADER}0 set 4 16\n{line}"));
        }
    }
    for engine in [0, 3, 255] {
        for record in records_of(9, engine) {
            // The last good number and the mark's place, and nothing after it.
            let before = Trace::new().c2(7, 4, 16);
            lists(&before.clone().raw(&record.0), "7 set 4 16\n7 bad 21 10\n");
            let before = before.rd_of(8, 2, 8).raw(&record.0).rd_of(10, 1, 8);
            lists(&before, "7 set 4 16\n8 read 8 0\n8 bad 21 19\n");
        }
    }
}

#[test]
fn answer_21_comes_before_3_5_and_4() {
    for engine in [0, 3, 255] {
        let line = "0 set 4 16\n0 bad 21 10\n";
        for offset in [1, 41, 44, 65535] {
            lists(&started().wr_of(1, engine, offset, 4), line);
            lists(&started().rd_of(1, engine, offset), line);
        }
        lists(&started().wr_of(1, engine, 16, 0), line);
        lists(&started().st_of(1, engine, 0), line);
        // Both busy, and both in error.
        for (count, status) in [(8, 65544), (0, 81946)] {
            // 10 + 13 + 13 + 9 bytes
            let trace = started().wr_of(1, 1, 40, count).wr_of(2, 2, 40, count).rd_of(3, 2, 4);
            let lines = format!("0 set 4 16\n1 write 40 0\n2 write 40 0\n3 read 4 {status}\n");
            let refused = format!("{lines}3 bad 21 45\n");
            for offset in [8, 16, 24, 32, 40] {
                lists(&trace.clone().wr_of(4, engine, offset, 64), &refused);
            }
            lists(&trace.clone().wr_of(4, engine, 0, 4), &refused);
            lists(&trace.clone().rd_of(4, engine, 4), &refused);
            lists(&trace.clone().st_of(4, engine, 1), &refused);
        }
    }
}

#[test]
fn answers_10_11_and_21_in_this_order() {
    let before = Trace::new().c2(5, 4, 16);
    let refused = |record: &[u8], answer: u32| {
        lists(&before.clone().raw(record), &format!("5 set 4 16\n5 bad {answer} 10\n"));
    };
    for engine in [0, 1, 2, 3, 255] {
        for number in [0, 4, 5, 6] {
            for record in records_of(number, engine) {
                // One byte less is a record cut short, whatever its numbers are.
                for length in 1..record.0.len() {
                    refused(&record.0[..length], 10);
                }
                match (number, engine) {
                    (6, 1 | 2) => assert!(!list(&before.clone().raw(&record.0).0).contains("bad")),
                    (6, _) => refused(&record.0, 21),
                    _ => refused(&record.0, 11),
                }
            }
        }
        // With all of a bad offset, a bad engine and an old number.
        refused(&Trace::new().wr_of(5, engine, 44, 0).0, 11);
        refused(&Trace::new().rd_of(5, engine, 44).0, 11);
    }
}

/// Keeps the engines at the last good record, and compares them at a refusal.
#[derive(Default)]
struct AtRefusal(Looker, u32);

impl Observer for AtRefusal {
    fn carried_out(&mut self, replay: &Replay, record: &Record<&[u8]>) {
        self.0.carried_out(replay, record);
    }

    fn refused(&mut self, replay: &Replay, _: &[u8], answer: u32) {
        assert_eq!(self.0 .0, replay.engines);
        assert!(self.0 .1 == replay.memory);
        self.1 = answer;
    }
}

#[test]
fn answer_21_changes_nothing() {
    let before = started().mm(1, 0, &counted(9)).wr_of(2, 1, 32, 64).wr_of(3, 1, 40, 9);
    let before = before.wr_of(4, 2, 32, 128).wr_of(5, 2, 40, 9);
    for engine in [0, 3, 255] {
        let writes =
            [(0, 4), (24, 7), (40, 1)].map(|(at, value)| Trace::new().wr_of(6, engine, at, value));
        for record in records_of(6, engine).into_iter().chain(writes) {
            let mut looker = AtRefusal::default();
            replay_before(&before.clone().raw(&record.0).0, &mut Vec::new(), &mut looker);
            assert_eq!(looker.1, answer::ENGINE);
        }
    }
}

// ---- C2 in its place ----

#[test]
fn c2_has_the_line_and_the_number_of_a_cf() {
    for number in [0, 1, 9, u32::MAX] {
        lists(&Trace::new().c2(number, 128, 256), &format!("{number} set 128 256\n"));
        lists(&Trace::new().c2(number, 4, 64), &format!("{number} set 4 64\n"));
    }
    // The next number is above it.
    for engine in [1, 2] {
        for record in records_of(0, engine).iter().chain(&other_records(0)) {
            lists(&started().raw(&record.0), "0 set 4 16\n0 bad 11 10\n");
        }
        for record in records_of(5, engine).iter().chain(&other_records(5)) {
            let trace = Trace::new().c2(5, 4, 16).raw(&record.0);
            lists(&trace, "5 set 4 16\n5 bad 11 10\n");
        }
        lists(&started().rd_of(1, engine, 8), "0 set 4 16\n1 read 8 0\n");
    }
    lists(&Trace::new(), "");
}

#[test]
fn one_rising_sequence() {
    for (first, second) in [(1, 2), (2, 1), (1, 1), (2, 2)] {
        let before = started().rd_of(5, first, 8); // 19 bytes
        for number in [0, 1, 4, 5] {
            let lines = "0 set 4 16\n5 read 8 0\n5 bad 11 19\n";
            for record in records_of(number, second).iter().chain(&other_records(number)) {
                lists(&before.clone().raw(&record.0), lines);
            }
        }
        lists(&before.rd_of(6, second, 8), "0 set 4 16\n5 read 8 0\n6 read 8 0\n");
    }
}

#[test]
fn c2_or_cf_not_first() {
    for number in [0, 1, 5, 6, u32::MAX] {
        for (width, beats) in [(4, 16), (5, 5)] {
            let c2 = Trace::new().c2(number, width, beats).0;
            let cf = Trace::new().cf(number, width, beats).0;
            for late in [&c2, &cf] {
                lists(&Trace::new().c2(5, 4, 16).raw(late), "5 set 4 16\n5 bad 10 10\n");
                let trace = started().rd_of(5, 2, 8).raw(late);
                lists(&trace, "0 set 4 16\n5 read 8 0\n5 bad 10 19\n");
            }
            lists(&Trace::new().cf(5, 4, 16).raw(&c2), "5 set 4 16\n5 bad 10 10\n");
            lists(&Trace::new().cf(0, 4, 16).raw(&c2), "0 set 4 16\n0 bad 10 10\n");
            let trace = Trace::new().rd(5, 8).raw(&c2).rd(9, 8);
            lists(&trace, "0 set 4 64\n5 read 8 0\n5 bad 10 8\n");
        }
    }
}

#[test]
fn a_refused_c2_has_no_line_above_it() {
    for number in [0, 1, u32::MAX] {
        let settings = Trace::new().c2(number, 4, 16);
        for length in 2..settings.0.len() {
            lists(&Trace(settings.0[..length].to_vec()), "0 bad 10 0\n");
        }
        for (width, beats) in [(0, 0), (4, 0), (0, 64), (2, 64), (256, 64), (4, 1), (4, 512)] {
            lists(&Trace::new().c2(number, width, beats), "0 bad 1 0\n");
            lists(&Trace::new().c2(number, width, beats).rd_of(1, 1, 8), "0 bad 1 0\n");
            lists(&Trace::new().c2(number, width, beats).rd_of(1, 3, 8), "0 bad 1 0\n");
        }
    }
    // One byte is no C2, and others are not the mark.
    lists(&Trace::new().raw(b"C"), "0 set 4 64\n0 bad 10 0\n");
    for mark in [b"c2", b"2C", b"C1", b"C3", b"C\x02", b"22", b"C ", b"CC"] {
        let trace = Trace::new().raw(mark).raw(&started().0[2..]);
        lists(&trace, "0 set 4 64\n0 bad 10 0\n");
    }
}

#[test]
fn every_record_cut_short() {
    let before = started().rd_of(1, 2, 8); // 19 bytes
    for record in records_of(2, 1).iter().chain(&records_of(2, 2)).chain(&other_records(2)) {
        assert!(!list(&before.clone().raw(&record.0).0).contains("bad"));
        for length in 1..record.0.len() {
            let cut = before.clone().raw(&record.0[..length]);
            lists(&cut, "0 set 4 16\n1 read 8 0\n1 bad 10 19\n");
        }
    }
    for mark in [b"wr", b"EX", b"C3", b"\0\0"] {
        let trace = before.clone().raw(mark).raw(&[1; 30]);
        lists(&trace, "0 set 4 16\n1 read 8 0\n1 bad 10 19\n");
    }
}

/// Without C2 the byte is the low one of the offset or the steps, and the last byte is left over.
#[test]
fn no_engine_byte_without_c2() {
    for (start, line, at) in
        [(Trace::new().cf(0, 4, 16), "0 set 4 16\n", 10), (Trace::new(), "0 set 4 64\n", 0)]
    {
        // 0x0801 and 0x1802, and 0x0501 steps.
        let trace = start.clone().rd_of(1, 1, 8);
        lists(&trace, &format!("{line}1 noread 2049 3\n1 bad 10 {}\n", at + 8));
        let trace = start.clone().wr_of(1, 2, 24, 7);
        lists(&trace, &format!("{line}1 write 6146 3\n1 bad 10 {}\n", at + 12));
        let trace = start.clone().st_of(1, 1, 5);
        lists(&trace, &format!("{line}1 stop 0 1\n1 bad 10 {}\n", at + 8));
        // Offset 0x0008 and value 0x00000004, of which the last byte is left over.
        let trace = start.clone().wr_of(1, 8, 0x400, 0);
        lists(&trace, &format!("{line}1 write 8 0\n1 bad 10 {}\n", at + 12));
        // Numbers of no engine.
        for engine in [3, 255] {
            let trace = start.clone().rd_of(1, engine, 0);
            lists(&trace, &format!("{line}1 noread {engine} 3\n1 bad 10 {}\n", at + 8));
        }
    }
}

/// With C2 the low byte of the offset or the steps is the engine number.
#[test]
fn records_without_an_engine_byte_behind_c2() {
    lists(&started().rd(1, 8), "0 set 4 16\n0 bad 10 10\n");
    lists(&started().rd(1, 1), "0 set 4 16\n0 bad 10 10\n");
    lists(&started().rd(1, 8).rd(2, 8), "0 set 4 16\n0 bad 21 10\n");
    lists(&started().wr(1, 24, 0).rd(2, 8), "0 set 4 16\n0 bad 21 10\n");
    lists(&started().st(1, 5).rd(2, 8), "0 set 4 16\n0 bad 21 10\n");
    // Offset 0x0801 is offset 8 of engine 1, with one byte more.
    lists(&started().rd(1, 0x801).raw(&[0]), "0 set 4 16\n1 read 8 0\n");
}

/// What a reader is given.
#[test]
fn records_read() {
    let (one, two) = (Form::OneEngine, Form::TwoEngines);
    assert_eq!(Form::of(b"C2"), two);
    for trace in [&b""[..], b"C", b"CF", b"2C", b"RDC2"] {
        assert_eq!(Form::of(trace), one);
    }
    let trace = started().0;
    let settings = Record::Settings { width: 4, beats: 16 };
    assert_eq!(read(&trace, two, true), Ok((0, None, settings, &[][..])));
    assert_eq!(read(&trace, two, false), Err(Cause::LateSettings));
    assert_eq!(read(&trace, one, true), Err(Cause::UnknownMark));
    assert_eq!(read(&trace, one, false), Err(Cause::UnknownMark));
    let trace = Trace::new().wr_of(7, 200, 24, 9).raw(b"?").0;
    let write = Record::Write { offset: 24, value: 9 };
    assert_eq!(read(&trace, two, false), Ok((7, Some(200), write, &b"?"[..])));
    assert_eq!(read(&trace[..12], two, false), Err(Cause::CutInBody));
    assert_eq!(read(&trace[..6], two, false), Err(Cause::CutInBody));
    let trace = Trace::new().rd(7, 24).0;
    assert_eq!(read(&trace, one, false), Ok((7, None, Record::Read { offset: 24 }, &[][..])));
    for record in other_records(1) {
        assert_eq!(read(&record.0, two, false), read(&record.0, one, false));
    }
}

/// Checks that the engine of each record and step is the one in turn.
#[derive(Default)]
struct InTurn {
    turns: Vec<u32>,
    defaulted: bool,
}

impl Observer for InTurn {
    fn defaulted(&mut self, _: &Replay) {
        self.defaulted = true;
    }

    fn record(&mut self, replay: &Replay, _: &Record<&[u8]>) {
        self.turns.push(replay.engine().sa);
    }

    fn step(&mut self, replay: &Replay) {
        self.turns.push(100 + replay.engine().sa);
    }

    fn stepped(&mut self, replay: &Replay, _: Event) {
        self.turns.push(200 + replay.engine().sa);
    }
}

#[test]
fn an_observer_sees_the_engine_in_turn() {
    let trace = started()
        .wr_of(1, 1, 24, 1)
        .wr_of(2, 2, 24, 2)
        .rd_of(3, 1, 8)
        .mm(4, 0, &[9])
        .wr_of(5, 2, 40, 3)
        .sw(6, 900, 1)
        .rd_of(7, 1, 8)
        .st_of(8, 2, 3);
    let mut looker = InTurn::default();
    assert!(replay_before(&trace.0, &mut Vec::new(), &mut looker));
    assert_eq!(looker.turns, [0, 0, 0, 1, 1, 2, 2, 1, 2, 102, 202]);
    assert!(!looker.defaulted);
    let mut looker = Looker::default();
    assert!(replay_before(&trace.0, &mut Vec::new(), &mut looker));
    let second = Engine { sa: 2, btt: 3, ioc_irq: true, ..fresh() };
    assert_eq!(looker.0, [Engine { sa: 1, ..fresh() }, second]);
}

// ---- Any traces ----

/// A trace of good records made one for two engines, with these engine numbers.
fn for_two_engines(trace: &[u8], mut engine: impl FnMut() -> u8) -> Vec<u8> {
    let mut made = Vec::new();
    if !trace.starts_with(b"CF") {
        made = Trace::new().c2(0, 4, 64).0;
    }
    let mut rest = trace;
    while !rest.is_empty() {
        let first = rest.len() == trace.len();
        let (_, _, record, behind) = read(rest, Form::OneEngine, first).unwrap();
        let (head, body) = rest[..rest.len() - behind.len()].split_at(6);
        match record {
            Record::Settings { .. } => made.extend([b"C2", &head[2..]].concat()),
            Record::Write { .. } | Record::Read { .. } | Record::Steps { .. } => {
                made.extend([head, &[engine()]].concat());
            }
            _ => made.extend(head),
        }
        made.extend(body);
        rest = behind;
    }
    made
}

#[test]
fn any_trace_for_one_of_the_engines_lists_as_ever() {
    let mut random = Random::new(11, 0);
    for _ in 0..2000 {
        let trace = some_trace(&mut random).0;
        if !trace.is_empty() {
            for engine in [1, 2] {
                assert_eq!(list(&for_two_engines(&trace, || engine)), list(&trace));
            }
        }
    }
}

#[test]
fn any_trace_lists_as_the_slow_listing() {
    let mut random = Random::new(11, 1);
    let words = ["fetch", "move", "fault", "update", "halt", "noread"];
    let (mut seen, mut otherwise) = ([0; 6], 0);
    for _ in 0..4000 {
        let one = some_trace(&mut random).0;
        let mut numbers = Vec::new();
        let trace = for_two_engines(&one, || {
            // Mostly the same as before, so that some of the transfers start and end.
            let last = numbers.last().copied().unwrap_or(1);
            numbers.push(if random.one_in(5) { 3 - last } else { last });
            numbers[numbers.len() - 1]
        });
        let listing = list(&trace);
        assert_eq!(listing, slow_listing(&trace, 64, ""));
        for line in listing.lines() {
            let word = line.split(' ').nth(1);
            if let Some(place) = words.iter().position(|&known| Some(known) == word) {
                seen[place] += 1;
            }
        }
        otherwise += i32::from(listing != list(&one));
        // No line tells the engine number.
        let mut swapped = numbers.iter().map(|number| 3 - number);
        assert_eq!(list(&for_two_engines(&one, || swapped.next().unwrap())), listing);
    }
    assert!(otherwise > 1000 && seen.iter().all(|&count| count > 100), "{otherwise} {seen:?}");
}

#[test]
fn damaged_traces_never_panic_and_share_their_beginning() {
    let mut random = Random::new(11, 2);
    let mut answers = [0; 22];
    for _ in 0..6000 {
        let one = some_trace(&mut random).0;
        let mut trace = for_two_engines(&one, || 1 + random.below(2) as u8);
        damage(&mut random, &mut trace);
        let listing = list(&trace);
        let last: Vec<&str> = listing.lines().last().unwrap().split(' ').collect();
        if let ["bad", answer, place] = last[1..] {
            answers[answer.parse::<usize>().unwrap()] += 1;
            let place: usize = place.parse().unwrap();
            // The records before the bad one list the same by themselves.
            if place > 0 {
                let before = list(&trace[..place]);
                assert!(listing.starts_with(&before));
                assert_eq!(listing[before.len()..].lines().count(), 1);
            }
        }
    }
    for number in [answer::RECORD, answer::SEQUENCE, answer::FIELD, answer::ENGINE] {
        assert!(answers[number as usize] > 20, "{answers:?}");
    }
}

// ---- Interleavings ----

/// Two engines with what is lent to them.
#[derive(Clone, Debug, PartialEq)]
struct Pair {
    engines: [Engine; 2],
    memory: Vec<u8>,
    windows: Vec<Window>,
}

impl Pair {
    fn interleave(&mut self, numbers: &[u8]) -> Vec<Step> {
        interleave(&mut self.engines, &mut self.memory, &self.windows, numbers)
    }
}

/// All interleavings of so many steps of the first and of the second.
fn interleavings(first: usize, second: usize) -> Vec<Vec<u8>> {
    if first + second == 0 {
        return vec![vec![]];
    }
    let mut all = Vec::new();
    for (number, first_left, second_left) in
        [(1, first.checked_sub(1), Some(second)), (2, Some(first), second.checked_sub(1))]
    {
        if let (Some(first), Some(second)) = (first_left, second_left) {
            all.extend(interleavings(first, second).into_iter().map(|mut rest| {
                rest.insert(0, number);
                rest
            }));
        }
    }
    all
}

fn fetched(current: u32) -> Event {
    Event::Fetch { current }
}

fn moved(start: u32, bytes: u32) -> Event {
    Event::Move { start, bytes }
}

fn updated(current: u32, word: u32) -> Event {
    Event::Update { current, word }
}

const COMPLETE: u32 = 0x8000_0000;

/// A chain of one and a simple transfer from the same bytes, W=4 and L=16.
fn apart() -> Pair {
    let mut memory = vec![0; 1024];
    put(&mut memory, 64, &descriptor(64, 256, 515, 64, 0));
    put(&mut memory, 256, &counted(130));
    let engines = [chain(64, 64), simple(256, 704, 130)];
    Pair { engines, memory, windows: vec![(900, 10), (0, 0)] }
}

#[test]
fn two_transfers_apart_in_all_interleavings() {
    let start = apart();
    let mut memory = start.memory.clone();
    put(&mut memory, 515, &counted(64));
    put(&mut memory, 704, &counted(130));
    put(&mut memory, 92, &[0, 0, 0, 0x80]);
    let pointers = Engine { current: 64, tail: 64, next: 64, held_next: 64, ..fresh() };
    let end = Pair {
        engines: [
            Engine { sg_mode: true, ioc_irq: true, ..pointers },
            Engine { sa: 256, da: 704, btt: 130, ioc_irq: true, ..fresh() },
        ],
        memory,
        windows: start.windows.clone(),
    };
    let all = interleavings(5, 4);
    assert_eq!(all.len(), 126);
    for numbers in all {
        // Each has one step more than it needs, which does nothing.
        let mut pair = start.clone();
        let steps = pair.interleave(&numbers);
        assert!(steps.iter().map(|step| step.engine).eq(numbers));
        assert!(steps.iter().all(|step| step.answer == 0));
        assert_eq!(
            events(&steps, 1),
            [fetched(64), moved(515, 61), moved(576, 3), updated(64, COMPLETE)]
        );
        assert_eq!(events(&steps, 2), [moved(704, 64), moved(768, 64), moved(832, 2)]);
        assert_eq!(pair, end);
        assert!(!footprint(&steps, 1).collides(&footprint(&steps, 2)));
    }
}

#[test]
fn two_interleavings_that_leave_other_bytes() {
    let mut memory = vec![0; 64];
    put(&mut memory, 0, &[1, 2, 3, 4]);
    put(&mut memory, 16, &[5, 6, 7, 8]);
    let engines = [simple(0, 16, 4), simple(16, 32, 4)];
    let start = Pair { engines, memory, windows: vec![] };
    for (numbers, copied) in [([1, 2], [1, 2, 3, 4]), ([2, 1], [5, 6, 7, 8])] {
        let mut pair = start.clone();
        let steps = pair.interleave(&numbers);
        assert_eq!(
            (events(&steps, 1), events(&steps, 2)),
            (vec![moved(16, 4)], vec![moved(32, 4)])
        );
        assert_eq!(pair.memory[16..20], [1, 2, 3, 4]);
        assert_eq!(pair.memory[32..36], copied);
        assert!(footprint(&steps, 1).collides(&footprint(&steps, 2)));
        assert!(footprint(&steps, 2).collides(&footprint(&steps, 1)));
    }
}

#[test]
fn two_interleavings_with_other_events() {
    // The first copies a word with bit 31 over the status word of the second.
    let mut memory = vec![0; 512];
    put(&mut memory, 3, &[0x80]);
    put(&mut memory, 64, &descriptor(64, 256, 300, 4, 0));
    let start = Pair { engines: [simple(0, 92, 4), chain(64, 64)], memory, windows: vec![] };
    let halted = vec![Event::Halt { current: 64, bit: 8 }];
    let finished = vec![fetched(64), moved(300, 4), updated(64, COMPLETE)];
    for numbers in interleavings(1, 3) {
        let mut pair = start.clone();
        let steps = pair.interleave(&numbers);
        assert_eq!(events(&steps, 1), [moved(92, 4)]);
        let expected = if numbers[0] == 1 { &halted } else { &finished };
        assert_eq!(events(&steps, 2), *expected, "{numbers:?}");
        assert!(footprint(&steps, 1).collides(&footprint(&steps, 2)));
    }
    // It brings a descriptor, and a new source for what was fetched.
    let mut memory = vec![0; 512];
    put(&mut memory, 0, &descriptor(64, 256, 300, 4, 0));
    let start = Pair { engines: [simple(0, 64, 32), chain(64, 64)], memory, windows: vec![] };
    let internal = vec![fetched(64), updated(64, 0x1000_0000)];
    for numbers in interleavings(1, 3) {
        let steps = start.clone().interleave(&numbers);
        let expected = if numbers[0] == 1 { &finished } else { &internal };
        assert_eq!(events(&steps, 2), *expected, "{numbers:?}");
    }
}

#[test]
fn an_interleaving_with_other_numbers_and_refused_engines() {
    let start = apart();
    for number in [0, 3, 255] {
        let mut pair = start.clone();
        let steps = pair.interleave(&[number, 1, number, 2]);
        let refused = Step {
            engine: number,
            answer: 21,
            event: Event::None,
            footprint: Footprint::default(),
        };
        assert_eq!((&steps[0], &steps[2]), (&refused, &refused));
        let mut without = start.clone();
        assert_eq!(without.interleave(&[1, 2]), [steps[1].clone(), steps[3].clone()]);
        assert_eq!(pair, without);
        assert_eq!((events(&steps, number), footprint(&steps, number)), Default::default());
    }
    // A refused one changes nothing, and the other goes on.
    let settings = Engine { beats: 3, ..start.engines[0].clone() };
    let pointer = Engine { held_next: 32, ..start.engines[0].clone() };
    for (answer, refused) in [(1, settings), (9, pointer)] {
        let mut pair = start.clone();
        pair.engines[0] = refused.clone();
        let steps = pair.interleave(&[1, 2, 1, 2]);
        let answers: Vec<u32> = steps.iter().map(|step| step.answer).collect();
        assert_eq!(answers, [answer, 0, answer, 0]);
        assert_eq!((events(&steps, 1), footprint(&steps, 1)), Default::default());
        assert_eq!(pair.engines[0], refused);
        assert_eq!(events(&steps, 2), [moved(704, 64), moved(768, 64)]);
    }
    let mut pair = Pair { windows: vec![(0, 0); 17], ..start.clone() };
    let steps = pair.interleave(&[1, 2]);
    assert!(steps.iter().all(|step| step.answer == 6 && step.footprint == Footprint::default()));
    assert_eq!((pair.engines, pair.memory), (start.engines, start.memory));
    assert!(apart().interleave(&[]).is_empty());
}

// ---- Bytes read and written ----

fn set(range: &Range<u32>) -> Addresses {
    range.clone().collect()
}

/// Checks the bytes that each step of the first engine reads and writes.
fn leaves(engine: &Engine, memory: &[u8], windows: &[Window], steps: &[[Range<u32>; 2]]) {
    let engines = [engine.clone(), fresh()];
    let mut pair = Pair { engines, memory: memory.to_vec(), windows: windows.to_vec() };
    let mut all = Footprint::default();
    let taken = pair.interleave(&vec![1; steps.len()]);
    for ([reads, writes], step) in steps.iter().zip(&taken) {
        let expected = Footprint { reads: set(reads), writes: set(writes) };
        assert_eq!(step.footprint, expected, "{:?}", step.event);
        all.reads.extend(expected.reads);
        all.writes.extend(expected.writes);
    }
    assert_eq!(footprint(&taken, 1), all);
    assert_eq!(footprint(&taken, 2), Footprint::default());
}

const NONE: Range<u32> = 0..0;

#[test]
fn bytes_of_a_chain_and_of_a_simple_transfer() {
    let Pair { engines, memory, windows } = apart();
    let chained = [
        [64..96, NONE],
        [256..317, 515..576],
        [317..320, 576..579],
        [NONE, 92..96],
        [NONE, NONE],
        [NONE, NONE],
    ];
    leaves(&engines[0], &memory, &windows, &chained);
    let moves = [[256..320, 704..768], [320..384, 768..832], [384..386, 832..834], [NONE, NONE]];
    leaves(&engines[1], &memory, &windows, &moves);
    // Two descriptors, and a count of 0, which is read and updated.
    let mut memory = vec![0; 512];
    put(&mut memory, 64, &descriptor(128, 256, 300, 4, 0));
    put(&mut memory, 128, &descriptor(128, 256, 300, 0, 0));
    let steps = [
        [64..96, NONE],
        [256..260, 300..304],
        [NONE, 92..96],
        [128..160, NONE],
        [NONE, 156..160],
        [NONE, NONE],
    ];
    leaves(&chain(64, 128), &memory, &[], &steps);
}

#[test]
fn bytes_of_steps_that_fail() {
    let mut memory = vec![0; 512];
    put(&mut memory, 64, &descriptor(64, 256, 300, 4, 0));
    // A stale descriptor is read, one that answers badly is not, be it at its end alone.
    let mut stale = memory.clone();
    put(&mut stale, 95, &[0x80]);
    leaves(&chain(64, 64), &stale, &[], &[[64..96, NONE], [NONE, NONE]]);
    leaves(&chain(64, 64), &memory, &[(95, 1)], &[[NONE, NONE], [NONE, NONE]]);
    leaves(&chain(64, 64), &memory[..95], &[], &[[NONE, NONE], [NONE, NONE]]);
    leaves(&chain(64, 64), &stale, &[(64, 1)], &[[NONE, NONE], [NONE, NONE]]);
    // A move that fails reads nothing; its update writes.
    for window in [(259, 1), (303, 1)] {
        let steps = [[64..96, NONE], [NONE, NONE], [NONE, 92..96], [NONE, NONE]];
        leaves(&chain(64, 64), &memory, &[window], &steps);
    }
    leaves(&simple(256, 300, 4), &memory, &[(303, 1)], &[[NONE, NONE], [NONE, NONE]]);
    leaves(&simple(256, 509, 4), &memory, &[], &[[NONE, NONE], [NONE, NONE]]);
    // The second burst alone fails.
    let steps = [[0..64, 128..192], [NONE, NONE], [NONE, NONE]];
    leaves(&simple(0, 128, 65), &memory, &[(192, 1)], &steps);
    // An update that answers badly writes nothing.
    let waiting = Engine { phase: Phase::Update(Outcome::Complete), ..chain(64, 64) };
    leaves(&waiting, &memory, &[(92, 1)], &[[NONE, NONE]]);
    leaves(&waiting, &memory[..95], &[], &[[NONE, NONE]]);
    leaves(&waiting, &memory, &[(91, 1), (96, 1)], &[[NONE, 92..96]]);
    // Idle, and not stepped.
    leaves(&fresh(), &memory, &[], &[[NONE, NONE], [NONE, NONE]]);
}

#[test]
fn bytes_of_fixed_sides() {
    let fixed = |settings: (u32, u32), control: u32, transfer: (u32, u32, u32)| {
        let mut engine = Engine::fresh(settings.0, settings.1);
        for (offset, value) in
            [(CDMACR, control), (SA, transfer.0), (DA, transfer.1), (BTT, transfer.2)]
        {
            assert_eq!(engine.write(offset, value), 0);
        }
        assert!(!engine.idle());
        engine
    };
    let memory = vec![0; 8192];
    let engine = fixed((4, 16), KEY_HOLE_READ, (256, 512, 72));
    leaves(&engine, &memory, &[], &[[256..260, 512..576], [256..260, 576..584]]);
    // The page ends after three bytes: the first three of the word, and then all of it.
    let engine = fixed((8, 16), KEY_HOLE_READ, (256, 4093, 16));
    leaves(&engine, &memory, &[], &[[256..259, 4093..4096], [256..264, 4096..4109]]);
    let engine = fixed((4, 64), KEY_HOLE_WRITE, (257, 512, 68));
    leaves(&engine, &memory, &[], &[[257..321, 512..516], [321..325, 512..516], [NONE, NONE]]);
    let engine = fixed((4, 16), KEY_HOLE, (256, 512, 68));
    leaves(&engine, &memory, &[], &[[256..260, 512..516], [256..260, 512..516], [NONE, NONE]]);
    let engine = fixed((4, 16), KEY_HOLE, (256, 512, 68));
    leaves(&engine, &memory, &[(259, 1)], &[[NONE, NONE]]);
}

#[test]
fn footprints_that_collide() {
    let print = |reads: Range<u32>, writes: Range<u32>| Footprint {
        reads: set(&reads),
        writes: set(&writes),
    };
    let one = print(10..20, 30..40);
    for (reads, writes, collide) in [
        (NONE, NONE, false),
        (10..20, NONE, false),
        (0..30, 40..50, false),
        (40..50, 20..30, false),
        (0..31, NONE, true),
        (39..50, NONE, true),
        (NONE, 0..11, true),
        (NONE, 19..25, true),
        (NONE, 25..31, true),
        (NONE, 39..50, true),
        (10..20, 30..40, true),
    ] {
        let other = print(reads, writes);
        assert_eq!(one.collides(&other), collide, "{other:?}");
        assert_eq!(other.collides(&one), collide, "{other:?}");
    }
}

// ---- Any engines ----

/// A chain of three descriptors from `first` on, or a simple transfer, which keep to the 1,500 bytes
/// from `area` on.
fn some_worker(random: &mut Random, memory: &mut [u8], first: u32, area: u32) -> Engine {
    let (width, beats) = listed(random);
    let place = |random: &mut Random| area + random.below(1300);
    let started = if random.one_in(3) {
        simple(place(random), place(random), 1 + random.below(200))
    } else {
        for at in [first, first + 64, first + 128] {
            let (source, destination) = (place(random), place(random));
            let count = if random.one_in(8) { 0 } else { 1 + random.below(200) };
            let status = if random.one_in(8) { random.u32() } else { 0 };
            put(memory, at, &descriptor(at + 64, source, destination, count, status));
        }
        chain(first, first + 128)
    };
    Engine { width, beats, ..started }
}

/// Two engines in any state, or two at work in two areas or in one.
fn some_pair(random: &mut Random) -> Pair {
    if random.one_in(3) {
        let length = 64 + random.below(1200);
        let mut engines = [some_engine(random, length), some_engine(random, length)];
        if random.one_in(4) {
            engines[random.below(2) as usize] = fresh(); // idle
        }
        let memory = some_memory(random, length);
        return Pair { engines, memory, windows: some_windows(random, length) };
    }
    let mut memory = random.bytes(4096);
    let first = some_worker(random, &mut memory, 0, 512);
    let area = random.pick(&[512, 2048]);
    let engines = [first, some_worker(random, &mut memory, 192, area)];
    let windows = if random.one_in(3) { some_windows(random, 4096) } else { vec![] };
    Pair { engines, memory, windows }
}

/// So many ones and twos, in any order.
fn some_order(random: &mut Random, first: usize, second: usize) -> Vec<u8> {
    let mut left = [vec![1; first], vec![2; second]].concat();
    let mut numbers = Vec::new();
    while !left.is_empty() {
        numbers.push(left.swap_remove(random.below(left.len() as u32) as usize));
    }
    numbers
}

/// If the footprints of the two, each run alone, do not collide, all interleavings agree.
#[test]
fn any_two_engines_apart_agree_in_every_order() {
    let mut random = Random::new(11, 3);
    // Pairs that keep apart, of these those in which both write, pairs that collide, and of these
    // those in which two orders differ.
    let (mut kept_apart, mut both_write, mut collided, mut differed) = (0, 0, 0, 0);
    for _ in 0..10_000 {
        let start = some_pair(&mut random);
        let (first, second) = (random.below(13) as usize, random.below(13) as usize);
        let mut alone = [start.clone(), start.clone()];
        let steps_alone =
            [alone[0].interleave(&vec![1; first]), alone[1].interleave(&vec![2; second])];
        let prints = [footprint(&steps_alone[0], 1), footprint(&steps_alone[1], 2)];
        let events_alone = [events(&steps_alone[0], 1), events(&steps_alone[1], 2)];
        let run = |numbers: &[u8]| {
            let mut pair = start.clone();
            let steps = pair.interleave(numbers);
            (pair, steps)
        };
        let orders = [(); 3].map(|()| some_order(&mut random, first, second));
        if prints[0].collides(&prints[1]) {
            collided += 1;
            let [one, other] = [&orders[0], &orders[1]].map(|numbers| {
                let (pair, steps) = run(numbers);
                (pair, events(&steps, 1), events(&steps, 2))
            });
            differed += i32::from(one != other);
            continue;
        }
        // Each byte as the one that wrote it alone left it.
        let mut memory = start.memory.clone();
        for (alone, print) in alone.iter().zip(&prints) {
            for &at in &print.writes {
                memory[at as usize] = alone.memory[at as usize];
            }
        }
        for numbers in &orders {
            let (pair, steps) = run(numbers);
            for (number, place) in [(1, 0), (2, 1)] {
                assert_eq!(events(&steps, number), events_alone[place]);
                assert_eq!(footprint(&steps, number), prints[place]);
                assert_eq!(pair.engines[place], alone[place].engines[place]);
                let own = steps.iter().filter(|step| step.engine == number);
                assert!(own.eq(&steps_alone[place]));
            }
            assert!(pair.memory == memory, "{numbers:?}");
        }
        kept_apart += 1;
        both_write += i32::from(prints.iter().all(|print| !print.writes.is_empty()));
    }
    let counts = [kept_apart, both_write, collided, differed];
    assert!(counts.iter().all(|&count| count > 300), "{counts:?}");
}

/// Each step is that of a single engine on the memory as it stands.
#[test]
fn any_interleaving_is_single_steps() {
    let mut random = Random::new(11, 4);
    for _ in 0..3000 {
        let mut pair = some_pair(&mut random);
        let mut single = pair.clone();
        let numbers = some_order(&mut random, 9, 9);
        let steps = pair.interleave(&numbers);
        for (number, step) in numbers.iter().zip(steps) {
            let Pair { engines, memory, windows } = &mut single;
            let engine = &mut engines[usize::from(number - 1)];
            assert_eq!(engine.step(memory, windows), (step.answer, step.event));
            assert_eq!(step.engine, *number);
        }
        assert_eq!(pair, single);
    }
}

/// A step changes no byte but those it writes, and goes by no byte but those it reads.
#[test]
fn any_step_keeps_to_its_bytes() {
    let mut random = Random::new(11, 5);
    // Steps by event: none, fetch, move, fault, update, halt.
    let mut seen = [0; 6];
    for _ in 0..6000 {
        let mut pair = some_pair(&mut random);
        for number in some_order(&mut random, 6, 6) {
            let before = pair.clone();
            let step = pair.interleave(&[number]).remove(0);
            let Footprint { reads, writes } = &step.footprint;
            seen[match step.event {
                Event::None => 0,
                Event::Fetch { .. } => 1,
                Event::Move { .. } => 2,
                Event::Fault { .. } => 3,
                Event::Update { .. } => 4,
                Event::Halt { .. } => 5,
            }] += 1;
            for (at, (now, then)) in pair.memory.iter().zip(&before.memory).enumerate() {
                assert!(now == then || writes.contains(&(at as u32)), "{at} by {:?}", step.event);
            }
            let other = usize::from(2 - number);
            assert_eq!(pair.engines[other], before.engines[other]);
            // All bytes that it does not read, made other ones.
            let mut changed = before.clone();
            for (at, byte) in changed.memory.iter_mut().enumerate() {
                if !reads.contains(&(at as u32)) {
                    *byte = random.u32() as u8;
                }
            }
            let mut memory = changed.memory.clone();
            assert_eq!(changed.interleave(&[number]).remove(0), step);
            for &at in writes {
                memory[at as usize] = pair.memory[at as usize];
            }
            assert_eq!(changed.engines, pair.engines);
            assert!(changed.memory == memory, "{:?}", step.event);
        }
    }
    assert!(seen.iter().all(|&count| count > 500), "{seen:?}");
}
