// Tests of the replay: RULES.md, "Trace and listing", the whole case, each record kind and
// each refusal with its order, and any bytes at all.

mod common;

use common::{damage, descriptor, slow_listing, some_trace, Pieces, Trace, HEADER, VALID};
use independent::answer;
use independent::engine::Event;
use independent::monitor::Clock;
use independent::older;
use independent::record::Record;
use independent::trace::{replay, replay_before, replay_stream, Observer, Replay};
use shared::random::Random;
use std::io::{self, Read, Write};

/// The listing without its header and the line of the default settings, and whether it is sound.
fn listing(trace: &Trace) -> (String, bool) {
    let mut output = Vec::new();
    let sound = replay(&trace.0, &mut output);
    let text = String::from_utf8(output).unwrap();
    let start = format!("{HEADER}{}", default_line(&trace.0));
    let lines = text.strip_prefix(&start).unwrap().to_string();
    assert!(lines.is_empty() || lines.ends_with('\n'));
    let ends_bad = lines.lines().last().is_some_and(|line| line.split(' ').nth(1) == Some("bad"));
    assert_eq!(sound, !ends_bad);
    (lines, sound)
}

/// A trace that is not empty and does not start with CF or C2 has a line for W=4, L=64.
fn default_line(trace: &[u8]) -> &'static str {
    if trace.is_empty() || trace.starts_with(b"CF") || trace.starts_with(b"C2") {
        ""
    } else {
        "0 set 4 64\n"
    }
}

fn good(trace: &Trace, expected: &str) {
    assert_eq!(listing(trace), (expected.to_string(), true));
}

fn bad(trace: &Trace, expected: &str) {
    assert_eq!(listing(trace), (expected.to_string(), false));
}

#[test]
fn whole_case() {
    let trace = Trace::new().cf(1, 4, 16).wr(2, 24, 256).wr(9, 32, 4088).wr(10, 40, 16).st(11, 5);
    let mut output = Vec::new();
    assert!(replay(&trace.0, &mut output));
    let expected = "seq event first second\n\
                    1 set 4 16\n\
                    2 write 24 0\n\
                    9 write 32 0\n\
                    10 write 40 0\n\
                    11 move 4088 8\n\
                    11 move 4096 8\n\
                    11 stop 2 1\n";
    assert_eq!(String::from_utf8(output).unwrap(), expected);
}

#[test]
fn empty_input_is_the_header_alone() {
    let mut output = b"before".to_vec();
    assert!(replay(&[], &mut output));
    assert_eq!(output, b"beforeseq event first second\n");
}

#[test]
fn settings() {
    good(&Trace::new().cf(7, 128, 256), "7 set 128 256\n");
    for (width, beats) in [(0, 16), (4, 0), (256, 16), (4, 512), (5, 16), (4, 65535)] {
        bad(&Trace::new().cf(7, width, beats).st(8, 1), "0 bad 1 0\n");
    }
    // Without a CF: W=4, L=64.
    let trace = Trace::new().wr(1, 40, 257).st(2, 9);
    good(&trace, "1 write 40 0\n2 move 0 256\n2 move 256 1\n2 stop 2 1\n");
    // With it, its settings: two beats of four bytes; and for the monitor's width.
    let trace = Trace::new().cf(1, 4, 2).wr(2, 40, 17).st(3, 9);
    good(&trace, "1 set 4 2\n2 write 40 0\n3 move 0 8\n3 move 8 8\n3 move 16 1\n3 stop 3 1\n");
    let quiet = Clock { valid: false, ..VALID };
    let clock = Clock { size: 3, ..VALID };
    good(&Trace::new().ar(1, &quiet).ar(2, &clock), "1 bus 0 0\n2 bus 1 44\n");
    let trace = Trace::new().cf(1, 8, 2).ar(2, &quiet).ar(3, &clock);
    good(&trace, "1 set 8 2\n2 bus 0 0\n3 bus 0 0\n");
    // Reset keeps them.
    let trace = Trace::new().cf(1, 4, 2).wr(2, 0, 4).wr(3, 40, 9).st(4, 9);
    good(&trace, "1 set 4 2\n2 write 0 0\n3 write 40 0\n4 move 0 8\n4 move 8 1\n4 stop 2 1\n");
}

#[test]
fn memory_records() {
    let trace = Trace::new().mm(1, 0, &[1]).mm(2, 32767, &[2]).mm(3, 31744, &[3; 1024]);
    good(&trace, "1 memory 0 1\n2 memory 32767 1\n3 memory 31744 1024\n");
    let first = Trace::new().mm(5, 0, &[1]); // 13 bytes
    bad(&first.clone().mm(6, 32767, &[1, 2]), "5 memory 0 1\n5 bad 12 13\n");
    bad(&first.clone().mm(6, 32768, &[1]), "5 memory 0 1\n5 bad 12 13\n");
    bad(&first.clone().mm(6, u32::MAX, &[1]), "5 memory 0 1\n5 bad 12 13\n");
    bad(&first.clone().mm(6, 31745, &[1; 1024]), "5 memory 0 1\n5 bad 12 13\n");
    bad(&first.clone().mm(6, 0, &[]), "5 memory 0 1\n5 bad 10 13\n");
    bad(&first.mm(6, 0, &[0; 1025]), "5 memory 0 1\n5 bad 10 13\n");
}

#[test]
fn windows() {
    let mut trace = Trace::new();
    let mut expected = String::new();
    for n in 1..=16 {
        trace = trace.sw(n, 4_294_967_295, 0);
        expected += &format!("{n} window 4294967295 0\n");
    }
    good(&trace, &expected);
    let seventeen = trace.clone().sw(17, 0, 0);
    bad(&seventeen, &format!("{expected}16 bad 6 {}\n", 16 * 14));
    // The step after sixteen is not refused.
    good(
        &trace.wr(20, 40, 1).st(21, 1),
        &format!("{expected}20 write 40 0\n21 move 0 1\n21 stop 1 1\n"),
    );
    // A window counts from the next step on; MM writes whatever it says.
    let trace = Trace::new()
        .wr(1, 40, 257)
        .st(2, 1)
        .sw(3, 256, 1)
        .mm(4, 252, &[1, 2, 3, 4, 5])
        .st(5, 1)
        .rd(6, 4);
    good(
        &trace,
        "1 write 40 0\n2 move 0 256\n2 stop 1 0\n3 window 256 1\n4 memory 252 5\n\
         5 fault 256 5\n5 stop 1 1\n6 read 4 81962\n",
    );
}

#[test]
fn writes_and_reads() {
    let trace = Trace::new()
        .rd(1, 0)
        .rd(2, 4)
        .wr(3, 24, u32::MAX)
        .rd(4, 24)
        .rd(5, 41)
        .wr(6, 44, 0)
        .wr(7, 65535, 9)
        .rd(8, 65535)
        .wr(9, 16, 64)
        .wr(10, 40, 0)
        .wr(11, 40, 1)
        .rd(12, 4)
        .wr(13, 0, 4)
        .rd(14, 4)
        .wr(15, 12, 3)
        .rd(16, 12);
    good(
        &trace,
        "1 read 0 65538\n2 read 4 65546\n3 write 24 0\n4 read 24 4294967295\n5 noread 41 3\n\
         6 write 44 3\n7 write 65535 3\n8 noread 65535 3\n9 write 16 4\n10 write 40 0\n\
         11 write 40 5\n12 read 4 81946\n13 write 0 0\n14 read 4 65546\n15 write 12 0\n16 read 12 0\n",
    );
    // A refused WR or RD is a good record: its number counts for 11 and for the bad line.
    let refused = Trace::new().rd(5, 1).wr(6, 3, 0); // 8 + 12 bytes
    bad(&refused.clone().rd(6, 0), "5 noread 1 3\n6 write 3 3\n6 bad 11 20\n");
    bad(&refused.raw(b"??"), "5 noread 1 3\n6 write 3 3\n6 bad 10 20\n");
}

#[test]
fn steps_of_a_chain() {
    let trace = Trace::new()
        .mm(1, 64, &descriptor(128, 1024, 2000, 300, 0))
        .mm(2, 128, &descriptor(192, 1024, 3000, 0, 0))
        .wr(3, 0, 8)
        .wr(4, 8, 64)
        .wr(5, 16, 192)
        .st(6, 0)
        .st(7, 2)
        .st(8, 65535)
        .st(9, 5)
        .rd(10, 8);
    good(
        &trace,
        "1 memory 64 32\n2 memory 128 32\n3 write 0 0\n4 write 8 0\n5 write 16 0\n6 stop 0 0\n\
         7 fetch 64 0\n7 move 2000 256\n7 stop 2 0\n\
         8 move 2256 44\n8 update 64 2147483648\n8 fetch 128 0\n8 update 128 268435456\n8 stop 4 1\n\
         9 stop 0 1\n10 read 8 128\n",
    );
    // Halts, by their bits; a fault with its update.
    let chain = |trace: Trace| trace.wr(10, 0, 8).wr(11, 8, 32704).wr(12, 16, 0).st(13, 9);
    let head = "10 write 0 0\n11 write 8 0\n12 write 16 0\n";
    let trace = chain(Trace::new().sw(1, 32704, 1));
    good(&trace, &format!("1 window 32704 1\n{head}13 halt 32704 9\n13 stop 1 1\n"));
    let trace = chain(Trace::new().mm(1, 32735, &[0x80]));
    good(&trace, &format!("1 memory 32735 1\n{head}13 halt 32704 8\n13 stop 1 1\n"));
    let trace = Trace::new().wr(1, 0, 8).wr(2, 8, 32768).wr(3, 16, 0).st(4, 9);
    good(&trace, "1 write 0 0\n2 write 8 0\n3 write 16 0\n4 halt 32768 10\n4 stop 1 1\n");
    let trace = chain(Trace::new().mm(1, 32704, &descriptor(0, 40000, 9, 5, 0)));
    good(
        &trace,
        &format!(
            "1 memory 32704 32\n{head}13 fetch 32704 0\n13 fault 40000 6\n\
             13 update 32704 1073741824\n13 stop 3 1\n"
        ),
    );
    // A window set over the status word in the midst: the update halts.
    let trace = Trace::new()
        .mm(1, 0, &descriptor(0, 100, 200, 5, 0))
        .wr(2, 0, 8)
        .wr(3, 16, 0)
        .st(4, 2)
        .sw(5, 28, 4)
        .st(6, 9);
    good(
        &trace,
        "1 memory 0 32\n2 write 0 0\n3 write 16 0\n4 fetch 0 0\n4 move 200 5\n4 stop 2 0\n\
         5 window 28 4\n6 halt 0 9\n6 stop 1 1\n",
    );
    // A fetched descriptor keeps what was read; the stale bit written after is overwritten.
    let trace = Trace::new()
        .mm(1, 0, &descriptor(64, 100, 200, 5, 0))
        .wr(2, 0, 8)
        .wr(3, 16, 0)
        .st(4, 1)
        .mm(5, 0, &descriptor(640, 7, 8, 9, u32::MAX))
        .st(6, 9)
        .wr(7, 16, 64)
        .rd(8, 8);
    good(
        &trace,
        "1 memory 0 32\n2 write 0 0\n3 write 16 0\n4 fetch 0 0\n4 stop 1 0\n5 memory 0 32\n\
         6 move 200 5\n6 update 0 2147483648\n6 stop 2 1\n7 write 16 0\n8 read 8 64\n",
    );
}

#[test]
fn bus_records() {
    let quiet = Clock { valid: false, ..VALID };
    let trace = Trace::new()
        .ar(1, &VALID)
        .ar(2, &Clock { address: 4_294_967_295, burst: 1, length: 255, ready: true, ..VALID })
        .ar(3, &quiet)
        .ar(4, &Clock { reset_high: false, ..quiet })
        .ar(5, &quiet)
        .ar(6, &Clock { id: 1, ..VALID })
        .ar(7, &Clock { id: 2, ..VALID });
    good(
        &trace,
        "1 bus 1 45\n2 bus 5 37\n3 bus 5 37\n4 bus 0 0\n5 bus 0 0\n6 bus 0 0\n7 bus 1 49\n",
    );
    // Each field out of range, in reset and with valid low too; the mark's position.
    let first = Trace::new().rd(9, 0); // 8 bytes
    for bits in [0, 1, 3, 7] {
        for clock in [
            Clock { size: 8, ..VALID },
            Clock { burst: 4, ..VALID },
            Clock { cache: 16, ..VALID },
            Clock { prot: 8, ..VALID },
            Clock { qos: 16, ..VALID },
            Clock { region: 255, ..VALID },
        ] {
            bad(&first.clone().ar_bits(10, bits, &clock), "9 read 0 65538\n9 bad 13 8\n");
        }
    }
    for bits in 0..=255 {
        let trace = first.clone().ar_bits(10, bits, &VALID);
        match bits {
            0..=7 => assert!(listing(&trace).1),
            _ => bad(&trace, "9 read 0 65538\n9 bad 13 8\n"),
        }
    }
}

#[test]
fn a_late_cf_and_unknown_marks() {
    bad(&Trace::new().cf(1, 4, 16).cf(2, 4, 16), "1 set 4 16\n1 bad 10 10\n");
    bad(&Trace::new().rd(3, 12).cf(4, 4, 16), "3 read 12 0\n3 bad 10 8\n");
    // 10 before 11: a late CF with an old number.
    bad(&Trace::new().rd(3, 12).cf(3, 4, 16), "3 read 12 0\n3 bad 10 8\n");
    for mark in [b"cf", b"FC", b"WM", b"\0\0", b"\xff\xff", b"RA", b"SR", b"MW", b"C ", b"\nS"] {
        bad(&Trace::new().raw(mark).raw(&[1; 40]), "0 bad 10 0\n");
    }
}

#[test]
fn every_record_cut_short() {
    let before = Trace::new().rd(1, 8); // 8 bytes
    let records = [
        Trace::new().mm(2, 0, &[1, 2, 3]),
        Trace::new().sw(2, 0, 0),
        Trace::new().wr(2, 24, 1),
        Trace::new().rd(2, 8),
        Trace::new().st(2, 1),
        Trace::new().ar(2, &VALID),
    ];
    for record in records {
        assert!(listing(&before.clone().raw(&record.0)).1);
        for length in 1..record.0.len() {
            let cut = before.clone().raw(&record.0[..length]);
            bad(&cut, "1 read 8 0\n1 bad 10 8\n");
        }
    }
    let settings = Trace::new().cf(1, 4, 16);
    for length in 1..settings.0.len() {
        bad(&Trace::new().raw(&settings.0[..length]), "0 bad 10 0\n");
    }
}

#[test]
fn sequence_numbers() {
    bad(&Trace::new().rd(0, 8), "0 bad 11 0\n");
    bad(&Trace::new().rd(5, 8).rd(5, 8), "5 read 8 0\n5 bad 11 8\n");
    bad(&Trace::new().rd(5, 8).rd(4, 8), "5 read 8 0\n5 bad 11 8\n");
    good(&Trace::new().rd(1, 8).rd(u32::MAX, 8), "1 read 8 0\n4294967295 read 8 0\n");
    bad(
        &Trace::new().rd(u32::MAX, 8).rd(u32::MAX, 8),
        "4294967295 read 8 0\n4294967295 bad 11 8\n",
    );
    // CF alone may carry 0, so no number keeps it from its own refusal.
    bad(&Trace::new().cf(0, 5, 5), "0 bad 1 0\n");
    // 11 before each other record's own refusal.
    let first = Trace::new().rd(5, 8);
    let line = "5 read 8 0\n5 bad 11 8\n";
    bad(&first.clone().mm(5, 32768, &[1]), line);
    bad(&first.clone().ar_bits(5, 255, &VALID), line);
    bad(&first.clone().wr(5, 3, 0), line);
    bad(&first.clone().rd(5, 3), line);
    bad(&first.clone().st(1, 0), line);
    let mut full = Trace::new();
    for n in 1..=16 {
        full = full.sw(n, 0, 0);
    }
    let (text, _) = listing(&full.sw(16, 0, 0));
    assert!(text.ends_with("\n16 bad 11 224\n"));
    // 10 before 11: cut short, and a length out of range.
    bad(&first.clone().mm(5, 0, &[]), "5 read 8 0\n5 bad 10 8\n");
    bad(&first.clone().raw(b"RD\x01\0\0\0\0"), "5 read 8 0\n5 bad 10 8\n");
    // 10 before 12.
    bad(&first.mm(6, 40000, &[]), "5 read 8 0\n5 bad 10 8\n");
}

#[test]
fn nothing_after_a_bad_line() {
    let trace = Trace::new().rd(5, 8).rd(5, 8).rd(6, 8).cf(7, 4, 16);
    bad(&trace, "5 read 8 0\n5 bad 11 8\n");
}

#[test]
fn numbers_of_every_length() {
    let mut trace = Trace::new();
    let mut expected = String::new();
    let mut sequence = 0u32;
    for power in 0..10 {
        let ten = 10u32.pow(power);
        for value in [ten - 1, ten, ten + 1, ten.wrapping_mul(9)] {
            sequence = sequence.max(value).max(sequence + 1);
            trace = trace.wr(sequence, 24, value).rd(sequence + 1, 24);
            expected += &format!("{sequence} write 24 0\n{} read 24 {value}\n", sequence + 1);
            sequence += 1;
        }
        if power == 8 {
            break;
        }
    }
    good(&trace, &expected);
    let trace = Trace::new().sw(1, u32::MAX, u32::MAX);
    good(&trace, "1 window 4294967295 4294967295\n");
}

#[test]
fn numbers_that_follow_each_other_and_any_others() {
    let mut random = Random::new(11, 0);
    let mut trace = Trace::new();
    let mut expected = String::new();
    // Each sequence number is one above the last over all carries up to five digits, then some
    // skip; and the values have any number of digits.
    let mut sequence = 0;
    while sequence < 4_000_000_000 {
        let skip = if sequence < 12_000 { 1 } else { random.pick(&[1, 1, 2, 99_999, 1_000_003]) };
        sequence += skip;
        let value = random.u32() >> random.below(32);
        trace = trace.wr(sequence, 24, value).rd(sequence + 1, 24);
        sequence += 1;
        expected += &format!("{} write 24 0\n{sequence} read 24 {value}\n", sequence - 1);
    }
    good(&trace, &expected);
}

#[test]
fn random_bytes_never_panic() {
    let mut random = Random::new(7, 0);
    for _ in 0..6000 {
        let length = random.below(200);
        let bytes: Vec<u8> = (0..length).map(|_| random.u32() as u8).collect();
        let (lines, sound) = listing(&Trace(bytes));
        assert_eq!(sound, lines.is_empty());
    }
}

const MARKS: [&[u8]; 7] = [b"CF", b"MM", b"SW", b"WR", b"RD", b"ST", b"AR"];

#[test]
fn random_bytes_behind_good_marks_never_panic() {
    let mut random = Random::new(8, 0);
    for _ in 0..6000 {
        let mut bytes = Vec::new();
        for n in 1..=random.below(20) {
            bytes.extend_from_slice(random.pick(&MARKS));
            bytes.extend_from_slice(&n.to_le_bytes());
            for _ in 0..random.pick(&[2, 2, 4, 6, 6, 8, 16, 20]) {
                let byte = if random.one_in(2) { random.below(9) } else { random.u32() };
                bytes.push(byte as u8);
            }
        }
        listing(&Trace(bytes));
    }
}

#[test]
fn good_traces_list_as_the_slow_listing() {
    let mut random = Random::new(9, 0);
    let words = [
        "set", "memory", "window", "write", "read", "noread", "fetch", "move", "fault", "update",
        "halt", "stop", "bus",
    ];
    let mut seen = [0; 13];
    for _ in 0..4000 {
        let trace = some_trace(&mut random);
        let mut output = Vec::new();
        assert!(replay(&trace.0, &mut output));
        let text = String::from_utf8(output).unwrap();
        assert_eq!(text, slow_listing(&trace.0, 64, default_line(&trace.0)));
        let mut output = Vec::new();
        if older::replay(&trace.0, &mut output) {
            assert_eq!(String::from_utf8(output).unwrap(), slow_listing(&trace.0, 16, ""));
        } else {
            // None but a CF carries 0 here.
            assert!(trace.0.starts_with(b"CF\0\0\0\0"));
        }
        for line in text.lines().skip(1) {
            let word = line.split(' ').nth(1).unwrap();
            seen[words.iter().position(|&known| known == word).unwrap()] += 1;
        }
    }
    assert!(seen.iter().all(|&count| count > 100), "{seen:?}");
}

#[test]
fn damaged_traces_never_panic_and_share_their_beginning() {
    let mut random = Random::new(10, 0);
    let mut answers = [0; 14];
    for _ in 0..6000 {
        let whole = some_trace(&mut random);
        if whole.0.is_empty() {
            continue;
        }
        let mut damaged = whole.clone();
        damage(&mut random, &mut damaged.0);
        let (lines, sound) = listing(&damaged);
        if !sound {
            let parts: Vec<u32> = lines
                .lines()
                .last()
                .unwrap()
                .split(' ')
                .filter_map(|part| part.parse().ok())
                .collect();
            answers[parts[1] as usize] += 1;
            // The records before the bad one list the same by themselves.
            let (before, good) = listing(&Trace(damaged.0[..parts[2] as usize].to_vec()));
            assert!(good && lines.starts_with(&before));
            assert_eq!(lines[before.len()..].lines().count(), 1);
        }
    }
    for number in [answer::SETTINGS, answer::RECORD, answer::SEQUENCE, answer::PLACE, answer::FIELD]
    {
        assert!(answers[number as usize] > 0, "{answers:?}");
    }
}

#[test]
fn a_stream_lists_as_the_whole_trace() {
    let mut random = Random::new(12, 0);
    for round in 0..600 {
        // Longer than what is read at once, and sometimes bad at the end.
        let mut trace = Trace::new();
        for _ in 0..if round % 20 == 0 { 300 } else { 1 } {
            let last = listing(&trace)
                .0
                .lines()
                .last()
                .map_or(0, |line| line.split(' ').next().unwrap().parse().unwrap());
            trace =
                trace.mm(last + 1, random.below(31_000), &vec![7; 1 + random.below(1024) as usize]);
        }
        if random.one_in(3) {
            trace = trace.raw(&some_trace(&mut random).0);
        }
        let mut whole = Vec::new();
        let sound = replay(&trace.0, &mut whole);
        let most = random.pick(&[1, 3, 40, 3000, 200_000]);
        let pieces = Pieces { rest: &trace.0, most, random: Random::new(round, 1) };
        let mut streamed = Vec::new();
        assert_eq!(replay_stream(pieces, &mut streamed).unwrap(), sound);
        assert_eq!(streamed, whole);
    }
}

/// Takes nothing.
struct Full;

impl Write for Full {
    fn write(&mut self, _: &[u8]) -> io::Result<usize> {
        Err(io::ErrorKind::StorageFull.into())
    }

    fn flush(&mut self) -> io::Result<()> {
        Ok(())
    }
}

#[test]
fn a_listing_that_cannot_be_written_is_an_error() {
    let trace = Trace::new().rd(1, 4);
    let error = replay_stream(&trace.0[..], Full).unwrap_err();
    assert_eq!(error.kind(), io::ErrorKind::StorageFull);
    // A trace without an end too: the replay stops at what it cannot write.
    let endless = io::repeat(0).chain(&trace.0[..]);
    assert!(replay_stream(endless, Full).is_err());
}

/// Counts what it is told, and that steps come in pairs.
#[derive(Default)]
struct Looker {
    lines: usize,
    records: usize,
    open: bool,
    refused: u32,
}

impl Observer for Looker {
    fn defaulted(&mut self, _: &Replay) {
        self.lines += 1;
    }

    fn record(&mut self, replay: &Replay, _: &Record<&[u8]>) {
        assert!(replay.windows().len() <= 16);
        self.records += 1;
    }

    fn carried_out(&mut self, _: &Replay, _: &Record<&[u8]>) {
        self.lines += 1;
    }

    fn refused(&mut self, _: &Replay, trace: &[u8], answer: u32) {
        assert!(!trace.is_empty());
        self.refused = answer;
        self.lines += 1;
    }

    fn step(&mut self, replay: &Replay) {
        assert!(!self.open && !replay.engine().idle());
        self.open = true;
    }

    fn stepped(&mut self, _: &Replay, event: Event) {
        assert!(self.open && event != Event::None);
        self.open = false;
        self.lines += 1;
    }
}

#[test]
fn an_observer_is_told_of_each_line_and_changes_none() {
    let mut random = Random::new(13, 0);
    for _ in 0..3000 {
        let mut trace = some_trace(&mut random);
        if random.one_in(2) {
            trace.0.truncate(random.below(trace.0.len() as u32 + 1) as usize);
        }
        let (mut alone, mut watched) = (Vec::new(), Vec::new());
        let mut looker = Looker::default();
        let sound = replay(&trace.0, &mut alone);
        assert_eq!(replay_before(&trace.0, &mut watched, &mut looker), sound);
        assert_eq!(watched, alone);
        assert_eq!(looker.lines + 1, watched.iter().filter(|byte| **byte == b'\n').count());
        assert_eq!(looker.refused != 0, !sound);
    }
}
