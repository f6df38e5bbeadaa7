// Tests of the default burst: RULES.md, "Trace and listing". What a trace means that does not start
// with CF or C2, a CF that carries 0, and the converter of older traces: listings worked out by hand
// from the rules, whole and from streams cut in all places, and how the listings of any traces go
// together. The rules before are in `older`.

mod common;

use common::{
    damage, descriptor, from_all_streams, some_trace, Pieces, Trace, HEADER, QUIET, VALID,
};
use independent::convert::convert_stream;
use independent::monitor::Clock;
use independent::older;
use independent::record::Record;
use independent::trace::{replay, replay_before, replay_stream, Observer, Replay};
use shared::random::Random;
use std::cell::Cell;
use std::io::{self, Read, Write};

/// What the converter puts before an older trace.
const PUT_BEFORE: [u8; 10] = [b'C', b'F', 0, 0, 0, 0, 4, 0, 16, 0];

// ---- Listings ----

/// The text of a listing, which is sound if its last line is not a bad one.
fn text(output: Vec<u8>, sound: bool) -> String {
    let text = String::from_utf8(output).unwrap();
    let last = text.lines().last().unwrap();
    assert_eq!(sound, last.split(' ').nth(1) != Some("bad"), "{text}");
    text
}

fn list(trace: &[u8]) -> String {
    let mut output = Vec::new();
    let sound = replay(trace, &mut output);
    text(output, sound)
}

fn list_older(trace: &[u8]) -> String {
    let mut output = Vec::new();
    let sound = older::replay(trace, &mut output);
    text(output, sound)
}

fn list_stream(input: impl Read) -> String {
    let mut output = Vec::new();
    let sound = replay_stream(input, &mut output).unwrap();
    text(output, sound)
}

fn list_older_stream(input: impl Read) -> String {
    let mut output = Vec::new();
    let sound = older::replay_stream(input, &mut output).unwrap();
    text(output, sound)
}

/// Checks the lines under the header.
fn lists(trace: &Trace, lines: &str) {
    let expected = format!("{HEADER}{lines}");
    assert_eq!(list(&trace.0), expected, "{:?}", trace.0);
    from_all_streams(&trace.0, |input| assert_eq!(list_stream(input), expected));
}

/// The same by the older rules.
fn lists_older(trace: &Trace, lines: &str) {
    let expected = format!("{HEADER}{lines}");
    assert_eq!(list_older(&trace.0), expected, "{:?}", trace.0);
    from_all_streams(&trace.0, |input| assert_eq!(list_older_stream(input), expected));
}

/// A good record of each kind but CF, with this number.
fn records(number: u32) -> [Trace; 6] {
    [
        Trace::new().mm(number, 0, &[1, 2, 3]),
        Trace::new().sw(number, 1, 2),
        Trace::new().wr(number, 24, 1),
        Trace::new().rd(number, 8),
        Trace::new().st(number, 1),
        Trace::new().ar(number, &QUIET),
    ]
}

// ---- A trace that does not start with CF ----

#[test]
fn words_of_four_bytes_and_64_beats() {
    let trace = Trace::new().wr(1, 40, 256).st(2, 9);
    lists(&trace, "0 set 4 64\n1 write 40 0\n2 move 0 256\n2 stop 1 1\n");
    let trace = Trace::new().wr(1, 40, 257).st(2, 9);
    lists(&trace, "0 set 4 64\n1 write 40 0\n2 move 0 256\n2 move 256 1\n2 stop 2 1\n");
    // From byte 3 on, 64 words end at 256.
    let trace = Trace::new().wr(1, 32, 3).wr(2, 40, 256).st(3, 9);
    lists(
        &trace,
        "0 set 4 64\n1 write 32 0\n2 write 40 0\n3 move 3 253\n3 move 256 3\n3 stop 2 1\n",
    );
    // A page ends earlier.
    let trace = Trace::new().wr(1, 32, 4000).wr(2, 40, 300).st(3, 9);
    lists(
        &trace,
        "0 set 4 64\n1 write 32 0\n2 write 40 0\n3 move 4000 96\n3 move 4096 204\n3 stop 2 1\n",
    );
    // In a chain too.
    let trace = Trace::new()
        .mm(1, 64, &descriptor(128, 1024, 2048, 257, 0))
        .wr(2, 0, 8)
        .wr(3, 8, 64)
        .wr(4, 16, 64)
        .st(5, 9);
    lists(
        &trace,
        "0 set 4 64\n1 memory 64 32\n2 write 0 0\n3 write 8 0\n4 write 16 0\n5 fetch 64 0\n\
         5 move 2048 256\n5 move 2304 1\n5 update 64 2147483648\n5 stop 4 1\n",
    );
}

#[test]
fn reset_keeps_64_beats_and_the_monitor_has_the_width() {
    let trace = Trace::new().wr(1, 0, 4).wr(2, 40, 257).st(3, 9);
    lists(
        &trace,
        "0 set 4 64\n1 write 0 0\n2 write 40 0\n3 move 0 256\n3 move 256 1\n3 stop 2 1\n",
    );
    let word = Clock { size: 2, ready: true, ..VALID };
    let trace = Trace::new().ar(1, &QUIET).ar(2, &word).ar(3, &Clock { size: 3, ..word });
    lists(&trace, "0 set 4 64\n1 bus 0 0\n2 bus 0 0\n3 bus 1 44\n");
}

#[test]
fn the_line_is_the_first_under_the_header() {
    for number in [1, 9, 10, u32::MAX] {
        let lines = ["memory 0 3", "window 1 2", "write 24 0", "read 8 0", "stop 0 1", "bus 0 0"];
        for (trace, line) in records(number).iter().zip(lines) {
            lists(trace, &format!("0 set 4 64\n{number} {line}\n"));
        }
    }
    // Refused as WR and RD are, they are good records.
    lists(&Trace::new().wr(5, 44, 0), "0 set 4 64\n5 write 44 3\n");
    lists(&Trace::new().rd(5, 41), "0 set 4 64\n5 noread 41 3\n");
    // A position is one in the trace, and the last good number is a record's.
    lists(&Trace::new().rd(5, 8).rd(5, 8), "0 set 4 64\n5 read 8 0\n5 bad 11 8\n");
    lists(&Trace::new().rd(5, 8).raw(b"?"), "0 set 4 64\n5 read 8 0\n5 bad 10 8\n");
}

#[test]
fn an_empty_trace_has_no_line() {
    lists(&Trace::new(), "");
}

#[test]
fn one_byte_is_no_cf() {
    for byte in 0..=255 {
        lists(&Trace::new().raw(&[byte]), "0 set 4 64\n0 bad 10 0\n");
    }
}

#[test]
fn the_line_comes_before_the_first_record_is_refused() {
    let refused = |trace: &Trace, answer: u32| {
        lists(trace, &format!("0 set 4 64\n0 bad {answer} 0\n"));
    };
    // Marks that are not CF or C2; EX is unknown.
    let others = [b"cf", b"Cf", b"cF", b"FC", b"CC", b"FF", b"C ", b" F", b"c2", b"2C", b"EX"];
    for mark in others.into_iter().chain([b"\0\0"]) {
        refused(&Trace::new().raw(mark), 10);
        refused(&Trace::new().raw(mark).raw(&[1; 30]), 10);
        // A CF behind it does not come first.
        refused(&Trace::new().raw(mark).cf(1, 4, 16), 10);
    }
    for record in records(1) {
        for length in 1..record.0.len() {
            refused(&Trace(record.0[..length].to_vec()), 10);
        }
    }
    refused(&Trace::new().mm(1, 0, &[]), 10);
    refused(&Trace::new().mm(1, 0, &[0; 1025]), 10);
    refused(&Trace::new().mm(1, 32_768, &[1]), 12);
    refused(&Trace::new().ar_bits(1, 8, &VALID), 13);
}

#[test]
fn no_first_record_but_cf_carries_0() {
    let refused = "0 set 4 64\n0 bad 11 0\n";
    for record in records(0) {
        lists(&record, refused);
        lists(&record.clone().rd(1, 8), refused);
    }
    // 11 before the record's own refusals, and after 10.
    lists(&Trace::new().mm(0, 32_768, &[1]), refused);
    lists(&Trace::new().ar_bits(0, 8, &VALID), refused);
    lists(&Trace::new().wr(0, 44, 0), refused);
    lists(&Trace::new().rd(0, 41), refused);
    lists(&Trace::new().mm(0, 0, &[]), "0 set 4 64\n0 bad 10 0\n");
    lists(&Trace::new().raw(b"RD\0\0\0\0\x08"), "0 set 4 64\n0 bad 10 0\n");
}

#[test]
fn a_long_stream_has_one_line() {
    // Longer than three of the pieces that a stream is read in.
    let mut trace = Trace::new();
    let mut expected = format!("{HEADER}0 set 4 64\n");
    for number in 1..=200 {
        trace = trace.mm(number, 64, &[7; 1024]);
        expected += &format!("{number} memory 64 1024\n");
    }
    assert_eq!(list(&trace.0), expected);
    for most in [1, 1000, 1_000_000] {
        let pieces = Pieces { rest: &trace.0, most, random: Random::new(7, 0) };
        assert_eq!(list_stream(pieces), expected);
    }
}

// ---- A trace that starts with CF ----

#[test]
fn a_refused_cf_has_no_line_above_it() {
    for number in [0, 1, u32::MAX] {
        let settings = Trace::new().cf(number, 4, 16);
        for length in 2..settings.0.len() {
            lists(&Trace(settings.0[..length].to_vec()), "0 bad 10 0\n");
        }
        for (width, beats) in [(0, 0), (4, 0), (0, 64), (2, 64), (256, 64), (4, 1), (4, 512)] {
            lists(&Trace::new().cf(number, width, beats), "0 bad 1 0\n");
            lists(&Trace::new().cf(number, width, beats).rd(1, 8), "0 bad 1 0\n");
        }
    }
    lists(&Trace::new().raw(b"CFCFCF"), "0 bad 10 0\n");
}

#[test]
fn cf_carries_0() {
    lists(&Trace::new().cf(0, 8, 2), "0 set 8 2\n");
    lists(&Trace::new().cf(0, 4, 64), "0 set 4 64\n");
    for number in [1, 9, u32::MAX] {
        let trace = Trace::new().cf(0, 4, 16).rd(number, 4);
        lists(&trace, &format!("0 set 4 16\n{number} read 4 65546\n"));
    }
    // Its settings are those of engine and monitor.
    let trace = Trace::new().cf(0, 8, 2).wr(1, 40, 17).st(2, 9).ar(3, &QUIET);
    let trace = trace.ar(4, &Clock { size: 3, ..VALID });
    lists(
        &trace,
        "0 set 8 2\n1 write 40 0\n2 move 0 16\n2 move 16 1\n2 stop 2 1\n3 bus 0 0\n4 bus 0 0\n",
    );
}

#[test]
fn the_record_behind_a_cf_has_a_number_above_it() {
    let settings = Trace::new().cf(0, 4, 16);
    for record in records(0) {
        lists(&settings.clone().raw(&record.0), "0 set 4 16\n0 bad 11 10\n");
    }
    for record in records(1) {
        assert!(!list(&settings.clone().raw(&record.0).0).contains("bad"));
    }
    lists(&settings.clone().raw(b"?"), "0 set 4 16\n0 bad 10 10\n");
    lists(&settings.clone().mm(1, 32_768, &[1]), "0 set 4 16\n0 bad 12 10\n");
    // 0 is good once at the most.
    lists(&settings.clone().rd(0, 8).rd(1, 8), "0 set 4 16\n0 bad 11 10\n");
    lists(&settings.rd(1, 8).rd(0, 8), "0 set 4 16\n1 read 8 0\n1 bad 11 18\n");
    for record in records(5) {
        lists(&Trace::new().cf(5, 4, 16).raw(&record.0), "5 set 4 16\n5 bad 11 10\n");
    }
}

#[test]
fn a_late_cf_is_10_whatever_its_number() {
    for number in [0, 1, 5, 6, u32::MAX] {
        for (width, beats) in [(4, 16), (5, 5)] {
            let late = Trace::new().cf(number, width, beats).0;
            let behind = |trace: Trace| trace.raw(&late);
            lists(&behind(Trace::new().cf(0, 4, 16)), "0 set 4 16\n0 bad 10 10\n");
            lists(&behind(Trace::new().cf(5, 4, 16)), "5 set 4 16\n5 bad 10 10\n");
            lists(&behind(Trace::new().rd(5, 8)), "0 set 4 64\n5 read 8 0\n5 bad 10 8\n");
        }
    }
}

// ---- What an observer is told ----

#[derive(Default)]
struct Looker(Vec<&'static str>);

impl Observer for Looker {
    fn defaulted(&mut self, replay: &Replay) {
        assert_eq!((replay.engine().width, replay.engine().beats), (4, 64));
        assert_eq!((replay.last, replay.place), (0, 0));
        self.0.push("default");
    }

    fn record(&mut self, _: &Replay, _: &Record<&[u8]>) {
        self.0.push("record");
    }

    fn refused(&mut self, _: &Replay, _: &[u8], _: u32) {
        self.0.push("refused");
    }
}

#[test]
fn an_observer_is_told_of_the_default_before_the_first_record() {
    let told = |trace: &Trace| {
        let mut looker = Looker::default();
        replay_before(&trace.0, &mut Vec::new(), &mut looker);
        looker.0
    };
    assert_eq!(told(&Trace::new().rd(1, 8).rd(2, 8)), ["default", "record", "record"]);
    assert_eq!(told(&Trace::new().rd(0, 8)), ["default", "refused"]);
    assert_eq!(told(&Trace::new().raw(b"C")), ["default", "refused"]);
    assert_eq!(told(&Trace::new().raw(b"CF")), ["refused"]);
    assert_eq!(told(&Trace::new().cf(0, 4, 64).rd(1, 8)), ["record", "record"]);
    assert_eq!(told(&Trace::new().raw(b"C2")), ["refused"]);
    assert_eq!(told(&Trace::new().c2(0, 4, 64).rd_of(1, 1, 8)), ["record", "record"]);
    assert!(told(&Trace::new()).is_empty());
}

// ---- The older rules ----

#[test]
fn older_rules() {
    lists_older(&Trace::new(), "");
    let trace = Trace::new().wr(1, 40, 65).st(2, 9);
    lists_older(&trace, "1 write 40 0\n2 move 0 64\n2 move 64 1\n2 stop 2 1\n");
    lists_older(&Trace::new().cf(1, 4, 64).rd(2, 8), "1 set 4 64\n2 read 8 0\n");
    lists_older(&Trace::new().raw(b"C"), "0 bad 10 0\n");
    lists_older(&Trace::new().raw(b"CF"), "0 bad 10 0\n");
    lists_older(&Trace::new().cf(1, 5, 5), "0 bad 1 0\n");
    lists_older(&Trace::new().rd(5, 8).cf(6, 4, 16), "5 read 8 0\n5 bad 10 8\n");
    // C2 is an unknown mark, first or not.
    for number in [0, 1] {
        lists_older(&Trace::new().c2(number, 4, 16), "0 bad 10 0\n");
        lists_older(&Trace::new().c2(number, 5, 5).rd_of(2, 1, 8), "0 bad 10 0\n");
    }
    lists_older(&Trace::new().raw(b"C2"), "0 bad 10 0\n");
    lists_older(&Trace::new().rd(5, 8).c2(6, 4, 16), "5 read 8 0\n5 bad 10 8\n");
    lists_older(&Trace::new().cf(1, 4, 16).c2(2, 4, 16), "1 set 4 16\n1 bad 10 10\n");
    // No record may carry 0.
    lists_older(&Trace::new().cf(0, 4, 16).rd(1, 8), "0 bad 11 0\n");
    lists_older(&Trace::new().cf(0, 5, 5), "0 bad 11 0\n");
    for record in records(0) {
        lists_older(&record, "0 bad 11 0\n");
    }
}

// ---- The converter ----

fn convert(mut trace: &[u8]) -> Vec<u8> {
    let mut output = Vec::new();
    convert_stream(&mut trace, &mut output).unwrap();
    output
}

/// Checks what a trace is converted to, and that this is then left as it is.
fn converts(trace: &[u8], expected: &[u8]) {
    assert_eq!(convert(trace), expected);
    assert_eq!(convert(expected), expected);
    from_all_streams(trace, |input| {
        let mut output = Vec::new();
        convert_stream(input, &mut output).unwrap();
        assert_eq!(output, expected);
    });
}

#[test]
fn an_older_trace_gets_the_ten_bytes() {
    converts(b"", b"CF\0\0\0\0\x04\0\x10\0");
    converts(b"C", b"CF\0\0\0\0\x04\0\x10\0C");
    converts(b"F", b"CF\0\0\0\0\x04\0\x10\0F");
    converts(b"RD\x01\0\0\0\x08\0", b"CF\0\0\0\0\x04\0\x10\0RD\x01\0\0\0\x08\0");
    // Sound or not, with a CF or C2 behind, and with marks that are close to these.
    let no_cf: [&[u8]; 7] = [b"FC", b"cf", b"CCF", b" CF", b"RDCF", b"\0", b"no trace"];
    let no_c2: [&[u8]; 5] = [b"2C", b"c2", b"CC2", b" C2", b"RDC2"];
    for trace in no_cf.into_iter().chain(no_c2) {
        converts(trace, &[&PUT_BEFORE, trace].concat());
    }
    assert_eq!(PUT_BEFORE.to_vec(), Trace::new().cf(0, 4, 16).0);
}

#[test]
fn a_trace_that_starts_with_cf_or_c2_is_copied() {
    let traces = [
        Trace::new().cf(1, 4, 16).rd(2, 8),
        Trace::new().cf(0, 4, 16),
        Trace::new().cf(0, 128, 256).rd(0, 8),
        // Nothing is judged: settings off the lists, two CF, and what follows.
        Trace::new().cf(0, 0, 0),
        Trace::new().cf(1, 5, 7).raw(b"no record"),
        Trace::new().cf(1, 4, 16).cf(2, 4, 16),
        // C2 too.
        Trace::new().c2(1, 4, 16).rd_of(2, 1, 8),
        Trace::new().c2(0, 0, 0).raw(b"no record"),
        Trace::new().c2(9, 4, 16).cf(2, 4, 16),
    ];
    for trace in traces {
        for length in 2..=trace.0.len() {
            converts(&trace.0[..length], &trace.0[..length]);
        }
    }
}

#[test]
fn a_converted_trace_lists_as_before() {
    let trace = Trace::new().wr(1, 40, 65).st(2, 9).rd(2, 4); // The last one at 12 + 8
    let moves = "2 move 0 64\n2 move 64 1\n2 stop 2 1\n";
    lists_older(&trace, &format!("1 write 40 0\n{moves}2 bad 11 20\n"));
    let converted = Trace(convert(&trace.0));
    lists(&converted, &format!("0 set 4 16\n1 write 40 0\n{moves}2 bad 11 30\n"));
    lists(&trace, "0 set 4 64\n1 write 40 0\n2 move 0 65\n2 stop 1 1\n2 bad 11 20\n");
    lists(&Trace(convert(b"")), "0 set 4 16\n");
    lists(&Trace(convert(b"C")), "0 set 4 16\n0 bad 10 10\n");
    lists(&Trace(convert(&Trace::new().rd(0, 8).0)), "0 set 4 16\n0 bad 11 10\n");
    lists(&Trace(convert(&Trace::new().rd(3, 8).0)), "0 set 4 16\n3 read 8 0\n");
}

#[test]
fn a_long_trace_is_converted_in_pieces() {
    let mut random = Random::new(7, 1);
    for start in [&b"CF"[..], b"C2", b"MM", b"C"] {
        let trace = [start, b" ", &random.bytes(300_000)].concat();
        let copied = start == b"CF" || start == b"C2";
        let expected = if copied { trace.clone() } else { [&PUT_BEFORE[..], &trace].concat() };
        for most in [1, 1000, 1_000_000] {
            let pieces = Pieces { rest: &trace, most, random: Random::new(7, most.into()) };
            let mut output = Vec::new();
            convert_stream(pieces, &mut output).unwrap();
            assert!(output == expected);
        }
    }
}

/// Takes so many bytes and no more.
struct Room(usize);

impl Write for Room {
    fn write(&mut self, bytes: &[u8]) -> io::Result<usize> {
        let count = bytes.len().min(self.0);
        self.0 -= count;
        if count == 0 && !bytes.is_empty() {
            return Err(io::ErrorKind::StorageFull.into());
        }
        Ok(count)
    }

    fn flush(&mut self) -> io::Result<()> {
        Ok(())
    }
}

/// Cannot be read.
struct Broken;

impl Read for Broken {
    fn read(&mut self, _: &mut [u8]) -> io::Result<usize> {
        Err(io::ErrorKind::PermissionDenied.into())
    }
}

#[test]
fn what_cannot_be_read_or_written_is_an_error() {
    for trace in [&b""[..], b"C", b"CF", b"RD", b"CF or not", b"RD or not"] {
        let error = convert_stream(trace.chain(Broken), &mut Vec::new()).unwrap_err();
        assert_eq!(error.kind(), io::ErrorKind::PermissionDenied);
        let length = convert(trace).len();
        convert_stream(trace, Room(length)).unwrap();
        for room in 0..length {
            let error = convert_stream(trace, Room(room)).unwrap_err();
            assert_eq!(error.kind(), io::ErrorKind::StorageFull);
        }
    }
}

/// Counts the bytes that were read and not written yet, as reader and as writer.
#[derive(Clone, Copy)]
struct Ahead<'a>(&'a Cell<usize>);

impl Read for Ahead<'_> {
    fn read(&mut self, room: &mut [u8]) -> io::Result<usize> {
        self.0.set(self.0.get() + room.len());
        assert!(self.0.get() < 1_000_000, "the trace is not held");
        Ok(room.len())
    }
}

impl Write for Ahead<'_> {
    fn write(&mut self, bytes: &[u8]) -> io::Result<usize> {
        self.0.set(self.0.get().saturating_sub(bytes.len()));
        Ok(bytes.len())
    }

    fn flush(&mut self) -> io::Result<()> {
        Ok(())
    }
}

#[test]
fn the_converter_holds_little_of_a_trace() {
    for start in [&b"CF"[..], b"C2", b"RD"] {
        let ahead = Cell::new(0);
        let input = start.chain(Ahead(&ahead).take(20_000_000));
        convert_stream(input, Ahead(&ahead)).unwrap();
    }
}

// ---- Any traces ----

/// Does a trace start with CF or C2?
fn starts_with_settings(trace: &[u8]) -> bool {
    trace.starts_with(b"CF") || trace.starts_with(b"C2")
}

/// A trace of any sort: good or damaged records, any bytes, and first records of every kind that
/// carry 0 or are cut short.
fn any_trace(random: &mut Random) -> Vec<u8> {
    let length = random.below(30);
    let behind = some_trace(random).0;
    let mut trace = match random.below(9) {
        0 => random.bytes(length),
        1 => [b"CF", &random.bytes(length)[..]].concat(),
        2 => {
            let all = records(random.below(2));
            let first = &all[random.below(6) as usize];
            [&first.0[..], &behind].concat()
        }
        3 => Trace::new().cf(random.below(3), 4, random.pick(&[0, 16, 64])).raw(&behind).0,
        4 => Trace::new().c2(random.below(3), 4, 16).raw(&behind).0,
        _ => behind,
    };
    if random.one_in(3) && !trace.is_empty() {
        damage(random, &mut trace);
    }
    if random.one_in(6) {
        trace.truncate(random.below(12) as usize);
    }
    trace
}

/// A listing with the position on its bad line, if there is one, moved by so many bytes.
fn with_position_moved(listing: &str, by: i64) -> String {
    let Some((before, last)) = listing.trim_end().rsplit_once('\n') else {
        return listing.to_string();
    };
    match last.split(' ').collect::<Vec<_>>()[..] {
        [number, "bad", answer, position] => {
            let position = position.parse::<i64>().unwrap() + by;
            format!("{before}\n{number} bad {answer} {position}\n")
        }
        _ => listing.to_string(),
    }
}

/// A listing with one more line under its header.
fn with_line(line: &str, listing: &str) -> String {
    format!("{HEADER}{line}{}", listing.strip_prefix(HEADER).unwrap())
}

#[test]
fn any_converted_trace_lists_as_before() {
    let mut random = Random::new(7, 2);
    // Traces by how they start and end, and those in which 64 beats make another listing.
    let (mut sound, mut bad, mut empty, mut copied, mut with_0, mut other) = (0, 0, 0, 0, 0, 0);
    let mut two_engines = 0;
    for _ in 0..8000 {
        let trace = any_trace(&mut random);
        let before = list_older(&trace);
        let after = list(&convert(&trace));
        if trace.starts_with(b"C2") {
            // By the older rules the mark was unknown.
            assert_eq!(before, format!("{HEADER}0 bad 10 0\n"));
            assert_eq!(after, list(&trace), "{trace:?}");
            two_engines += 1;
        } else if !trace.starts_with(b"CF") {
            let expected = with_line("0 set 4 16\n", &with_position_moved(&before, 10));
            assert_eq!(after, expected, "{trace:?}");
            let now = list(&trace);
            other += i32::from(!trace.is_empty() && now != with_line("0 set 4 64\n", &before));
            *match before.contains(" bad ") {
                _ if trace.is_empty() => &mut empty,
                true => &mut bad,
                false => &mut sound,
            } += 1;
        } else if trace.len() >= 10 && trace[2..6] == [0; 4] {
            // By the older rules no record carried 0.
            assert_eq!(before, format!("{HEADER}0 bad 11 0\n"));
            assert!(!after.contains(" bad 11 0\n"));
            with_0 += 1;
        } else {
            assert_eq!(after, before, "{trace:?}");
            copied += 1;
        }
    }
    let counts = [sound, bad, empty, copied, with_0, other, two_engines];
    assert!(counts.iter().all(|&count| count > 100), "{counts:?}");
}

#[test]
fn any_default_is_a_cf_with_these_settings() {
    let mut random = Random::new(7, 3);
    for _ in 0..8000 {
        let trace = any_trace(&mut random);
        if !trace.is_empty() && !starts_with_settings(&trace) {
            let behind = list(&Trace::new().cf(0, 4, 64).raw(&trace).0);
            assert_eq!(list(&trace), with_position_moved(&behind, -10), "{trace:?}");
        }
    }
}

#[test]
fn converted_twice_is_converted_once() {
    let mut random = Random::new(7, 4);
    for _ in 0..8000 {
        let trace = any_trace(&mut random);
        let once = convert(&trace);
        let expected =
            if starts_with_settings(&trace) { trace } else { [&PUT_BEFORE[..], &trace].concat() };
        assert_eq!(once, expected);
        assert_eq!(convert(&once), once);
    }
}

#[test]
fn any_stream_is_as_the_whole_trace() {
    let mut random = Random::new(7, 5);
    for round in 0..300 {
        let mut trace = any_trace(&mut random);
        trace.truncate(100);
        let (listing, listing_older) = (list(&trace), list_older(&trace));
        from_all_streams(&trace, |input| assert_eq!(list_stream(input), listing));
        let most = random.pick(&[1, 2, 5, 40]);
        let pieces = || Pieces { rest: &trace, most, random: Random::new(round, 1) };
        assert_eq!(list_older_stream(pieces()), listing_older);
        let mut output = Vec::new();
        convert_stream(pieces(), &mut output).unwrap();
        assert_eq!(output, convert(&trace));
    }
}
