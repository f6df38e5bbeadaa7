// Tests of the program: its tasks, standard input or a named file, and its exit statuses.
// Listing as in RULES.md, "Trace and listing".

mod common;

use common::Trace;
use std::io::Write;
use std::path::PathBuf;
use std::process::{Command, Output, Stdio};

const PROGRAM: &str = env!("CARGO_BIN_EXE_independent");

fn on_standard_input(arguments: &[&str], bytes: &[u8]) -> Output {
    let mut command = Command::new(PROGRAM);
    command.args(arguments).stdin(Stdio::piped()).stdout(Stdio::piped());
    let mut child = command.spawn().unwrap();
    child.stdin.take().unwrap().write_all(bytes).unwrap();
    child.wait_with_output().unwrap()
}

/// A file of this test alone.
fn file(name: &str, bytes: &[u8]) -> PathBuf {
    let path = std::env::temp_dir().join(format!("independent-{}-{name}", std::process::id()));
    std::fs::write(&path, bytes).unwrap();
    path
}

#[test]
fn sound_bad_and_empty_input() {
    let output = on_standard_input(&[], &Trace::new().rd(1, 4).0);
    assert_eq!(output.status.code(), Some(0));
    assert_eq!(output.stdout, b"seq event first second\n0 set 4 64\n1 read 4 65546\n");
    let output = on_standard_input(&[], b"no trace");
    assert_eq!(output.status.code(), Some(1));
    assert_eq!(output.stdout, b"seq event first second\n0 set 4 64\n0 bad 10 0\n");
    let output = on_standard_input(&[], b"");
    assert_eq!(output.status.code(), Some(0));
    assert_eq!(output.stdout, b"seq event first second\n");
}

#[test]
fn two_engines() {
    let trace = Trace::new().c2(0, 8, 2).wr_of(1, 2, 24, 7).rd_of(2, 1, 24).rd_of(3, 2, 24).0;
    let output = on_standard_input(&[], &trace);
    assert_eq!(output.status.code(), Some(0));
    let lines = "0 set 8 2\n1 write 24 0\n2 read 24 0\n3 read 24 7\n";
    let expected = format!("seq event first second\n{lines}");
    assert_eq!(String::from_utf8(output.stdout).unwrap(), expected);
    let output = on_standard_input(&["older"], &trace);
    assert_eq!(output.status.code(), Some(1));
    assert_eq!(output.stdout, b"seq event first second\n0 bad 10 0\n");
    let output = on_standard_input(&["convert"], &trace);
    assert_eq!(output.status.code(), Some(0));
    assert_eq!(output.stdout, trace);
    // C2 10 bytes, WR 13.
    let trace = Trace(trace[..23].to_vec()).rd_of(2, 3, 24).0;
    let output = on_standard_input(&[], &trace);
    assert_eq!(output.status.code(), Some(1));
    assert_eq!(output.stdout, b"seq event first second\n0 set 8 2\n1 write 24 0\n1 bad 21 23\n");
}

#[test]
fn a_named_file_and_an_unreadable_one() {
    let name = file("named", &Trace::new().cf(3, 8, 2).0);
    let output = Command::new(PROGRAM).arg(&name).output().unwrap();
    std::fs::remove_file(&name).unwrap();
    assert_eq!(output.status.code(), Some(0));
    assert_eq!(output.stdout, b"seq event first second\n3 set 8 2\n");
    for task in [None, Some("older"), Some("convert")] {
        let output = Command::new(PROGRAM).args(task).arg(&name).output().unwrap();
        assert_eq!(output.status.code(), Some(2));
        assert_eq!(output.stdout, b"");
        assert!(!output.stderr.is_empty());
    }
}

#[test]
fn an_older_trace_converted_and_listed() {
    let trace = Trace::new().wr(1, 40, 65).st(2, 9).rd(2, 4).0;
    let name = file("older", &trace);
    let on_file = |task: &str| Command::new(PROGRAM).arg(task).arg(&name).output().unwrap();
    let listed = on_file("older");
    let converted = on_file("convert");
    std::fs::remove_file(&name).unwrap();
    assert_eq!(listed.status.code(), Some(1));
    let lines = "1 write 40 0\n2 move 0 64\n2 move 64 1\n2 stop 2 1\n2 bad 11";
    let expected = format!("seq event first second\n{lines} 20\n");
    assert_eq!(String::from_utf8(listed.stdout).unwrap(), expected);
    assert_eq!(on_standard_input(&["older"], &trace).stdout, expected.as_bytes());
    // The bad record is copied like the others.
    assert_eq!(converted.status.code(), Some(0));
    assert_eq!(converted.stdout, Trace::new().cf(0, 4, 16).raw(&trace).0);
    let output = on_standard_input(&[], &converted.stdout);
    assert_eq!(output.status.code(), Some(1));
    let expected = format!("seq event first second\n0 set 4 16\n{lines} 30\n");
    assert_eq!(String::from_utf8(output.stdout).unwrap(), expected);
}

#[test]
fn standard_input_converted() {
    for (bytes, expected) in [
        (&b""[..], &b"CF\0\0\0\0\x04\0\x10\0"[..]),
        (b"C", b"CF\0\0\0\0\x04\0\x10\0C"),
        (b"CF", b"CF"),
        (b"C2", b"C2"),
        (b"no trace", b"CF\0\0\0\0\x04\0\x10\0no trace"),
    ] {
        let output = on_standard_input(&["convert"], bytes);
        assert_eq!(output.status.code(), Some(0));
        assert_eq!(output.stdout, expected);
    }
}
