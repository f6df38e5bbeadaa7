// The converter: the bytes that it writes, and what the listing that a trace had by the older rules
// becomes once the trace is converted.

use independent::{convert, older};
use shared::coverage::Counts;

use crate::compare::{first_difference, Programs};
use crate::feed::expect;

/// What the converted traces were.
pub const CONVERSIONS: &[&str] = &[
    "converted, sound to its end",
    "converted, with a bad line",
    "converted, with other lines if it were not",
    "converted empty trace",
    "converted trace of one byte",
    "converted, though it starts with C",
    "copied by the converter",
    "copied, its CF of number 0",
    "copied, its CF cut short",
    "copied, its C2 of number 0",
    "copied, its C2 of a number above 0",
    "copied, its C2 cut short",
];

const HEADER: &str = "seq event first second\n";
/// The line of a trace without CF.
const DEFAULT: &str = "0 set 4 64\n";
/// The line of the record that the converter puts before a trace, and the bytes of this record.
const PUT: &str = "0 set 4 16\n";
const PUT_BYTES: u64 = 10;
/// Bytes of a whole CF or C2.
const WHOLE: usize = 10;

/// Compares what the converter makes of a trace, whose own `listing` was compared before.
pub fn compare(
    programs: &Programs,
    trace: &[u8],
    listing: &[u8],
    at: u64,
    coverage: &mut Counts,
) -> Result<(), String> {
    let mut converted = Vec::new();
    convert::convert_stream(trace, &mut converted).expect("a vector takes all");
    let differs = |bytes: &[u8]| first_byte(bytes, &converted);
    expect(programs.convert, trace, at, &converted, differs)?;
    let mut before = Vec::new();
    let sound = older::replay(trace, &mut before);
    if trace.starts_with(b"C2") {
        return copied_with_two_engines(trace, &converted, &before, coverage);
    }
    if trace.starts_with(b"CF") {
        // What is copied is converted twice already, and its listing is the trace's own.
        return copied(trace, &converted, listing, &before, coverage);
    }
    see_converted(trace, sound, listing, &before, coverage);
    expect(programs.convert, &converted, at, &converted, differs)?;
    let after = carried_over(&before);
    expect(programs.replay, &converted, at, &after, |lines| {
        let what = first_difference(("replay", lines), ("older", &after));
        format!("of the converted trace, {what}")
    })
}

fn see_converted(trace: &[u8], sound: bool, now: &[u8], before: &[u8], coverage: &mut Counts) {
    coverage.see_if(sound, "converted, sound to its end");
    coverage.see_if(!sound, "converted, with a bad line");
    coverage.see_if(trace.is_empty(), "converted empty trace");
    coverage.see_if(trace.len() == 1, "converted trace of one byte");
    coverage.see_if(trace.starts_with(b"C"), "converted, though it starts with C");
    let now = now.strip_prefix(format!("{HEADER}{DEFAULT}").as_bytes());
    let other = now.is_some_and(|lines| before.strip_prefix(HEADER.as_bytes()) != Some(lines));
    coverage.see_if(other, "converted, with other lines if it were not");
}

/// A trace that starts with CF: it is copied, and lists as before unless its CF is whole and
/// carries 0, which was refused.
fn copied(
    trace: &[u8],
    converted: &[u8],
    listing: &[u8],
    before: &[u8],
    coverage: &mut Counts,
) -> Result<(), String> {
    let zero = trace.len() >= WHOLE && trace[2..6] == [0; 4];
    coverage.see("copied by the converter");
    coverage.see_if(zero, "copied, its CF of number 0");
    coverage.see_if(trace.len() < WHOLE, "copied, its CF cut short");
    if converted != trace {
        return Err("both converters change a trace that starts with CF".to_string());
    }
    let refused = format!("{HEADER}0 bad 11 0\n");
    let expected = if zero { refused.as_bytes() } else { listing };
    if before != expected {
        let what = first_difference(("older", before), ("expected", expected));
        return Err(format!("of the trace by the older rules, {what}"));
    }
    Ok(())
}

/// A trace that starts with C2: it is copied, and by the older rules C2 is an unknown mark.
fn copied_with_two_engines(
    trace: &[u8],
    converted: &[u8],
    before: &[u8],
    coverage: &mut Counts,
) -> Result<(), String> {
    coverage.see("copied by the converter");
    coverage.see(match trace.get(2..WHOLE) {
        None => "copied, its C2 cut short",
        Some([0, 0, 0, 0, ..]) => "copied, its C2 of number 0",
        Some(_) => "copied, its C2 of a number above 0",
    });
    if converted != trace {
        return Err("both converters change a trace that starts with C2".to_string());
    }
    let expected = format!("{HEADER}0 bad 10 0\n");
    if before != expected.as_bytes() {
        let what = first_difference(("older", before), ("expected", expected.as_bytes()));
        return Err(format!("of the trace by the older rules, {what}"));
    }
    Ok(())
}

/// The listing of a converted trace, from the one that it had by the older rules.
fn carried_over(before: &[u8]) -> Vec<u8> {
    let before = std::str::from_utf8(before).expect("a listing is ASCII");
    let lines = before.strip_prefix(HEADER).expect("a listing has its header");
    let mut after = format!("{HEADER}{PUT}");
    for line in lines.split_inclusive('\n') {
        match line.trim_end().split(' ').collect::<Vec<_>>()[..] {
            [last, "bad", answer, position] => {
                let position: u64 = position.parse().expect("a position is a number");
                after.push_str(&format!("{last} bad {answer} {}\n", position + PUT_BYTES));
            }
            _ => after.push_str(line),
        }
    }
    after.into_bytes()
}

/// The first byte in which two converted traces differ.
fn first_byte(convert: &[u8], independent: &[u8]) -> String {
    let same = convert.iter().zip(independent).take_while(|(left, right)| left == right);
    let at = same.count();
    let show = |bytes: &[u8]| match bytes.get(at) {
        Some(byte) => format!("{byte:#04x}"),
        None => "(no byte)".to_string(),
    };
    let (left, right) = (show(convert), show(independent));
    format!("byte {at} of the converted trace\n  convert     {left}\n  independent {right}")
}

#[cfg(test)]
mod tests {
    use super::*;

    #[test]
    fn only_the_position_of_a_bad_line_moves() {
        for (before, after) in [
            ("", ""),
            ("1 write 24 0\n", "1 write 24 0\n"),
            ("0 bad 10 0\n", "0 bad 10 10\n"),
            ("3 read 4 2\n3 bad 11 95\n", "3 read 4 2\n3 bad 11 105\n"),
        ] {
            let before = format!("{HEADER}{before}");
            let after = format!("{HEADER}0 set 4 16\n{after}");
            assert_eq!(carried_over(before.as_bytes()), after.as_bytes());
        }
    }
}
