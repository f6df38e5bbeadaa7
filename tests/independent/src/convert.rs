// The converter of older traces, which relied on 16 beats: it puts a CF record before them.
// From RULES.md, "Trace and listing".

use crate::record::{starts_with_settings, SETTINGS_MARK};
use crate::trace::{OLDER_BEATS, WIDTH};
use std::io::{self, Read, Write};

/// A CF with number 0, which no record of an older trace carries, and the settings it relied on.
const RECORD: [u8; 10] = {
    let [first, second] = SETTINGS_MARK;
    [first, second, 0, 0, 0, 0, WIDTH as u8, 0, OLDER_BEATS as u8, 0]
};

/// Copies a trace, with the record before it unless it starts with CF or C2. Reading: nothing is
/// judged, so a CF cut short is copied as it is, and an empty trace gets the record too.
pub fn convert_stream(mut input: impl Read, mut output: impl Write) -> io::Result<()> {
    let mut start = Vec::new();
    input.by_ref().take(SETTINGS_MARK.len() as u64).read_to_end(&mut start)?;
    if !starts_with_settings(&start) {
        output.write_all(&RECORD)?;
    }
    output.write_all(&start)?;
    io::copy(&mut input, &mut output)?;
    output.flush()
}
