// The listing of a trace by the rules before the default of 64 beats: without a CF it has 16 beats
// and no line for them, and no record may carry 0. Converted traces are compared with it.
// These rules are from a time without C2. Reading: it is an unknown mark then, answer 10.
// From RULES.md, "Trace and listing".

use crate::trace::{list, list_stream, Replay};
use std::io::{self, Read, Write};

/// Replays a trace and appends its listing: sound or not.
pub fn replay(trace: &[u8], output: &mut Vec<u8>) -> bool {
    list(Replay::older(), trace, output, &mut ())
}

/// The same for a trace that is read piece by piece.
pub fn replay_stream(input: impl Read, output: impl Write) -> io::Result<bool> {
    list_stream(Replay::older(), input, output)
}
