// Three tasks on a trace from standard input or from a named file:
//   independent [FILE]          replays it and writes its listing
//   independent older [FILE]    the same by the rules before the default of 64 beats
//   independent convert [FILE]  puts a CF record (4, 16) before it unless it starts with CF or C2
// A file with the name of a task is named with its folder: ./convert.
// From RULES.md, "Trace and listing".
// Exit status 0 sound or converted, 1 bad line, 2 unreadable file.

use independent::{convert, older, trace};
use std::fs::File;
use std::io::{self, Read};
use std::process::ExitCode;

#[derive(Clone, Copy)]
enum Task {
    Replay,
    ReplayOlder,
    Convert,
}

impl Task {
    fn carry_out(self, input: impl Read) -> io::Result<bool> {
        let output = io::stdout().lock();
        match self {
            Task::Replay => trace::replay_stream(input, output),
            Task::ReplayOlder => older::replay_stream(input, output),
            Task::Convert => convert::convert_stream(input, output).map(|()| true),
        }
    }
}

fn run() -> io::Result<bool> {
    let mut arguments = std::env::args_os().skip(1);
    let mut file = arguments.next();
    let task = match file.as_ref().and_then(|word| word.to_str()) {
        Some("older") => Task::ReplayOlder,
        Some("convert") => Task::Convert,
        _ => Task::Replay,
    };
    if !matches!(task, Task::Replay) {
        file = arguments.next();
    }
    match file {
        Some(name) => task.carry_out(File::open(name)?),
        None => task.carry_out(io::stdin().lock()),
    }
}

fn main() -> ExitCode {
    match run() {
        Ok(sound) => ExitCode::from(u8::from(!sound)),
        Err(error) => {
            eprintln!("independent: {error}");
            ExitCode::from(2)
        }
    }
}
