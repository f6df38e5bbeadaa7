// Hands traces to a program and takes what it writes.

use std::fs::{self, File};
use std::io::{self, Seek, Write};
use std::path::Path;
use std::process::{Command, Output, Stdio};
use std::thread;

/// Runs a program on a trace: it has to write `expected`, to say nothing and to end well. What is
/// to be said of other output is up to `differs`.
pub fn expect(
    program: &Path,
    trace: &[u8],
    at: u64,
    expected: &[u8],
    differs: impl Fn(&[u8]) -> String,
) -> Result<(), String> {
    let name = program.display();
    let Output { status, stdout, stderr } =
        feed(program, trace, at).map_err(|error| format!("cannot run {name}: {error}"))?;
    if stdout != expected {
        return Err(differs(&stdout));
    }
    if !stderr.is_empty() {
        return Err(format!("{name} writes the same, but says {}", stderr.escape_ascii()));
    }
    if !status.success() {
        return Err(format!("{name} writes the same, but {status}"));
    }
    Ok(())
}

/// Runs the program on a trace. The ways to hand it over take turns: a file, a pipe, and a pipe
/// in small pieces, since a reader may treat them differently.
fn feed(program: &Path, trace: &[u8], at: u64) -> io::Result<Output> {
    let mut command = Command::new(program);
    command.stdout(Stdio::piped()).stderr(Stdio::piped());
    if at.is_multiple_of(3) {
        return command.stdin(file(trace, at)?).output();
    }
    let mut child = command.stdin(Stdio::piped()).spawn()?;
    let mut input = child.stdin.take().expect("a pipe was asked for");
    let piece = if at % 3 == 1 { trace.len().max(1) } else { 1 + (at / 3 % 40) as usize };
    // A thread feeds while this one drains, or two full pipes would wait for each other. A
    // program that stops reading at a bad record breaks the pipe: its listing decides.
    thread::scope(|scope| {
        scope.spawn(move || {
            for bytes in trace.chunks(piece) {
                if input.write_all(bytes).is_err() {
                    break;
                }
            }
        });
        child.wait_with_output()
    })
}

/// An open file with the trace and no name, so nothing is left behind.
fn file(trace: &[u8], at: u64) -> io::Result<File> {
    let name = format!("differential-{}-{at}", std::process::id());
    let name = std::env::temp_dir().join(name);
    let mut file = File::options().read(true).write(true).create_new(true).open(&name)?;
    fs::remove_file(&name)?;
    file.write_all(trace)?;
    file.rewind()?;
    Ok(file)
}
