// The whole program: target/bin/replay beside the independent one, as processes on the same traces.

use crate::race::{print_heading, print_row, wanted, Times};
use std::fs::File;
use std::path::Path;
use std::process::{Command, Stdio};
use std::time::{Duration, Instant};

const RECORDS: f64 = 200_000.0;

/// A race ends after this long, but not before each side has run so often. The best run counts.
const RACE: Duration = Duration::from_secs(3);
const FEWEST_ROUNDS: u32 = 15;

fn start(program: &Path, trace: &Path) -> Command {
    let mut command = Command::new(program);
    command.stdin(File::open(trace).expect("the trace can be read"));
    command
}

fn listing(program: &Path, trace: &Path) -> Vec<u8> {
    start(program, trace).output().expect("the program can be run").stdout
}

/// Nanoseconds of one run; the listing goes nowhere.
fn time(program: &Path, trace: &Path) -> f64 {
    let mut command = start(program, trace);
    let begun = Instant::now();
    command.stdout(Stdio::null()).status().expect("the program can be run");
    begun.elapsed().as_nanos() as f64
}

pub fn bench(folder: &Path) {
    let proved = folder.join("bin/replay");
    let plain =
        std::env::current_exe().expect("this program has a path").with_file_name("independent");
    print_heading("replay", "nanoseconds a record");
    for kind in ["mixed", "bus", "copies", "chains"] {
        let what = format!("200,000 records, {kind}");
        if !wanted(&what) {
            continue;
        }
        let trace = folder.join(format!("bench/{kind}.trace"));
        assert!(listing(&proved, &trace) == listing(&plain, &trace), "{kind}: two listings");
        let mut times = Times { proved: f64::MAX, plain: f64::MAX };
        let begun = Instant::now();
        let mut rounds = 0;
        while rounds < FEWEST_ROUNDS || begun.elapsed() < RACE {
            times.proved = times.proved.min(time(&proved, &trace) / RECORDS);
            times.plain = times.plain.min(time(&plain, &trace) / RECORDS);
            rounds += 1;
        }
        print_row(&what, &times);
    }
}
