// Compares the proved programs with the independent one, byte by byte, on generated traces.

mod bench;
mod catalogue;
mod chains;
mod clocks;
mod compare;
mod conversion;
mod copies;
mod coverage;
mod damage;
mod families;
mod fault_cases;
mod faults;
mod feed;
mod maker;
mod observe;
mod observe_pairs;
mod observe_steps;
mod pair_cases;
mod pairs;
mod pokes;
mod queues;
mod situations;

use std::io::Write;
use std::path::PathBuf;
use std::process::ExitCode;

use shared::coverage::Counts;
use shared::crew::Outcome;
use shared::random::fresh_seed;

const USAGE: &str = "usage:
  differential compare --replay PATH --convert PATH --traces N --fresh M [--seed S]
      compares N fixed traces and M fresh ones; a fresh run is repeated with its seed S
  differential soak --replay PATH --convert PATH [--traces N] [--seed S]
      compares fresh traces until stopped, or N of them
  differential make KIND --records N
      writes a trace of N records; KIND is mixed, bus, copies or chains
  differential trace --seed S --index I
      writes one generated trace again
  differential write DIR --traces N
      writes the first N fixed traces to the folder DIR, a file each: 0.trace, 1.trace and so on
exit status 0: no difference (compare: and no zero in the coverage table); 1: otherwise; 2: usage";

/// The value after the option `name`.
fn option(arguments: &[String], name: &str) -> Option<String> {
    let at = arguments.iter().position(|argument| argument == name)?;
    arguments.get(at + 1).cloned()
}

fn number(arguments: &[String], name: &str) -> Result<Option<u64>, String> {
    match option(arguments, name) {
        None if arguments.iter().any(|argument| argument == name) => {
            Err(format!("{name} needs a number"))
        }
        None => Ok(None),
        Some(text) => match text.parse() {
            Ok(number) => Ok(Some(number)),
            Err(_) => Err(format!("{name} needs a number, not {text}")),
        },
    }
}

/// A number that has to be there.
fn needed(arguments: &[String], name: &str) -> Result<u64, String> {
    number(arguments, name)?.ok_or_else(|| format!("{name} is missing"))
}

/// Compares the traces of a plan, whose fresh ones come from `--seed` or from a new seed, and
/// prints what came out; the last line is the count.
fn compare(arguments: &[String], mut plan: compare::Plan) -> Result<ExitCode, String> {
    let path = |name: &str| match option(arguments, name) {
        Some(path) => Ok(PathBuf::from(path)),
        None => Err(format!("{name} PATH is missing")),
    };
    let (replay, convert) = (path("--replay")?, path("--convert")?);
    let programs = compare::Programs { replay: &replay, convert: &convert };
    plan.seed = number(arguments, "--seed")?.unwrap_or_else(fresh_seed);
    println!("fresh traces with --seed {}", plan.seed);
    let Outcome { counts, taken, difference } = compare::run(programs, plan);
    Ok(match difference {
        Some(difference) => {
            println!("{difference}\ncompared {taken} traces, 1 different");
            ExitCode::FAILURE
        }
        None => conclude(&counts, taken, plan.zeros_fail),
    })
}

fn conclude(counts: &Counts, taken: u64, zeros_fail: bool) -> ExitCode {
    let zeros = coverage::print(counts);
    if zeros > 0 {
        println!("{zeros} places of the coverage table are zero");
    }
    println!("compared {taken} traces, 0 different");
    ExitCode::from(u8::from(zeros_fail && zeros > 0))
}

/// Writes a trace to standard output.
fn print_trace(bytes: &[u8]) -> Result<ExitCode, String> {
    std::io::stdout().write_all(bytes).map_err(|error| error.to_string())?;
    Ok(ExitCode::SUCCESS)
}

fn write_traces(folder: PathBuf, count: u64) -> std::io::Result<ExitCode> {
    std::fs::create_dir_all(&folder)?;
    for index in 0..count {
        let (_, bytes) = families::fixed(index);
        std::fs::write(folder.join(format!("{index}.trace")), bytes)?;
    }
    Ok(ExitCode::SUCCESS)
}

fn command(arguments: &[String]) -> Result<ExitCode, String> {
    match arguments.first().map(String::as_str) {
        Some("compare") => {
            let fixed = needed(arguments, "--traces")?;
            let fresh = needed(arguments, "--fresh")?;
            compare(
                arguments,
                compare::Plan { fixed, fresh, seed: 0, report: false, zeros_fail: true },
            )
        }
        Some("soak") => {
            let fresh = number(arguments, "--traces")?.unwrap_or(u64::MAX);
            compare(
                arguments,
                compare::Plan { fixed: 0, fresh, seed: 0, report: true, zeros_fail: false },
            )
        }
        Some("make") => {
            let kind = arguments.get(1).filter(|kind| bench::KINDS.contains(&kind.as_str()));
            let kind = kind.ok_or("KIND is mixed, bus, copies or chains")?;
            print_trace(&bench::make(kind, needed(arguments, "--records")? as usize))
        }
        Some("trace") => {
            let (seed, index) = (needed(arguments, "--seed")?, needed(arguments, "--index")?);
            print_trace(&match seed {
                families::FIXED => families::fixed(index).1,
                _ => families::generated(seed, index).1,
            })
        }
        Some("write") => {
            let folder = arguments.get(1).filter(|folder| !folder.starts_with("--"));
            let folder = PathBuf::from(folder.ok_or("DIR is missing")?);
            let count = needed(arguments, "--traces")?;
            write_traces(folder, count).map_err(|error| error.to_string())
        }
        _ => Err("compare, soak, make, trace or write is missing".to_string()),
    }
}

fn main() -> ExitCode {
    let arguments: Vec<String> = std::env::args().skip(1).collect();
    command(&arguments).unwrap_or_else(|error| {
        eprintln!("differential: {error}\n{USAGE}");
        ExitCode::from(2)
    })
}
