// Compares every function of the C library with the independent program, call by call: what it
// hands back, and every word and byte that was lent and that lies beside it.

mod calls;
mod clock_edges;
mod clocks;
mod counts;
mod coverage;
mod edges;
mod engine_desk;
mod families;
mod joined;
mod judged;
mod large;
mod lent;
mod lone_calls;
mod monitor_desk;
mod observe;
mod observe_clocks;
mod observe_steps;
mod pairs;
mod plans;
mod queue_edges;
mod queues;
mod reference;
mod sessions;
mod situations;
mod spoil;
mod states;
mod surroundings;
mod vast;

use std::process::ExitCode;

use shared::crew::{self, Outcome};
use shared::random::fresh_seed;

use coverage::Coverage;

const USAGE: &str = "usage:
  host [--cases N] [--fresh M] [--seed S] [--tell]
      takes the cases that are gone through one by one, then N random cases of a fixed seed and M
      of a fresh one; a fresh run is repeated with its seed S
      --tell names each case on standard error before it is taken, for a library that breaks off
  host --seed S --case I
      takes one case again
exit status 0: no difference and no zero in the coverage table; 1: otherwise; 2: usage";

const FIXED_SEED: u64 = 1;
const CASES: u64 = 150_000;
const FRESH: u64 = 20_000;

/// What was asked for.
struct Options {
    cases: u64,
    fresh: u64,
    seed: Option<u64>,
    case: Option<u64>,
    tell: bool,
}

fn options(mut arguments: impl Iterator<Item = String>) -> Result<Options, String> {
    let mut options = Options { cases: CASES, fresh: FRESH, seed: None, case: None, tell: false };
    while let Some(name) = arguments.next() {
        if name == "--tell" {
            options.tell = true;
            continue;
        }
        let text = arguments.next().ok_or(format!("{name} needs a number"))?;
        let number = text.parse().map_err(|_| format!("{name} needs a number, not {text}"))?;
        match name.as_str() {
            "--cases" => options.cases = number,
            "--fresh" => options.fresh = number,
            "--seed" => options.seed = Some(number),
            "--case" => options.case = Some(number),
            _ => return Err(format!("there is no option {name}")),
        }
    }
    Ok(options)
}

/// Takes all cases, up to the first difference: the header lets every thread call.
fn take_all(options: &Options, seed: u64) -> Outcome<Coverage> {
    let fixed = families::FIRST + options.cases;
    crew::take_all(fixed + options.fresh, Coverage::new, Coverage::add, |at, coverage| {
        // Fresh cases are random ones too, so they start where those do.
        let (seed, index) =
            if at < fixed { (FIXED_SEED, at) } else { (seed, families::FIRST + at - fixed) };
        if options.tell {
            eprintln!("seed {seed}, case {index}");
        }
        families::take(seed, index, coverage)
    })
}

fn main() -> ExitCode {
    let options = match options(std::env::args().skip(1)) {
        Ok(options) => options,
        Err(error) => {
            eprintln!("host: {error}\n{USAGE}");
            return ExitCode::from(2);
        }
    };
    let seed = options.seed.unwrap_or_else(fresh_seed);
    if let Some(case) = options.case {
        if let Err(told) = families::take(seed, case, &mut Coverage::new()) {
            println!("{told}");
            return ExitCode::FAILURE;
        }
        println!("case {case} of seed {seed}: no difference");
        return ExitCode::SUCCESS;
    }
    println!("fresh cases with --seed {seed}");
    let Outcome { counts: coverage, difference, .. } = take_all(&options, seed);
    if let Some(told) = difference {
        println!("{told}");
        return ExitCode::FAILURE;
    }
    match vast::vast() {
        Ok(tried) => println!("lengths above 32 bits that this system could lend: {tried:?}"),
        Err(told) => {
            println!("{told}");
            return ExitCode::FAILURE;
        }
    }
    let zeros = coverage.print();
    if zeros > 0 {
        println!("{zeros} places of the coverage table are zero");
    }
    println!("compared {} calls, 0 different", coverage.calls);
    ExitCode::from(u8::from(zeros > 0))
}
