// Runs the proved programs on traces and compares what they write with the independent one.

use std::fs;
use std::io;
use std::path::{Path, PathBuf};
use std::sync::atomic::{AtomicU64, Ordering};
use std::time::Instant;

use shared::coverage::Counts;
use shared::crew::{self, Outcome};

use crate::conversion;
use crate::coverage;
use crate::families;
use crate::feed::expect;
use crate::observe::observe;

/// The proved programs.
#[derive(Clone, Copy)]
pub struct Programs<'a> {
    pub replay: &'a Path,
    pub convert: &'a Path,
}

/// Which traces a run takes: some fixed ones, then some of a seed.
#[derive(Clone, Copy)]
pub struct Plan {
    pub fixed: u64,
    pub fresh: u64,
    pub seed: u64,
    /// Report every so often.
    pub report: bool,
    /// A zero in the coverage table is a failure too.
    pub zeros_fail: bool,
}

impl Plan {
    /// Seed, index, family and bytes of the trace that is taken as number `at`.
    fn trace(&self, at: u64) -> (u64, u64, &'static str, Vec<u8>) {
        if at < self.fixed {
            let (family, bytes) = families::fixed(at);
            (families::FIXED, at, family, bytes)
        } else {
            let index = at - self.fixed;
            let (family, bytes) = families::generated(self.seed, index);
            (self.seed, index, family, bytes)
        }
    }
}

/// Is this trace converted too? All of the catalogue are; of the others a share is enough, since
/// the test must not take twice as long for it.
fn converts(family: &str, index: u64) -> bool {
    families::CATALOGUED.contains(&family) || index.is_multiple_of(4)
}

/// Compares all traces of the plan, up to the first difference.
pub fn run(programs: Programs, plan: Plan) -> Outcome<Counts> {
    let progress = Progress { compared: AtomicU64::new(0), started: Instant::now() };
    let total = plan.fixed.saturating_add(plan.fresh);
    crew::take_all(total, coverage::new, Counts::add, |at, coverage| {
        one(&programs, &plan, at, coverage)?;
        if plan.report {
            progress.one();
        }
        Ok(())
    })
}

/// Traces between two reports.
const REPORT: u64 = 20_000;

struct Progress {
    compared: AtomicU64,
    started: Instant,
}

impl Progress {
    fn one(&self) {
        let compared = 1 + self.compared.fetch_add(1, Ordering::Relaxed);
        if compared.is_multiple_of(REPORT) {
            let seconds = self.started.elapsed().as_secs_f64();
            let rate = compared as f64 / seconds;
            println!("{compared} traces in {seconds:.0} seconds, {rate:.0} traces a second");
        }
    }
}

/// Compares one trace; the error is what is to be said of a difference.
fn one(programs: &Programs, plan: &Plan, at: u64, coverage: &mut Counts) -> Result<(), String> {
    let (seed, index, family, trace) = plan.trace(at);
    coverage.see(family);
    let converts = converts(family, index);
    let Err(what) = programs_agree(programs, &trace, at, converts, coverage) else {
        return Ok(());
    };
    let kept = match keep(seed, index, &trace) {
        Ok(name) => format!("trace written to {}", name.display()),
        Err(error) => format!("trace could not be written: {error}"),
    };
    Err(format!("difference at seed {seed}, trace {index} ({family})\n{kept}\n{what}"))
}

fn programs_agree(
    programs: &Programs,
    trace: &[u8],
    at: u64,
    converts: bool,
    coverage: &mut Counts,
) -> Result<(), String> {
    let mut expected = Vec::new();
    independent::trace::replay(trace, &mut expected);
    if observe(trace, coverage) != expected {
        return Err("the independent program lists another way when it is observed".to_string());
    }
    expect(programs.replay, trace, at, &expected, |listing| {
        first_difference(("replay", listing), ("independent", &expected))
    })?;
    if converts {
        conversion::compare(programs, trace, &expected, at, coverage)?;
    }
    Ok(())
}

fn keep(seed: u64, index: u64, trace: &[u8]) -> io::Result<PathBuf> {
    let name = std::env::temp_dir().join(format!("differential-{seed}-{index}.trace"));
    fs::write(&name, trace)?;
    Ok(name)
}

/// The first line in which two listings differ, each with the name of whoever gave it.
pub fn first_difference(left: (&str, &[u8]), right: (&str, &[u8])) -> String {
    let split = |listing: &[u8]| -> Vec<String> {
        let lines = listing.split_inclusive(|byte| *byte == b'\n');
        lines.map(|line| line.escape_ascii().to_string()).collect()
    };
    let all = [left, right].map(|(name, listing)| (name, split(listing)));
    let [(_, left), (_, right)] = &all;
    let at = left.iter().zip(right).take_while(|(left, right)| left == right).count();
    let mut text = format!("line {}", at + 1);
    for (name, lines) in &all {
        let line = lines.get(at).map_or("(no line)", String::as_str);
        text.push_str(&format!("\n  {name:<11} {line}"));
    }
    text
}
