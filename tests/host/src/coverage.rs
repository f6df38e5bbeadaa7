// The coverage table: what the calls of a run made the independent program do.

use std::collections::BTreeMap;
use std::ops::{Deref, DerefMut};

use shared::clocks::FLAGS;
use shared::coverage::{
    add_cells, add_rows, add_table, print_by_settings, BySettings, Counts, Groups, CDMACR_BITS,
};
use shared::settings;
use shared::table::{print_row, print_table};

use crate::situations::SITUATIONS;
use crate::spoil::KINDS;

#[derive(Clone, Copy)]
pub enum Function {
    Plan,
    Count,
    Read,
    Write,
    InterruptLine,
    Step,
    Run,
    BusClock,
    Judge,
}

/// The functions in the order of `Function`, each with the answers it can give.
const FUNCTIONS: [(&str, &[u32]); 9] = [
    ("plan", &[0, 1, 7, 8]),
    ("count", &[0, 1, 7]),
    ("read", &[0, 1, 3, 9]),
    ("write", &[0, 1, 3, 4, 5, 9]),
    ("interrupt_line", &[0, 1, 9]),
    ("step", &[0, 1, 2, 6, 9]),
    ("run", &[0, 1, 2, 6, 9]),
    ("bus_clock", &[0, 1, 9, 13]),
    ("judge", &[0, 2, 6]),
];

/// How many of them have settings; these come first.
const WITH_SETTINGS: usize = 8;

/// For each function, which answers were given where which other refusal held too.
const BESIDE: [&[(u32, u32)]; 9] = [
    &[(1, 7), (1, 8), (7, 8)],
    &[(1, 7)],
    &[(1, 9), (1, 3), (9, 3)],
    &[(1, 9), (1, 3), (9, 3), (5, 4)],
    &[(1, 9)],
    &[(1, 2), (1, 6), (1, 9), (2, 6), (2, 9), (6, 9)],
    &[(1, 2), (1, 6), (1, 9), (2, 6), (2, 9), (6, 9)],
    &[(1, 9), (1, 13), (9, 13)],
    &[(2, 6)],
];

const NUMBERED: &Groups = &[
    (CDMACR_BITS.0[0], CDMACR_BITS.1),
    (CDMACR_BITS.0[1], CDMACR_BITS.1),
    ("event of a step", &[0, 1, 2, 3, 4, 5]),
    ("bit of a fault", &[5, 6]),
    ("bit of a halt", &[8, 9, 10]),
    ("bit of an updated word", &[28, 29, 30, 31]),
    ("error bit after a run", &[4, 5, 6, 8, 9, 10]),
    ("refusal of joined runs", &[1, 2, 6, 9]),
    ("flag raised", &FLAGS),
    ("flag raised alone", &FLAGS),
    ("number of windows that were taken", &[0, 1, 2, 3, 4, 8, 15, 16]),
    ("verdict of a group", &[0, 1, 2]),
    ("window of a sick byte", &[0, 1, 2, 3, 14, 15]),
];

/// What is counted beside the counts of every coverage table.
#[derive(Clone)]
pub struct Coverage {
    counts: Counts,
    answers: BTreeMap<(usize, u32), u64>,
    beside: BTreeMap<(usize, u32, u32), u64>,
    /// Calls that were done, by function, width and beats.
    settings: [BySettings; WITH_SETTINGS],
    /// Calls of `interrupt_line` by IOC_Irq, IOC_IrqEn, Err_Irq and Err_IrqEn.
    pub lines: [u64; 16],
    /// The lowest flag that was reported.
    pub lowest: [u64; 64],
    /// Refused calls on an engine with one fault alone: read, write, interrupt line, step, run.
    pub spoiled: [[u64; 5]; KINDS.len()],
    /// All calls.
    pub calls: u64,
}

impl Deref for Coverage {
    type Target = Counts;

    fn deref(&self) -> &Counts {
        &self.counts
    }
}

impl DerefMut for Coverage {
    fn deref_mut(&mut self) -> &mut Counts {
        &mut self.counts
    }
}

impl Coverage {
    pub fn new() -> Coverage {
        let answers = FUNCTIONS.iter().enumerate();
        let answers =
            answers.flat_map(|(at, (_, list))| list.iter().map(move |number| (at, *number)));
        let beside = BESIDE.iter().enumerate();
        let beside = beside.flat_map(|(at, list)| list.iter().map(move |(a, b)| (at, *a, *b)));
        let names = SITUATIONS.iter().flat_map(|(_, names)| names.iter().copied());
        Coverage {
            counts: Counts::new(NUMBERED, names),
            answers: answers.map(|row| (row, 0)).collect(),
            beside: beside.map(|row| (row, 0)).collect(),
            settings: [[[0; 8]; 6]; WITH_SETTINGS],
            lines: [0; 16],
            lowest: [0; 64],
            spoiled: [[0; 5]; KINDS.len()],
            calls: 0,
        }
    }

    /// Counts a call by its answer, and the settings it was done with.
    pub fn answer(&mut self, function: Function, answer: u32, width: u32, beats: u32) {
        self.answer_alone(function, answer);
        if let (0, Some((row, column))) = (answer, settings::place(width, beats)) {
            self.settings[function as usize][row][column] += 1;
        }
    }

    /// Counts a call of a function without settings by its answer.
    pub fn answer_alone(&mut self, function: Function, answer: u32) {
        self.calls += 1;
        *self.answers.entry((function as usize, answer)).or_insert(0) += 1;
    }

    /// Counts the other refusals that would have held beside an answer.
    pub fn beside(&mut self, function: Function, answer: u32, held: &[(u32, bool)]) {
        for (other, holds) in held {
            if *holds && *other != answer {
                if let Some(count) = self.beside.get_mut(&(function as usize, answer, *other)) {
                    *count += 1;
                }
            }
        }
    }

    pub fn add(&mut self, other: &Coverage) {
        self.counts.add(&other.counts);
        add_rows(&mut self.answers, &other.answers);
        add_rows(&mut self.beside, &other.beside);
        for (sum, table) in self.settings.iter_mut().zip(&other.settings) {
            add_table(sum, table);
        }
        add_table(&mut self.spoiled, &other.spoiled);
        add_cells(&mut self.lines, &other.lines);
        add_cells(&mut self.lowest, &other.lowest);
        self.calls += other.calls;
    }

    /// Prints the table and gives the number of its zeros.
    pub fn print(&self) -> usize {
        let mut zeros = 0;
        println!("coverage");
        for (at, (name, _)) in FUNCTIONS.iter().enumerate() {
            let row = self.answers.range((at, 0)..(at + 1, 0));
            let row = row.map(|((_, answer), count)| (answer.to_string(), *count));
            zeros += print_row(&format!("answers of {name}"), row.collect());
        }
        for (at, (name, _)) in FUNCTIONS.iter().enumerate() {
            let row = self.beside.range((at, 0, 0)..(at + 1, 0, 0));
            let row = row.map(|((_, given, held), count)| (format!("{given} over {held}"), *count));
            zeros += print_row(&format!("answers of {name} where another held too"), row.collect());
        }
        zeros += self.print_numbers(NUMBERED);
        let lowest = self.lowest.iter().enumerate().map(|(flag, count)| (flag.to_string(), *count));
        zeros += print_row("lowest flag (0: also where none is up)", lowest.collect());
        let lines = self.lines.iter().enumerate();
        let lines = lines.map(|(bits, count)| (format!("{bits:04b}"), *count));
        zeros += print_row("IOC_Irq, IOC_IrqEn, Err_Irq, Err_IrqEn of the line", lines.collect());

        zeros += print_by_settings("calls done, of the function with least", &self.least());
        zeros += self.print_tables();
        let calls = ["read", "write", "line", "step", "run"].map(String::from);
        let kinds = KINDS.map(|kind| kind.name.to_string());
        zeros += print_table("answer 9 for this alone", &calls, &kinds, &self.spoiled);
        for (title, names) in SITUATIONS {
            zeros += self.print_list(title, names);
        }
        zeros
    }

    /// For each width and beats, the calls done of the function that has least.
    fn least(&self) -> BySettings {
        let mut least = self.settings[0];
        for table in &self.settings[1..] {
            for (row, counts) in least.iter_mut().zip(table) {
                for (cell, count) in row.iter_mut().zip(counts) {
                    *cell = (*cell).min(*count);
                }
            }
        }
        least
    }
}
