// What both coverage tables count: numbers in groups, named situations, cut bursts and pieces by
// settings, register accesses by state, and starts of transfers with a fixed side. A row that stays at zero means that a test did not reach
// something, and makes it fail.

use std::collections::BTreeMap;

use independent::engine::Engine;

use crate::key_hole::{STARTERS, STARTS};
use crate::registers::{self, REGISTERS, STATES};
use crate::settings::{self, BEATS, WIDTHS};
use crate::table::{print_named, print_row, print_table};

/// Counts by width and beats.
pub type BySettings = [[u64; 8]; 6];

/// Groups of numbers, each with those it expects.
pub type Groups = [(&'static str, &'static [u32])];

/// Bits that a register keeps: the groups of those read as 0 and as 1, and their numbers.
pub type Bits = ([&'static str; 2], &'static [u32]);

pub const CDMACR_BITS: Bits =
    (["CDMACR bit read as 0", "CDMACR bit read as 1"], &[3, 4, 5, 12, 14]);
pub const CDMASR_BITS: Bits =
    (["CDMASR bit read as 0", "CDMASR bit read as 1"], &[1, 4, 5, 6, 8, 9, 10, 12, 14]);

#[derive(Clone)]
pub struct Counts {
    numbers: BTreeMap<(&'static str, u32), u64>,
    named: BTreeMap<&'static str, u64>,
    cuts: BySettings,
    pieces: BySettings,
    writes: [[u64; 7]; 12],
    reads: [[u64; 7]; 12],
    starts: [[u64; 2]; STARTS.len()],
    /// By the engine that takes a record or a step, and the states of engines 1 and 2.
    pairs: [[[u64; 7]; 7]; 2],
}

impl Counts {
    pub fn new(groups: &Groups, names: impl IntoIterator<Item = &'static str>) -> Counts {
        let numbers = groups
            .iter()
            .flat_map(|(group, list)| list.iter().map(move |number| (*group, *number)));
        Counts {
            numbers: numbers.map(|row| (row, 0)).collect(),
            named: names.into_iter().map(|name| (name, 0)).collect(),
            cuts: [[0; 8]; 6],
            pieces: [[0; 8]; 6],
            writes: [[0; 7]; 12],
            reads: [[0; 7]; 12],
            starts: [[0; 2]; STARTS.len()],
            pairs: [[[0; 7]; 7]; 2],
        }
    }

    /// Counts `number` in a group.
    pub fn number(&mut self, group: &'static str, number: u32) {
        *self.numbers.entry((group, number)).or_insert(0) += 1;
    }

    /// Counts the bits of a register that was read.
    pub fn bits(&mut self, (groups, bits): Bits, value: u32) {
        for &bit in bits {
            self.number(groups[(value >> bit & 1) as usize], bit);
        }
    }

    /// Counts a number of a group that expects only some of those that come.
    pub fn number_if_expected(&mut self, group: &'static str, number: u32) {
        if let Some(count) = self.numbers.get_mut(&(group, number)) {
            *count += 1;
        }
    }

    /// Counts a situation.
    pub fn see(&mut self, name: &'static str) {
        *self.named.get_mut(name).expect("a situation of the list") += 1;
    }

    pub fn see_if(&mut self, seen: bool, name: &'static str) {
        if seen {
            self.see(name);
        }
    }

    /// Counts a burst that ended before its transfer, both sides incrementing.
    pub fn cut(&mut self, width: u32, beats: u32) {
        if let Some((row, column)) = settings::place(width, beats) {
            self.cuts[row][column] += 1;
        }
    }

    /// Counts a piece to a fixed destination that ended before its transfer.
    pub fn piece(&mut self, width: u32, beats: u32) {
        if let Some((row, column)) = settings::place(width, beats) {
            self.pieces[row][column] += 1;
        }
    }

    /// Counts a start of a transfer with a fixed side.
    pub fn start(&mut self, row: usize, starter: usize) {
        self.starts[row][starter] += 1;
    }

    pub fn write(&mut self, offset: u32, engine: &Engine) {
        self.writes[registers::row(offset)][registers::column(engine)] += 1;
    }

    pub fn read(&mut self, offset: u32, engine: &Engine) {
        self.reads[registers::row(offset)][registers::column(engine)] += 1;
    }

    /// Counts a record or a step of one of two engines, whose place is from 0.
    pub fn pair(&mut self, place: usize, engines: &[Engine; 2]) {
        let [first, second] = engines.each_ref().map(registers::column);
        self.pairs[place][first][second] += 1;
    }

    pub fn add(&mut self, other: &Counts) {
        add_rows(&mut self.numbers, &other.numbers);
        add_rows(&mut self.named, &other.named);
        add_table(&mut self.cuts, &other.cuts);
        add_table(&mut self.pieces, &other.pieces);
        add_table(&mut self.writes, &other.writes);
        add_table(&mut self.reads, &other.reads);
        add_table(&mut self.starts, &other.starts);
        for (sum, table) in self.pairs.iter_mut().zip(&other.pairs) {
            add_table(sum, table);
        }
    }

    /// Prints a row for each group; this and the others give the number of zeros.
    pub fn print_numbers(&self, groups: &Groups) -> usize {
        let print = |group: &'static str| {
            let row = self.numbers.range((group, 0)..=(group, u32::MAX));
            print_row(group, row.map(|((_, number), count)| (number.to_string(), *count)).collect())
        };
        groups.iter().map(|(group, _)| print(group)).sum()
    }

    /// Prints the named counts of a list in one row.
    pub fn print_words(&self, title: &str, names: &[&'static str]) -> usize {
        print_row(title, names.iter().map(|name| (name.to_string(), self.named[name])).collect())
    }

    /// Prints the named counts of a list, a line each.
    pub fn print_list(&self, title: &str, names: &[&'static str]) -> usize {
        print_named(title, names, &self.named)
    }

    pub fn print_tables(&self) -> usize {
        let (states, registers) = (STATES.map(String::from), REGISTERS.map(String::from));
        let (starters, starts) = (STARTERS.map(String::from), STARTS.map(String::from));
        print_by_settings("bursts that end before their transfer", &self.cuts)
            + print_by_settings("pieces that end before their transfer", &self.pieces)
            + print_table("register writes", &states, &registers, &self.writes)
            + print_table("register reads", &states, &registers, &self.reads)
            + print_table("starts with a fixed side", &starters, &starts, &self.starts)
            + self.print_pairs()
    }

    fn print_pairs(&self) -> usize {
        let rows = STATES.map(|state| format!("engine 1 {state}"));
        let columns = STATES.map(String::from);
        let print = |number: usize| {
            let title = format!("engine {number} in turn; across: engine 2");
            print_table(&title, &columns, &rows, &self.pairs[number - 1])
        };
        print(1) + print(2)
    }
}

pub fn print_by_settings(title: &str, counts: &BySettings) -> usize {
    let beats = BEATS.map(|beats| format!("L={beats}"));
    let widths = WIDTHS.map(|width| format!("W={width}"));
    print_table(title, &beats, &widths, counts)
}

pub fn add_rows<K: Copy + Ord>(sum: &mut BTreeMap<K, u64>, other: &BTreeMap<K, u64>) {
    for (row, count) in other {
        *sum.entry(*row).or_insert(0) += count;
    }
}

pub fn add_cells(sum: &mut [u64], other: &[u64]) {
    for (cell, count) in sum.iter_mut().zip(other) {
        *cell += count;
    }
}

pub fn add_table<const C: usize, const R: usize>(sum: &mut [[u64; C]; R], other: &[[u64; C]; R]) {
    add_cells(sum.as_flattened_mut(), other.as_flattened());
}
