// What is lent to a call: a stretch of cells with others on both sides. Two of them are equal only
// where all cells are, so a comparison after a call also finds what was written beside the
// stretch.

use std::ops::Range;
use std::ptr::null_mut;

/// Cells on each side that are never lent.
pub const MARGIN: usize = 8;

#[derive(Clone, PartialEq)]
pub struct Lent<T> {
    cells: Vec<T>,
    stretch: Range<usize>,
    /// Where nothing is lent: is the pointer null, as the header allows?
    pub null_where_empty: bool,
}

impl<T: Copy + PartialEq> Lent<T> {
    /// Room for `most` cells, all of them `margin` and all but the margins lent.
    pub fn new(most: usize, margin: T) -> Lent<T> {
        let cells = vec![margin; most + 2 * MARGIN];
        Lent { cells, stretch: MARGIN..MARGIN + most, null_where_empty: false }
    }

    /// `cells` lent between two margins.
    pub fn of(cells: &[T], margin: T) -> Lent<T> {
        let mut lent = Lent::new(cells.len(), margin);
        lent.cells_mut().copy_from_slice(cells);
        lent
    }

    /// Lends `length` cells from the cell `from` of the room on; the others join the margins.
    pub fn lend(&mut self, from: usize, length: usize) {
        self.stretch = MARGIN + from..MARGIN + from + length;
        assert!(self.stretch.end + MARGIN <= self.cells.len(), "a stretch past its room");
    }

    /// How many cells could be lent.
    pub fn room(&self) -> usize {
        self.cells.len() - 2 * MARGIN
    }

    pub fn len(&self) -> usize {
        self.stretch.len()
    }

    pub fn cells(&self) -> &[T] {
        &self.cells[self.stretch.clone()]
    }

    pub fn cells_mut(&mut self) -> &mut [T] {
        &mut self.cells[self.stretch.clone()]
    }

    pub fn is_null(&self) -> bool {
        self.null_where_empty && self.stretch.is_empty()
    }

    /// The pointer for a call. It may reach every cell, so a write beside the stretch spoils
    /// nothing but the margin.
    pub fn pointer(&mut self) -> *mut T {
        if self.is_null() {
            return null_mut();
        }
        self.cells.as_mut_ptr().wrapping_add(self.stretch.start)
    }

    /// The first cell that differs, counted from the stretch's start, and what both hold there.
    pub fn difference(&self, other: &Lent<T>) -> Option<(isize, T, T)> {
        let at = self.cells.iter().zip(&other.cells).position(|(left, right)| left != right)?;
        Some((at as isize - self.stretch.start as isize, self.cells[at], other.cells[at]))
    }
}
