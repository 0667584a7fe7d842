//! What is lent to the library to be written: cells or bytes between guards, all of a pattern that shows what a call has changed.

/// How many cells stand before and behind the lent ones.
const GUARD: usize = 8;

/// A cell of a room, compared by its bits.
pub trait Cell: Copy {
    /// What the cell at an index of the room holds before a call.
    fn before(index: usize) -> Self;
    fn same_bits(self, other: Self) -> bool;
}

impl Cell for u8 {
    fn before(index: usize) -> Self {
        0x5B ^ (index as u8).wrapping_mul(37)
    }

    fn same_bits(self, other: Self) -> bool {
        self == other
    }
}

impl Cell for f32 {
    /// A number, for a NaN would pass for a mark that was not written; no whole disparity, and hardly ever a cell of kind 1.
    fn before(index: usize) -> Self {
        f32::from_bits(0x4B80_0000 + (index as u32 & 0xFFFF))
    }

    fn same_bits(self, other: Self) -> bool {
        self.to_bits() == other.to_bits()
    }
}

impl Cell for u64 {
    /// No height of a heap.
    fn before(index: usize) -> Self {
        0xA5A5_0000_0000_0000 + index as u64
    }

    fn same_bits(self, other: Self) -> bool {
        self == other
    }
}

/// Cells to lend, kept from call to call.
pub struct Room<T> {
    cells: Vec<T>,
    before: Vec<T>,
    lent: usize,
}

impl<T: Cell> Room<T> {
    pub fn new() -> Self {
        Self { cells: Vec::new(), before: Vec::new(), lent: 0 }
    }

    /// As many cells as are asked for, all of them and the guards as before any call.
    pub fn lend(&mut self, lent: usize) -> &mut [T] {
        let all = GUARD + lent + GUARD;
        let known = self.before.len();
        self.before.extend((known..all).map(T::before));
        self.cells.clear();
        self.cells.extend_from_slice(&self.before[..all]);
        self.lent = lent;
        &mut self.cells[GUARD..GUARD + lent]
    }

    /// The cells that were lent.
    pub fn lent(&self) -> &[T] {
        &self.cells[GUARD..GUARD + self.lent]
    }

    /// Whether every cell is as before the call, but for the first `written` of the lent ones.
    pub fn unchanged_but(&self, written: usize) -> Result<(), String> {
        let same = |i: &usize| self.cells[*i].same_bits(self.before[*i]);
        match (0..GUARD).chain(GUARD + written..self.cells.len()).find(|i| !same(i)) {
            Some(i) => Err(format!("cell {} of {} lent ones was changed", i as i64 - GUARD as i64, self.lent)),
            None => Ok(()),
        }
    }
}
