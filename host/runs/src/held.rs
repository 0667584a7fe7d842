//! What is lent to the library to be read: cells between guards, and how they were when they were lent.
use crate::room::Cell;

/// How many guards stand before the lent cells, and behind them.
const BESIDE: usize = 8;

/// Cells to lend, kept from call to call. A reader that runs on into a guard finds something else than it should.
#[derive(Default)]
pub struct Held<T> {
    all: Vec<T>,
    was: Vec<T>,
}

impl<T: Cell> Held<T> {
    /// These are to be lent, between guards.
    pub fn hold(&mut self, these: &[T]) {
        self.all.clear();
        self.all.extend((0..BESIDE).map(T::before));
        self.all.extend_from_slice(these);
        self.all.extend((0..BESIDE).map(T::before));
        self.was.clone_from(&self.all);
    }

    pub fn lent(&self) -> &[T] {
        &self.all[BESIDE..self.all.len() - BESIDE]
    }

    /// Whether all is as it was when it was lent, the guards too.
    pub fn unchanged(&self, what: &str) -> Result<(), String> {
        match (0..self.all.len()).find(|&i| !self.all[i].same_bits(self.was[i])) {
            Some(i) => Err(format!("{what} {} of {} was changed", i as i64 - BESIDE as i64, self.lent().len())),
            None => Ok(()),
        }
    }
}
