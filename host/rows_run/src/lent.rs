//! What is lent to the library to be changed: cells or records between guards, and how they were when they were lent.
use plombrisa::RowRecord;
use runs::same::MARK;
use std::fmt::Debug;

/// How many guards stand before the lent ones, and behind them.
const BESIDE: usize = 8;

/// A cell or a record, compared by its bits.
pub trait Exact: Copy + Debug {
    type Bits: PartialEq;

    /// A guard: a reader that runs on into it finds something else than it should.
    const GUARD: Self;

    fn bits(self) -> Self::Bits;

    /// The same with the mark for every NaN.
    fn marked(self) -> Self;
}

impl Exact for f32 {
    type Bits = u32;
    const GUARD: Self = -3e38;

    fn bits(self) -> u32 {
        self.to_bits()
    }

    fn marked(self) -> Self {
        if self.is_nan() { f32::from_bits(MARK) } else { self }
    }
}

impl Exact for RowRecord {
    type Bits = (usize, u32, u32);
    const GUARD: Self = RowRecord { count: 0xA5A5_0000_1111_2222, least: -7.5, greatest: -8.5 };

    fn bits(self) -> Self::Bits {
        (self.count, self.least.to_bits(), self.greatest.to_bits())
    }

    fn marked(self) -> Self {
        Self { least: self.least.marked(), greatest: self.greatest.marked(), ..self }
    }
}

/// Cells or records to lend, kept from call to call.
#[derive(Default)]
pub struct Lent<T> {
    all: Vec<T>,
    was: Vec<T>,
}

impl<T: Exact> Lent<T> {
    /// These are to be lent, between guards.
    pub fn fill(&mut self, lent: impl Iterator<Item = T>) {
        self.all.clear();
        self.all.extend([T::GUARD; BESIDE]);
        self.all.extend(lent);
        self.all.extend([T::GUARD; BESIDE]);
        self.was.clone_from(&self.all);
    }

    /// Lends them to be changed.
    pub fn lend(&mut self) -> &mut [T] {
        let lent = BESIDE..self.all.len() - BESIDE;
        self.was[lent.clone()].copy_from_slice(&self.all[lent.clone()]);
        &mut self.all[lent]
    }

    pub fn lent(&self) -> &[T] {
        &self.all[BESIDE..self.all.len() - BESIDE]
    }

    /// Whether the lent ones from `at` on are these, with any NaN for a NaN, all others are as they were when they were last lent, and
    /// the guards are whole.
    pub fn changed(&self, what: &str, at: usize, now: &[T]) -> Result<(), String> {
        let (start, end) = (BESIDE + at, BESIDE + at + now.len());
        let same = |i: &usize| {
            if (start..end).contains(i) {
                self.all[*i].marked().bits() == now[*i - start].marked().bits()
            } else {
                self.all[*i].bits() == self.was[*i].bits()
            }
        };
        match (0..self.all.len()).find(|i| !same(i)) {
            Some(i) => {
                let should = if (start..end).contains(&i) { now[i - start] } else { self.was[i] };
                Err(format!("{what} {} of {} is {:?}, not {should:?}", i as i64 - BESIDE as i64, self.lent().len(), self.all[i]))
            }
            None => Ok(()),
        }
    }

    /// Whether all is as it was when it was last lent.
    pub fn unchanged(&self, what: &str) -> Result<(), String> {
        self.changed(what, 0, &[])
    }
}
