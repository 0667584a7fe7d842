//! Maps to be written: good ones, and ones whose size, length or output is unfit.
use crate::limits::SIDE_MOST;
use crate::rng::Rng;
use crate::sizes;
use std::fmt;

/// How long the output is that is lent, beside what is to go there.
#[derive(Debug, Clone, Copy)]
pub enum Output {
    Longer(usize),
    Shorter(usize),
    Empty,
}

impl Output {
    const EXACT: Output = Output::Longer(0);

    pub fn length(self, needed: usize) -> usize {
        match self {
            Output::Longer(by) => needed + by,
            Output::Shorter(by) => needed.saturating_sub(by),
            Output::Empty => 0,
        }
    }
}

/// What draws a cell that is not blank.
pub type Number = fn(&mut Rng) -> f32;

/// A NaN of any sign and payload.
pub fn nan(rng: &mut Rng) -> f32 {
    let any = 1 + rng.below(0x007F_FFFF) as u32;
    let payload = rng.pick(&[1, 0x0040_0000, 0x007F_FFFF, any]);
    f32::from_bits(rng.pick(&[0x7F80_0000, 0xFF80_0000]) | payload)
}

/// Some cells, with blank ones often, at times or hardly ever.
pub fn cells(rng: &mut Rng, number: Number, n: usize, into: &mut Vec<f32>) {
    let blank_in = rng.pick(&[1, 2, 4, 1000]);
    into.clear();
    for _ in 0..n {
        into.push(if rng.one_in(blank_in) { nan(rng) } else { number(rng) });
    }
}

/// A map to be written: the first `len` of the cells; a writer that runs on finds more behind them.
pub struct MadeMap {
    cells: Vec<f32>,
    len: usize,
    pub width: usize,
    pub height: usize,
    pub output: Output,
    pub number: Number,
}

impl fmt::Debug for MadeMap {
    fn fmt(&self, f: &mut fmt::Formatter) -> fmt::Result {
        let Self { width, height, output, .. } = self;
        // all the cells of an input by a recipe; of the largest map the first of them, for the seed gives the others
        let bits: Vec<u32> = self.lent().iter().take(5000).map(|cell| cell.to_bits()).collect();
        write!(f, "width {width}, height {height}, output {output:?}, cells {bits:08X?}")
    }
}

impl MadeMap {
    pub fn new(number: Number) -> Self {
        Self { cells: Vec::new(), len: 0, width: 0, height: 0, output: Output::EXACT, number }
    }

    pub fn lent(&self) -> &[f32] {
        &self.cells[..self.len]
    }

    pub fn lent_mut(&mut self) -> &mut [f32] {
        &mut self.cells[..self.len]
    }

    /// A good map of this size, and an output that is exact.
    pub fn exact_of(&mut self, rng: &mut Rng, width: usize, height: usize) {
        (self.len, self.width, self.height, self.output) = (width * height, width, height, Output::EXACT);
        cells(rng, self.number, self.len, &mut self.cells);
    }

    /// A good map of this size, and an output that holds what is written.
    pub fn good_of(&mut self, rng: &mut Rng, width: usize, height: usize) {
        self.exact_of(rng, width, height);
        if !rng.one_in(2) {
            self.output = Output::Longer(rng.pick(&[1, 2, 5, 64]));
        }
    }

    /// A good map that is small.
    pub fn good(&mut self, rng: &mut Rng) {
        let (width, height) = sizes::small(rng);
        self.good_of(rng, width, height);
    }

    /// A map of one cell, good or not.
    pub fn one_cell(&mut self, cell: f32) {
        self.cells.clear();
        self.cells.push(cell);
        (self.len, self.width, self.height, self.output) = (1, 1, 1, Output::EXACT);
    }

    /// Something wrong with the size or the length: 23.
    pub fn spoil_size(&mut self, rng: &mut Rng) {
        match rng.below(6) {
            0 => self.width = sizes::unfit_side(rng),
            1 => self.height = sizes::unfit_side(rng),
            2 => {
                // a product that goes round: to 0, which is the length, or where the height is even to the length
                if rng.one_in(2) {
                    (self.width, self.height, self.len) = (1 << 32, 1 << 32, 0);
                } else {
                    self.width |= 1 << 63;
                }
            }
            3 => {
                // a side of no map, and a length that fits it
                let side = rng.pick(&[0, SIDE_MOST + 1]);
                (self.width, self.height) = rng.pick(&[(side, 1), (1, side)]);
                cells(rng, self.number, side, &mut self.cells);
                self.len = side;
            }
            4 => {
                self.cells.push(1.0);
                self.len += 1;
            }
            _ => self.len = self.len.saturating_sub(1 + rng.below(3)),
        }
    }

    /// Too little room: none, or less than is needed by one of some numbers of bytes.
    pub fn shorten_output(&mut self, rng: &mut Rng, by: &[usize]) {
        self.output = if rng.one_in(4) { Output::Empty } else { Output::Shorter(rng.pick(by)) };
    }
}
