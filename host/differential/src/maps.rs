//! A map's figures on both sides: valid cells, least and greatest.
use crate::numbers::{narrow, size, unfit_side};
use oracle::dense::DisparityMap;
use plombrisa::{Map, valid_count, valid_count_in, valid_range, valid_range_in};
use runs::limits::is_map;
use runs::rng::Rng;

#[derive(Debug)]
pub struct Cells {
    pub cells: Vec<f32>,
    pub width: usize,
    pub height: usize,
}

/// A cell that is not valid.
pub fn blank(rng: &mut Rng) -> f32 {
    rng.pick(&[f32::NAN, -f32::NAN, f32::from_bits(0x7F80_0001), f32::INFINITY, f32::NEG_INFINITY])
}

/// Cells by one of several recipes: none valid, zeros of both signs, one valid cell, numbers of every kind.
pub fn cells(rng: &mut Rng, n: usize) -> Vec<f32> {
    let recipe = rng.below(6);
    let mut all: Vec<f32> = (0..n)
        .map(|_| match recipe {
            0 | 1 => blank(rng),
            2 => rng.pick(&[0.0, -0.0, 1e-45, -1e-45, f32::NAN]),
            3 => rng.pick(&[0.0, -0.0, f32::NAN]),
            4 => rng.within(-8, 300) as f32 / 8.0,
            _ => narrow(rng),
        })
        .collect();
    if recipe == 1 {
        all[rng.below(n)] = narrow(rng);
    }
    all
}

/// A map; one in eight with something wrong with it.
pub fn map(rng: &mut Rng) -> Cells {
    let (width, height) = size(rng);
    let mut case = Cells { cells: cells(rng, width * height), width, height };
    case.spoil(rng);
    case
}

impl Cells {
    /// One in eight gets something wrong with it.
    pub fn spoil(&mut self, rng: &mut Rng) {
        match rng.below(32) {
            0 => self.width = unfit_side(rng),
            1 => self.height = unfit_side(rng),
            2 => self.cells.push(1.0),
            3 => drop(self.cells.pop()),
            _ => {}
        }
    }

    pub fn lent(&self) -> Map<'_> {
        Map { cells: &self.cells, width: self.width, height: self.height }
    }

    /// Whether the size is in range and the length fits it.
    pub fn good(&self) -> bool {
        is_map(self.cells.len(), self.width, self.height)
    }

    /// The least and the greatest valid number where the earlier of two equal ones stays, which settles the sign of a zero.
    fn earlier_stays(&self) -> Option<(f32, f32)> {
        self.cells.iter().filter(|v| v.is_finite()).fold(None, |range, &v| match range {
            None => Some((v, v)),
            Some((lo, hi)) => Some((if v < lo { v } else { lo }, if hi < v { v } else { hi })),
        })
    }
}

pub fn said<T>(what: &str, answer: Result<T, plombrisa::Refusal>, should: u32) -> Result<(), String> {
    match answer.map_or_else(|r| r.number(), |_| 0) {
        number if number == should => Ok(()),
        number => Err(format!("{what}: answered {number}, document 01 has {should}")),
    }
}

pub fn equal<T: PartialEq + std::fmt::Debug>(what: &str, is: T, should: T) -> Result<(), String> {
    if is == should { Ok(()) } else { Err(format!("{what}: {is:?}, not {should:?}")) }
}

/// Every figure of a map: each answer and each lent number.
pub fn check(case: &Cells) -> Result<u32, String> {
    let number = if case.good() { 0 } else { 23 };
    let was = 0xA5A5_0000_1111_2222;
    let mut count = was;
    let (mut some, mut least, mut greatest) = (77u32, -7.5f32, -8.5f32);
    said("valid count", valid_count_in(case.lent(), &mut count), number)?;
    said("range", valid_range_in(case.lent(), &mut some, &mut least, &mut greatest), number)?;
    let bits = (least.to_bits(), greatest.to_bits());
    let bits_was = ((-7.5f32).to_bits(), (-8.5f32).to_bits());
    if number != 0 {
        equal("figures of a refused map", (count, some), (was, 77))?;
        equal("range of a refused map", bits, bits_was)?;
        return Ok(number);
    }
    let rust = DisparityMap::new(case.width, case.height, case.cells.clone());
    equal("valid count", count, rust.valid_count() as u64)?;
    equal("valid count", valid_count(case.lent()), Ok(count))?;
    let range = (some == 1).then_some((least, greatest));
    equal("range", range, rust.valid_range())?;
    equal("range", valid_range(case.lent()), Ok(range))?;
    match case.earlier_stays() {
        Some((lo, hi)) => equal("range's bits", bits, (lo.to_bits(), hi.to_bits()))?,
        None => equal("range of no valid cell", (some, bits), (0, bits_was))?,
    }
    Ok(0)
}
