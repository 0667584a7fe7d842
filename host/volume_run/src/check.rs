//! One heap on both sides: the library's answer and every lent cell and number, held to `measure`.
use crate::cases::Made;
use plombrisa::{Error, Figures, PointRecord, Site, heap_shape_in, heap_volume, heap_volume_in};
use runs::rng::Rng;
use runs::room::Room;
use runs::same::{equal, same_numbers};
use volume_run::measure::{self, Ground, Measured, Shape};

/// What a lent number holds before a call, and the numbers beside it throughout: none that is answered.
const WAS: u64 = 0xA5A5_0000_1111_2222;
const WERE: Figures = Figures { volume: WAS, inside: WAS + 1, outside: WAS + 2, empty: WAS + 3 };

/// What the library needs to answer, kept from heap to heap, and the order in which points are lent again.
pub struct Both {
    grid: Room<u64>,
    order: Rng,
    rearranged: [Vec<f64>; 3],
    records: Vec<PointRecord>,
}

fn site_of(ground: &Ground) -> Site {
    let Ground { left, right, top, bottom, cell, floor } = *ground;
    Site { left, right, top, bottom, cell, floor }
}

fn figures_of(measured: &Measured) -> Figures {
    let Measured { volume, inside, outside, empty, .. } = *measured;
    Figures { volume, inside, outside, empty }
}

/// The number of an answer, 0 where the call was accepted. A run's inputs are small, so memory is not what it may lack.
fn number_of<T>(answer: &Result<T, impl Copy + Into<Error>>) -> u32 {
    answer.as_ref().map_or_else(|&why| why.into().refusal().expect("memory").number(), |_| 0)
}

/// The rounding of the plain Rust is that of whole numbers, worked out from the bits.
fn rounded_well(coordinates: &[f64]) -> Result<(), String> {
    for metres in coordinates {
        let product = metres * 1000.0;
        let (nearest, by_bits) = (measure::nearest(product), measure::nearest_by_bits(product));
        let small = nearest.abs() < (1u64 << 63) as f64;
        if by_bits.map(|whole| whole as f64) != small.then_some(nearest) {
            return Err(format!("{product:e} is rounded to {nearest:e}, and by its bits to {by_bits:?}"));
        }
    }
    Ok(())
}

/// The shape of a site: its numbers where it is accepted, else as they were, and those beside them as they were.
fn check_shape(site: &Site, should: Result<Shape, u32>) -> Result<(), String> {
    let mut numbers = [WAS; 5];
    let [_, columns, _, rows, _] = &mut numbers;
    let answer = heap_shape_in(site, columns, rows);
    equal("shape's answer", number_of(&answer), should.err().unwrap_or(0))?;
    let expected = should.map_or([WAS; 5], |shape| [WAS, shape.columns as u64, WAS, shape.rows as u64, WAS]);
    equal("shape's numbers", numbers, expected)
}

impl Both {
    pub fn new(seed: u64) -> Self {
        Self { grid: Room::new(), order: Rng::new(!seed), rearranged: Default::default(), records: Vec::new() }
    }

    /// The heap of some lists into a grid of some length: the heights and figures that there should be, or the refusal.
    fn check_volume(
        grid: &mut Room<u64>, lists: [&[f64]; 3], site: &Site, length: usize, should: Result<&Measured, u32>,
    ) -> Result<(), String> {
        let mut figures = [WERE; 3];
        let answer = heap_volume_in(lists[0], lists[1], lists[2], site, grid.lend(length), &mut figures[1]);
        equal("answer", number_of(&answer), should.err().unwrap_or(0))?;
        equal("figures", figures, [WERE, should.map_or(WERE, figures_of), WERE])?;
        if let Ok(measured) = should {
            same_numbers("heights", grid.lent(), &measured.heights)?;
        }
        grid.unchanged_but(should.map_or(0, |_| length))
    }

    /// The same points from the last to the first, and in any order, make the same heap.
    fn check_orders(&mut self, lists: [&[f64]; 3], site: &Site, should: &Measured) -> Result<(), String> {
        for (list, rearranged) in lists.iter().zip(&mut self.rearranged) {
            rearranged.clear();
            rearranged.extend(list.iter().rev());
        }
        for order in ["reversed", "shuffled"] {
            let lists = self.rearranged.each_ref().map(|list| list.as_slice());
            let checked = Self::check_volume(&mut self.grid, lists, site, should.heights.len(), Ok(should));
            checked.map_err(|why| format!("{order}: {why}"))?;
            for i in 1..lists[0].len() {
                let other = self.order.below(i + 1);
                self.rearranged.iter_mut().for_each(|list| list.swap(i, other));
            }
        }
        Ok(())
    }

    /// The call that takes the points of a map and lends its own grid; it takes a coordinate of each, so one length.
    fn check_owned(&mut self, lists: [&[f64]; 3], site: &Site, should: Result<&Measured, u32>) -> Result<(), String> {
        let [xs, ys, zs] = lists;
        self.records.clear();
        let record = |((&x, &y), &z): ((&f64, &f64), &f64)| PointRecord { x, y, z, ..PointRecord::default() };
        self.records.extend(xs.iter().zip(ys).zip(zs).map(record));
        let owned = heap_volume(&self.records, site);
        equal("answer of the call that lends its own", number_of(&owned), should.err().unwrap_or(0))?;
        if let (Ok(heap), Ok(measured)) = (owned, should) {
            let shape = Shape { columns: heap.columns, rows: heap.rows };
            equal("shape of the call that lends its own", shape, measured.shape)?;
            equal("figures of the call that lends its own", heap.figures, figures_of(measured))?;
            same_numbers("heights of the call that lends its own", &heap.heights, &measured.heights)?;
        }
        Ok(())
    }

    /// A heap to be measured. The answer's number.
    pub fn check(&mut self, input: &Made) -> Result<u32, String> {
        let lists = input.lists.each_ref().map(|list| list.lent());
        let [xs, ys, zs] = lists;
        for list in lists {
            rounded_well(list)?;
        }
        let site = site_of(&input.ground);
        let shape = measure::shape(&input.ground);
        check_shape(&site, shape)?;

        // a ground without a shape is lent a few cells
        let length = input.grid.length(shape.map_or(6, |shape| shape.cells()));
        let found = measure::measure(xs, ys, zs, &input.ground);
        let should = match &found {
            Ok(measured) if measured.heights.len() != length => Err(55),
            Ok(measured) => Ok(measured),
            Err(refusal) => Err(*refusal),
        };
        Self::check_volume(&mut self.grid, lists, &site, length, should)?;
        if let Ok(measured) = should {
            equal("points inside and outside", measured.inside + measured.outside, xs.len() as u64)?;
            self.check_orders(lists, &site, measured)?;
        }
        if xs.len() == ys.len() && xs.len() == zs.len() {
            self.check_owned(lists, &site, found.as_ref().map_err(|refusal| *refusal))?;
        }
        Ok(should.err().unwrap_or(0))
    }
}
