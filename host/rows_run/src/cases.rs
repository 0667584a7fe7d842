//! Maps to be indexed and edited: good ones, with equal numbers, zeros of both signs, infinities and rows without a valid cell, and
//! ones with one fault or more; and edits of every kind.
use rows_run::index;
use runs::limits::SIDE_MOST;
use runs::maps::{MadeMap, Number, nan};
use runs::recipes::Recipe;
use runs::rng::Rng;
use runs::sizes;
use std::fmt;

/// Numbers that a row turns on: some that are hardly any, the largest, and two that are not valid.
pub const ODD: [f32; 11] = [
    0.0, -0.0, 1e-45, -1e-45, f32::MIN_POSITIVE, 1.0, -1.0, f32::MAX, f32::MIN, f32::INFINITY, f32::NEG_INFINITY,
];

/// What draws the numbers of a map: odd ones, disparities, a few so that many are equal, zeros, any bits at all, and none that is valid.
const NUMBERS: [Number; 6] = [
    |rng| rng.pick(&ODD),
    |rng| rng.within(-64, 2048) as f32 / 8.0,
    |rng| rng.pick(&[1.0, 2.5, -3.0]),
    |rng| rng.pick(&[0.0, -0.0]),
    |rng| f32::from_bits(rng.next() as u32),
    |rng| rng.pick(&[f32::INFINITY, f32::NEG_INFINITY]),
];

/// An edit to be made: the pixel, and its new cell.
#[derive(Debug, Clone, Copy)]
pub struct Edit {
    pub kind: &'static str,
    pub x: usize,
    pub y: usize,
    pub value: Option<f32>,
}

/// Draws the place and the new cell of an edit of a row, where the row has one of this kind.
type Draw = fn(&mut Rng, &[f32], Number) -> Option<(usize, Option<f32>)>;

/// Any place of a row, for this cell.
fn anywhere(rng: &mut Rng, row: &[f32], value: Option<f32>) -> Option<(usize, Option<f32>)> {
    Some((rng.below(row.len()), value))
}

/// The place of a number in a row: the first of those that are equal, or the last.
fn place(rng: &mut Rng, row: &[f32], number: f32) -> Option<usize> {
    if rng.one_in(2) { row.iter().position(|&cell| cell == number) } else { row.iter().rposition(|&cell| cell == number) }
}

/// The row's least or its greatest.
fn end(rng: &mut Rng, row: &[f32]) -> Option<f32> {
    let (least, greatest) = index::row(row).range?;
    Some(rng.pick(&[least, greatest]))
}

/// A kind of edit of a pixel of the map.
type Kind = (&'static str, Draw);

const LEAST_BLANKED: Kind = ("edit: the row's least blanked", |rng, row, _| {
    let (least, _) = index::row(row).range?;
    Some((place(rng, row, least)?, None))
});

const GREATEST_BLANKED: Kind = ("edit: the row's greatest blanked", |rng, row, _| {
    let (_, greatest) = index::row(row).range?;
    Some((place(rng, row, greatest)?, None))
});

const KINDS: [Kind; 10] = [
    LEAST_BLANKED,
    GREATEST_BLANKED,
    ("edit: a cell blanked", |rng, row, _| anywhere(rng, row, None)),
    ("edit: a NaN of any bits", |rng, row, _| {
        let value = nan(rng);
        anywhere(rng, row, Some(value))
    }),
    ("edit: an infinity", |rng, row, _| {
        let value = rng.pick(&[f32::INFINITY, f32::NEG_INFINITY]);
        anywhere(rng, row, Some(value))
    }),
    ("edit: a number", |rng, row, number| {
        let value = number(rng);
        anywhere(rng, row, Some(value))
    }),
    ("edit: the same cell again", |rng, row, _| {
        let x = rng.below(row.len());
        Some((x, Some(row[x])))
    }),
    ("edit: the row's least or greatest once more", |rng, row, _| {
        let value = end(rng, row)?;
        anywhere(rng, row, Some(value))
    }),
    ("edit: the row's least or greatest, a zero, with the other sign", |rng, row, _| {
        let value = end(rng, row).filter(|&number| number == 0.0)?;
        anywhere(rng, row, Some(-value))
    }),
    ("edit: the number beside the row's least or greatest", |rng, row, _| {
        let bits = end(rng, row)?.to_bits();
        let value = f32::from_bits(if rng.one_in(2) { bits.wrapping_add(1) } else { bits.wrapping_sub(1) });
        anywhere(rng, row, Some(value))
    }),
];

const OUTSIDE: [&str; 2] = ["edit: a pixel outside by one", "edit: a pixel far outside"];

/// A map to be indexed and edited: how many records are lent beside it, the edits, and whether they begin with the fresh index.
pub struct Made {
    pub map: MadeMap,
    pub records: usize,
    pub edits: Vec<Edit>,
    pub fresh: bool,
}

impl fmt::Debug for Made {
    fn fmt(&self, f: &mut fmt::Formatter) -> fmt::Result {
        writeln!(f, "{:?}, {} records{}", self.map, self.records, if self.fresh { "" } else { " that are not fresh" })?;
        for Edit { kind, x, y, value } in &self.edits {
            writeln!(f, "{kind}: ({x}, {y}), bits {:08X?}", value.map(f32::to_bits))?;
        }
        Ok(())
    }
}

impl Made {
    pub fn new() -> Self {
        Self { map: MadeMap::new(NUMBERS[0]), records: 0, edits: Vec::new(), fresh: true }
    }

    /// Every kind of edit that is drawn.
    pub fn kinds() -> impl Iterator<Item = &'static str> {
        KINDS.iter().map(|(kind, _)| *kind).chain(OUTSIDE)
    }

    /// A good map of this size with a record for each row, and no edit yet.
    pub fn good_of(&mut self, rng: &mut Rng, width: usize, height: usize) {
        self.map.number = rng.pick(&NUMBERS);
        self.map.exact_of(rng, width, height);
        self.records = height;
        self.edits.clear();
        self.fresh = true;
    }

    /// A good map, mostly a small one.
    fn good(&mut self, rng: &mut Rng) {
        let (width, height) = if rng.one_in(20) { (1 + rng.below(40), 1 + rng.below(40)) } else { sizes::small(rng) };
        self.good_of(rng, width, height);
    }

    /// A good map, now and then with a side that is as long as can be, or nearly.
    fn long(&mut self, rng: &mut Rng) {
        if !rng.one_in(20) {
            return self.good(rng);
        }
        let long = rng.pick(&[SIDE_MOST, SIDE_MOST - 1, 1024, 257]);
        let (width, height) = sizes::narrow(rng, long);
        self.good_of(rng, width, height);
    }

    /// A pixel outside the map: in the next column or row, or so far that the cell's place might go round.
    fn outside(&self, rng: &mut Rng, pixel: (usize, usize)) -> (&'static str, usize, usize) {
        let (width, height) = (self.map.width, self.map.height);
        let far = |n: usize| [usize::MAX, usize::MAX - n, 1 << 63, 1 << 62, 1 << 61, n + (1 << 32), n + (1 << 63), n + SIDE_MOST];
        let (x, y) = match rng.below(6) {
            0 => return (OUTSIDE[0], width, pixel.1),
            1 => return (OUTSIDE[0], pixel.0, height),
            2 => return (OUTSIDE[0], width, height),
            3 => (width + rng.pick(&far(pixel.0)).min(usize::MAX - width), pixel.1),
            4 => (pixel.0, height + rng.pick(&far(pixel.1)).min(usize::MAX - height)),
            _ => (rng.pick(&far(width)), rng.pick(&far(height))),
        };
        (OUTSIDE[1], x, y)
    }

    /// Some edits one after the other, each drawn from the cells that the ones before it leave; one in so many is outside the map.
    fn draw_edits(&mut self, rng: &mut Rng, most: usize, outside_in: usize) {
        let (width, height) = (self.map.width, self.map.height);
        let mut cells = self.map.lent().to_vec();
        // as often as not all of them in one row
        let one_row = rng.one_in(2).then(|| rng.below(height));
        for _ in 0..rng.below(most + 1) {
            let y = one_row.unwrap_or_else(|| rng.below(height));
            let row = &mut cells[y * width..][..width];
            let (kind, (x, value)) = loop {
                let (kind, draw) = rng.pick(&KINDS);
                if let Some(drawn) = draw(rng, row, self.map.number) {
                    break (kind, drawn);
                }
            };
            if rng.one_in(outside_in) {
                let (kind, x, y) = self.outside(rng, (x, y));
                self.edits.push(Edit { kind, x, y, value });
            } else {
                row[x] = value.unwrap_or(f32::NAN);
                self.edits.push(Edit { kind, x, y, value });
            }
        }
    }

    fn edits(&mut self, rng: &mut Rng) {
        self.draw_edits(rng, 12, 1000);
    }

    fn many_edits(&mut self, rng: &mut Rng) {
        self.draw_edits(rng, 60, 1000);
    }

    fn edits_some_outside(&mut self, rng: &mut Rng) {
        self.draw_edits(rng, 8, 2);
    }

    /// The row's least or greatest is blanked again and again, until no valid cell is left, and then some cells are numbers again.
    fn blank_ends(&mut self, rng: &mut Rng) {
        let width = self.map.width;
        let y = rng.below(self.map.height);
        let mut row = self.map.lent()[y * width..][..width].to_vec();
        loop {
            let (kind, draw) = rng.pick(&[LEAST_BLANKED, GREATEST_BLANKED]);
            let Some((x, value)) = draw(rng, &row, self.map.number) else { break };
            row[x] = f32::NAN;
            self.edits.push(Edit { kind, x, y, value });
        }
        self.draw_edits(rng, 3, 1000);
    }

    /// The edits begin with an index that is not the map's.
    fn not_fresh(&mut self, _: &mut Rng) {
        self.fresh = false;
    }

    /// Something wrong with the size or the length: 23; the index has the records of the good map or of this one.
    fn spoil_size(&mut self, rng: &mut Rng) {
        self.map.spoil_size(rng);
        if rng.one_in(2) && self.map.height <= 2 * SIDE_MOST {
            self.records = self.map.height;
        }
    }

    /// An index that is too long or too short: 28.
    fn spoil_index(&mut self, rng: &mut Rng) {
        let by = rng.pick(&[1, 1, 2, 64]);
        self.records = rng.pick(&[self.records + by, self.records + by, self.records.saturating_sub(by), 0]);
    }

    pub const RECIPES: [Recipe<Made>; 10] = [
        ("good maps", &[Made::good, Made::edits]),
        ("good maps, and as many as 60 edits", &[Made::good, Made::many_edits]),
        ("good maps, some of them as wide or high as can be", &[Made::long, Made::edits]),
        ("a row's least and greatest blanked until none is left", &[Made::good, Made::blank_ends]),
        ("an index that was not fresh", &[Made::good, Made::edits, Made::not_fresh]),
        ("pixels outside the map", &[Made::good, Made::edits_some_outside]),
        ("a map whose size is unfit", &[Made::good, Made::edits, Made::spoil_size]),
        ("an index of another length", &[Made::good, Made::edits, Made::spoil_index]),
        ("pixels outside, and an index of another length", &[Made::good, Made::edits_some_outside, Made::spoil_index]),
        ("several faults", &[Made::good, Made::edits_some_outside, Made::spoil_size, Made::spoil_index]),
    ];
}
