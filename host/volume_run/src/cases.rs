//! Heaps to be measured: good ones, with points at and beside every edge, border, floor and half of a millimetre, and ones with one
//! fault or more.
use runs::maps::Output;
use runs::recipes::{Recipe, Step, take_one};
use runs::rng::Rng;
use runs::sizes;
use std::fmt;
use volume_run::measure::{CELL_LEAST, CELL_MOST, CELLS_MOST, FARTHEST, Ground};

/// The farthest that anything may be, in metres.
pub const FAR: f64 = FARTHEST as f64 / 1000.0;

/// How many of the smallest cells lie from end to end.
pub const LONGEST: usize = 2 * FARTHEST as usize / CELL_LEAST;

/// How many columns and rows a square of as many cells as there may be has.
pub const SQUARE: usize = CELLS_MOST.isqrt();

/// A list of coordinates: the first `len` are lent; a reader that runs on finds more behind them.
#[derive(Default)]
pub struct Coordinates {
    pub all: Vec<f64>,
    pub len: usize,
}

impl Coordinates {
    pub fn lent(&self) -> &[f64] {
        &self.all[..self.len]
    }
}

/// A heap to be measured: its ground, the length of the grid beside what is needed, and the lists of x, of y and of z.
pub struct Made {
    pub ground: Ground,
    pub grid: Output,
    pub lists: [Coordinates; 3],
}

impl fmt::Debug for Made {
    fn fmt(&self, f: &mut fmt::Formatter) -> fmt::Result {
        writeln!(f, "{:?}, grid {:?}", self.ground, self.grid)?;
        // all the coordinates of an input by a recipe; of the largest heaps the first of them
        let bits = |list: &Coordinates| list.lent().iter().take(2000).map(|x| x.to_bits()).collect::<Vec<u64>>();
        for (name, list) in ["xs", "ys", "zs"].iter().zip(&self.lists) {
            writeln!(f, "{name}: {} of them, {:?}, bits {:X?}", list.len, &list.lent()[..list.len.min(2000)], bits(list))?;
        }
        Ok(())
    }
}

/// The number that is some f64 numbers further from zero, or nearer to it where `steps` is negative; zero goes to either side.
pub fn stepped(number: f64, steps: i64) -> f64 {
    if number == 0.0 { steps as f64 * f64::from_bits(1) } else { f64::from_bits((number.to_bits() as i64 + steps) as u64) }
}

/// Metres at a number of halves of a millimetre, by one of the ways to work them out.
pub fn metres(halves: i64, way: usize) -> f64 {
    match way {
        0 => halves as f64 / 2000.0,
        1 => halves as f64 * 0.0005,
        _ => (halves / 2) as f64 * 0.001 + (halves % 2) as f64 * 0.0005,
    }
}

/// Metres at or just beside a number of halves of a millimetre, as far as is allowed.
fn beside(rng: &mut Rng, halves: i64) -> f64 {
    let at = metres(halves.clamp(-2 * FARTHEST, 2 * FARTHEST), rng.below(3));
    stepped(at, rng.pick(&[0, 0, 0, 0, 1, -1, 2, -2]))
}

/// Numbers that are hardly any, or none.
const TINY: [f64; 8] = [0.0, -0.0, 5e-324, -5e-324, 1e-310, -1e-310, f64::MIN_POSITIVE, -1e-300];

/// A coordinate along a side that has its low edge and its high edge here.
fn along(rng: &mut Rng, low: i64, high: i64, cell: usize) -> f64 {
    let cell = cell as i64;
    let border = low + cell * rng.within(0, (high - low) / cell);
    let halves = match rng.below(8) {
        0 => 2 * border,
        1 => 2 * border + rng.pick(&[-1, 1]),
        2 => 2 * border + rng.within(-4, 4),
        3 => 2 * rng.within(low, high - 1),
        4 => rng.within(2 * low, 2 * high - 1),
        5 => rng.within(-2 * FARTHEST, 2 * FARTHEST),
        6 => return rng.pick(&TINY),
        // any fraction of the side
        _ => return (low as f64 + (high - low) as f64 * (rng.below(1 << 30) as f64 / (1 << 30) as f64)) / 1000.0,
    };
    beside(rng, halves)
}

/// A depth, at, above or below the floor.
fn depth(rng: &mut Rng, floor: i64) -> f64 {
    let halves = match rng.below(7) {
        0 => 2 * floor,
        1 => 2 * floor + rng.within(-4, 4),
        2 | 3 => 2 * floor - rng.within(0, 8000),
        4 => 2 * floor + rng.within(0, 8000),
        5 => rng.pick(&[-2 * FARTHEST, 2 * FARTHEST]),
        _ => rng.within(-2 * FARTHEST, 2 * FARTHEST),
    };
    beside(rng, halves)
}

/// The low edge of a side of this length.
fn low_edge(rng: &mut Rng, side: i64) -> i64 {
    let highest = FARTHEST - side;
    let edge = match rng.below(6) {
        0 => -FARTHEST,
        1 => highest,
        2 => 0,
        3 => -side / 2,
        4 => rng.within(-3000, 3000),
        _ => rng.within(-FARTHEST, highest),
    };
    edge.min(highest)
}

impl Made {
    pub fn new() -> Self {
        let ground = Ground { left: 0, right: 10, top: 0, bottom: 10, cell: 10, floor: 0 };
        Self { ground, grid: Output::Longer(0), lists: Default::default() }
    }

    /// A ground of some columns and rows, whose edges lie within reach.
    pub fn ground_of(&mut self, rng: &mut Rng, cell: usize, columns: usize, rows: usize) {
        let (width, length) = ((cell * columns) as i64, (cell * rows) as i64);
        let (left, top) = (low_edge(rng, width), low_edge(rng, length));
        let any = rng.within(-FARTHEST, FARTHEST);
        let floor = rng.pick(&[0, 1, 2500, 6000, -1500, FARTHEST, -FARTHEST, any]);
        self.ground = Ground { left, right: left + width, top, bottom: top + length, cell, floor };
        self.grid = Output::Longer(0);
    }

    /// Some good points, and two more behind those that are lent, which may be good or not.
    pub fn points(&mut self, rng: &mut Rng, count: usize) {
        let Ground { left, right, top, bottom, cell, floor } = self.ground;
        self.lists.iter_mut().for_each(|list| list.all.clear());
        for _ in 0..count + 2 {
            self.push([along(rng, left, right, cell), along(rng, top, bottom, cell), depth(rng, floor)]);
        }
        self.lists.iter_mut().for_each(|list| list.len = count);
        if rng.one_in(2) {
            self.lists[rng.below(3)].all[count] = f64::NAN;
        }
    }

    fn push(&mut self, point: [f64; 3]) {
        self.lists.iter_mut().zip(point).for_each(|(list, coordinate)| list.all.push(coordinate));
    }

    /// These points and no more.
    pub fn set_points(&mut self, points: impl IntoIterator<Item = [f64; 3]>) {
        self.lists.iter_mut().for_each(|list| list.all.clear());
        points.into_iter().for_each(|point| self.push(point));
        self.lists.iter_mut().for_each(|list| list.len = list.all.len());
    }

    /// A good heap of a few cells and points.
    pub fn good(&mut self, rng: &mut Rng) {
        let any = rng.within(CELL_LEAST as i64, CELL_MOST as i64) as usize;
        let cell = rng.pick(&[CELL_LEAST, CELL_LEAST, CELL_LEAST + 1, 25, 100, 137, 1000, CELL_MOST - 1, CELL_MOST, any]);
        let (columns, rows) = sizes::small(rng);
        self.ground_of(rng, cell, columns, rows);
        let count = rng.pick(&[0, 1, 1, 2, 3, 5, 8, 13]);
        self.points(rng, count);
    }

    /// A good heap, now and then of a great many cells, to as many as there may be.
    fn wide(&mut self, rng: &mut Rng) {
        if !rng.one_in(1000) {
            return self.good(rng);
        }
        let (columns, rows) = rng.pick(&[
            (SQUARE, SQUARE), (SQUARE - 1, SQUARE + 1), (LONGEST, CELLS_MOST / LONGEST), (CELLS_MOST / 5, 5), (4, CELLS_MOST / 4),
            (8, CELLS_MOST / 8), (400, 20), (1, 1000),
        ]);
        let widest = (2 * FARTHEST as usize / columns.max(rows)).min(CELL_MOST);
        let cell = CELL_LEAST + rng.below(widest - CELL_LEAST + 1);
        self.ground_of(rng, cell, columns, rows);
        let count = rng.pick(&[0, 1, 10, 100, 1000]);
        self.points(rng, count);
    }

    /// A cell side that is none: 51.
    fn spoil_cell(&mut self, rng: &mut Rng) {
        let cell = self.ground.cell;
        self.ground.cell = rng.pick(&[
            0, 1, CELL_LEAST - 1, CELL_MOST + 1, CELL_MOST + 10, 2 * CELL_MOST, 1 << 31, 1 << 32, cell.wrapping_add(1 << 32),
            cell.wrapping_add(1 << 63), usize::MAX,
        ]);
    }

    /// One coordinate that is not finite, or is too far, and in whole numbers of 16, 32 or 64 bits might be none of that: 52.
    fn spoil_coordinate(&mut self, rng: &mut Rng) {
        let list = &mut self.lists[rng.below(3)];
        if list.len == 0 {
            return;
        }
        let at = rng.below(list.len);
        let sign = rng.pick(&[1.0, -1.0]);
        let nan = f64::from_bits(0x7FF0_0000_0000_0001 + rng.below((1 << 52) - 1) as u64);
        let round = list.all[at] + rng.pick(&[65.536, 131.072, 4294967.296, 4294967.296 / 2.0, 9223372036854775.0, 18446744073709551.0]);
        list.all[at] = sign
            * rng.pick(&[
                nan, f64::NAN, f64::INFINITY, f64::MAX, 1e306, 1.8e305, 1e300, 1e100, 1e18, 9223372036854775.8, 9223372036854776.0, 1e6,
                FAR + 1.0, FAR + 0.001, round,
            ]);
    }

    /// One coordinate about as far as it may be, on either side of that: 52, or nothing wrong.
    fn far_coordinate(&mut self, rng: &mut Rng) {
        let list = &mut self.lists[rng.below(3)];
        if list.len == 0 {
            return;
        }
        let at = rng.below(list.len);
        let far = rng.pick(&[FAR, FAR + 0.0004, FAR + 0.0005, FAR + 0.0005, FAR + 0.0006, FAR + 0.001]);
        list.all[at] = rng.pick(&[1.0, -1.0]) * stepped(far, rng.within(-3, 3));
    }

    /// One of the site's numbers.
    fn one_number(&mut self, rng: &mut Rng) -> &mut i64 {
        let Ground { left, right, top, bottom, floor, .. } = &mut self.ground;
        [left, right, top, bottom, floor].into_iter().nth(rng.below(5)).expect("five numbers")
    }

    /// An edge or the floor's depth too far: 52.
    fn spoil_distance(&mut self, rng: &mut Rng) {
        let number = self.one_number(rng);
        let round = number.wrapping_add(1 << rng.pick(&[32, 33, 62]));
        let far = rng.pick(&[FARTHEST + 1, FARTHEST + 10, 1 << 31, 1 << 32, i64::MAX, i64::MAX - 1, round]);
        *number = rng.pick(&[far, far.wrapping_neg(), i64::MIN, i64::MIN + 1]);
    }

    /// A rectangle without sides, or whose sides are no whole multiples of the cell: 53.
    fn spoil_sides(&mut self, rng: &mut Rng) {
        let Ground { left, right, top, bottom, .. } = &mut self.ground;
        let (low, high) = if rng.one_in(2) { (left, right) } else { (top, bottom) };
        match rng.below(5) {
            0 => *high = *low,
            1 => std::mem::swap(low, high),
            2 => *high = high.saturating_sub(rng.within(1, CELL_LEAST as i64 - 1)),
            3 => *low = low.saturating_add(1),
            _ => *high = high.saturating_add(1),
        }
    }

    /// More cells than there may be, by a few or by many; the points are in some of them: 54.
    fn too_many_cells(&mut self, rng: &mut Rng) {
        let sixth = CELLS_MOST / 6 + 1;
        let (columns, rows) = rng.pick(&[
            (SQUARE + 1, SQUARE), (SQUARE, SQUARE + 1), (sixth, 6), (6, sixth), (LONGEST, CELLS_MOST / LONGEST + 1), (LONGEST, LONGEST),
            (1000, CELLS_MOST / 1000 + 1),
        ]);
        self.ground_of(rng, CELL_LEAST, columns, rows);
        let count = rng.pick(&[0, 1, 3]);
        self.points(rng, count);
    }

    /// A grid that is too long or too short: 55.
    fn spoil_grid(&mut self, rng: &mut Rng) {
        let by = rng.pick(&[1, 1, 2, 3, 64]);
        self.grid = rng.pick(&[Output::Longer(by), Output::Shorter(by), Output::Empty]);
    }

    /// Lists of which one is longer or shorter than the others: 52.
    fn spoil_lengths(&mut self, rng: &mut Rng) {
        let list = &mut self.lists[rng.below(3)];
        let other = rng.pick(&[list.len + 1, list.len + 2, list.len.saturating_sub(1), 0]);
        list.len = other.min(list.all.len());
    }

    /// One of the faults.
    fn fault(&mut self, rng: &mut Rng) {
        let faults: [Step<Made>; 7] = [
            Made::spoil_cell, Made::spoil_coordinate, Made::far_coordinate, Made::spoil_distance, Made::spoil_sides, Made::spoil_grid,
            Made::spoil_lengths,
        ];
        take_one(&faults, self, rng);
    }

    pub const RECIPES: [Recipe<Made>; 12] = [
        ("good heaps", &[Made::good]),
        ("good heaps, some of them of as many cells as there may be", &[Made::wide]),
        ("a cell side that is none", &[Made::good, Made::spoil_cell]),
        ("a coordinate that is not finite or too far", &[Made::good, Made::spoil_coordinate]),
        ("coordinates about as far as they may be", &[Made::good, Made::far_coordinate]),
        ("an edge or a floor depth too far", &[Made::good, Made::spoil_distance]),
        ("lists that are not of one length", &[Made::good, Made::spoil_lengths]),
        ("a rectangle whose sides are unfit", &[Made::good, Made::spoil_sides]),
        ("too many cells", &[Made::too_many_cells]),
        ("too many cells, and another fault", &[Made::too_many_cells, Made::fault]),
        ("a grid of another length", &[Made::good, Made::spoil_grid]),
        ("several faults", &[Made::good, Made::fault, Made::fault, Made::fault]),
    ];
}
