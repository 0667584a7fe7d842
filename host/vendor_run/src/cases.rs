//! Vendors' maps to be checked, each with its pair, its options and the room: maps that pass, maps with cells that must not, and inputs
//! with one fault or more.
use plombrisa::{Options, Picture, match_block, whole_cells};
use runs::limits::{BLOCK_MOST, COUNT_MOST, FIRST_MOST, SIDE_MOST};
use runs::maps::{MadeMap, Output, nan};
use runs::pictures::{other_picture, picture};
use runs::recipes::{Recipe, Step, take_one};
use runs::rng::Rng;
use runs::sizes;
use std::fmt;
use vendor_run::judge::{Asked, Costs, Grid, Search, index_of};

/// A picture to be lent, and the size that it is said to have.
#[derive(Default)]
pub struct MadePicture {
    pub bytes: Vec<u8>,
    pub width: usize,
    pub height: usize,
}

impl MadePicture {
    fn of(bytes: Vec<u8>, width: usize, height: usize) -> Self {
        Self { bytes, width, height }
    }

    fn picture(&self) -> Picture<'_> {
        Picture { bytes: &self.bytes, width: self.width, height: self.height }
    }

    fn grid(&self) -> Grid<'_, u8> {
        Grid { cells: &self.bytes, width: self.width, height: self.height }
    }
}

/// What an input must be answered, whatever the plain Rust says.
#[derive(Debug, Clone, Copy, PartialEq, Eq)]
pub enum Must {
    Anything,
    Yes,
    No { x: usize, y: usize },
    Refuse(u32),
}

/// An input: a pair, options, a map, and the length of the room beside what is needed.
pub struct Made {
    /// The size of the pair that it was made from.
    width: usize,
    height: usize,
    pub left: MadePicture,
    pub right: MadePicture,
    pub options: Options,
    pub map: MadeMap,
    room: Output,
    pub must: Must,
}

impl fmt::Debug for Made {
    fn fmt(&self, f: &mut fmt::Formatter) -> fmt::Result {
        for (name, MadePicture { bytes, width, height }) in [("left", &self.left), ("right", &self.right)] {
            // all the bytes of an input by a recipe; of the largest pictures the first of them, for the seed gives the others
            let shown = &bytes[..bytes.len().min(5000)];
            writeln!(f, "{name}: width {width}, height {height}, {} bytes {shown:?}", bytes.len())?;
        }
        writeln!(f, "{:?}, min_correlation's bits {:08X}", self.options, self.options.min_correlation.to_bits())?;
        writeln!(f, "map: {:?}", self.map)?;
        write!(f, "room: {} cells; must be answered: {:?}", self.room_length(), self.must)
    }
}

/// The least correlation of a match: mostly a usual one, else one that no raw cost is below, or all are.
fn least_correlation(rng: &mut Rng) -> f32 {
    let usual = rng.within(-1000, 800) as f32 / 1000.0;
    let ends = rng.pick(&[-0.0, 1.0, 1.5, f32::INFINITY, f32::NEG_INFINITY]);
    rng.pick(&[usual, usual, usual, 0.5, 0.5, 0.0, -1.0, -1.0, f32::NAN, ends])
}

/// A search: mostly one that the pictures show something of.
fn searched(rng: &mut Rng) -> (i32, i32) {
    let near = rng.within(-8, 4) as i32;
    let first = if rng.one_in(20) { rng.pick(&[-30, 30, -FIRST_MOST, FIRST_MOST]) } else { near };
    (first, if rng.one_in(8) { 1 } else { rng.within(1, 20) as i32 })
}

/// Options, of which the last seven are not read by a check.
fn options(rng: &mut Rng, block_size: usize) -> Options {
    let (min_disparity, num_disparities) = searched(rng);
    Options {
        min_disparity,
        num_disparities,
        block_size,
        min_correlation: least_correlation(rng),
        uniqueness_ratio: rng.pick(&[0.0, 0.0, -1.0, 0.03, 0.3, f32::NAN]),
        lr_consistency: rng.one_in(2),
        lr_max_diff: rng.pick(&[0.0, 0.5, 1.0, 1.0, -1.0, f32::NAN, f32::INFINITY]),
        subpixel: rng.one_in(2),
        semi_global: rng.one_in(2),
        sgm_p1: rng.pick(&[0.1, -1.0, f32::NAN]),
        sgm_p2: rng.pick(&[1.5, 2000.0, f32::NAN]),
    }
}

/// A picture whose columns come again and again, so that many disparities have one raw cost.
fn repeated_columns(rng: &mut Rng, width: usize, height: usize) -> Vec<u8> {
    let period = 1 + rng.below(5);
    let strip = picture(rng, period, height);
    (0..width * height).map(|i| strip[i / width * period + i % width % period]).collect()
}

/// A cell that is not valid.
fn not_valid(rng: &mut Rng) -> f32 {
    let nan = nan(rng);
    rng.pick(&[nan, nan, f32::INFINITY, f32::NEG_INFINITY])
}

/// What stands in place of a cell, which may be a good one: a disparity beside it, one outside the range, no whole number, minus zero, or
/// a cell that is not valid.
fn in_place_of(rng: &mut Rng, cell: f32, options: &Options) -> f32 {
    let (first, count) = (options.min_disparity, options.num_disparities);
    let searched = (first + rng.below(count as usize) as i32) as f32;
    let near = if cell.is_finite() { cell } else { searched };
    match rng.below(12) {
        0 => near + 1.0,
        1 => near - 1.0,
        2 => (first - 1) as f32,
        3 => (first + count) as f32,
        4 => near + rng.pick(&[0.5, -0.5, 0.0625]),
        5 => near.next_up(),
        6 => near.next_down(),
        7 => -0.0,
        8 => -near,
        9 => not_valid(rng),
        // so far that a whole number of 32 bits or fewer might be a disparity again
        10 => near + rng.pick(&[65_536.0, 4_294_967_296.0, 1e30, -1e30, f32::MAX, f32::MIN]),
        _ => searched,
    }
}

impl Made {
    pub fn new() -> Self {
        Self {
            width: 0,
            height: 0,
            left: MadePicture::default(),
            right: MadePicture::default(),
            options: Options::default(),
            map: MadeMap::new(|rng| rng.within(-4, 20) as f32),
            room: Output::Longer(0),
            must: Must::Anything,
        }
    }

    pub fn search(&self) -> Search {
        let Options { min_disparity, num_disparities, block_size, min_correlation, .. } = self.options;
        Search { min_disparity, num_disparities, block_size, min_correlation }
    }

    pub fn asked(&self) -> Asked<'_> {
        let map = Grid { cells: self.map.lent(), width: self.map.width, height: self.map.height };
        Asked { left: self.left.grid(), right: self.right.grid(), search: self.search(), map }
    }

    /// How many cells of the room are lent.
    pub fn room_length(&self) -> usize {
        self.room.length(whole_cells(self.width, self.height))
    }

    /// The raw costs of a good pair.
    pub fn costs(&self) -> Costs {
        Costs::of(self.left.grid(), self.right.grid(), &self.search())
    }

    /// A good pair, with a room that is long enough, and no map yet.
    pub fn pair(&mut self, rng: &mut Rng, left: Vec<u8>, right: Vec<u8>, width: usize, height: usize, options: Options) {
        (self.width, self.height, self.options) = (width, height, options);
        self.left = MadePicture::of(left, width, height);
        self.right = MadePicture::of(right, width, height);
        self.room = Output::Longer(rng.pick(&[0, 0, 1, 3, 64]));
        self.must = Must::Anything;
    }

    /// A good pair, whose left picture is drawn by `draw`.
    fn pair_of(&mut self, rng: &mut Rng, draw: fn(&mut Rng, usize, usize) -> Vec<u8>) {
        let block = rng.pick(&[1, 3, 3, 3, 3, 3, 3, 5, 5, 5, 7, 7, 9]);
        // mostly with some columns in which several disparities have raw costs
        let narrowest = rng.pick(&[0, 6, 10]);
        let width = block + narrowest + rng.below(25 - block - narrowest);
        let rows = rng.pick(&[1, 4, 25 - block]);
        let height = block + rng.below(rows);
        let mut left = draw(rng, width, height);
        // and mostly not of one level
        while left.iter().all(|level| *level == left[0]) && !rng.one_in(8) {
            left = draw(rng, width, height);
        }
        let right = other_picture(rng, &left, width, height);
        let options = options(rng, block);
        self.pair(rng, left, right, width, height, options);
    }

    /// A good pair of any pictures.
    pub fn good(&mut self, rng: &mut Rng) {
        self.pair_of(rng, picture);
    }

    /// A good pair whose columns come again.
    fn repeated(&mut self, rng: &mut Rng) {
        self.pair_of(rng, repeated_columns);
    }

    /// A good pair that is searched from below 0 to above it.
    fn about_zero(&mut self, rng: &mut Rng) {
        self.good(rng);
        self.options.min_disparity = rng.within(-6, 0) as i32;
        self.options.num_disparities = rng.within(7, 12) as i32;
    }

    fn set_map(&mut self, rng: &mut Rng, cells: &[f32]) {
        self.map.exact_of(rng, self.width, self.height);
        self.map.lent_mut().copy_from_slice(cells);
    }

    /// The library's block map with sub-pixel off, left-right on or off: it passes.
    pub fn own(&mut self, rng: &mut Rng) {
        let options = Options { semi_global: false, subpixel: false, lr_consistency: rng.one_in(2), ..self.options };
        let cells = match_block(self.left.picture(), self.right.picture(), &options).expect("accepted");
        self.set_map(rng, &cells);
        self.must = Must::Yes;
    }

    /// The library's map with sub-pixel on or semi-global or both, which need not pass.
    fn own_otherwise(&mut self, rng: &mut Rng) {
        let (semi_global, subpixel) = rng.pick(&[(true, false), (true, false), (true, true), (false, true)]);
        let options = Options { semi_global, subpixel, sgm_p1: 0.1, sgm_p2: 1.5, ..self.options };
        let cells = match_block(self.left.picture(), self.right.picture(), &options).expect("accepted");
        self.set_map(rng, &cells);
    }

    /// At each pixel the disparity of the greatest raw cost, of equal ones the last, where it is not below the least: it passes.
    pub fn best(&mut self, rng: &mut Rng) {
        let (costs, first, least) = (self.costs(), self.options.min_disparity, self.options.min_correlation);
        let cell = |pixel: usize| match costs.there(pixel).max_by(|one, other| one.1.total_cmp(&other.1)) {
            Some((_, cost)) if cost < least => f32::NAN,
            Some((k, _)) => (first + k as i32) as f32,
            None => f32::NAN,
        };
        let cells: Vec<f32> = (0..self.width * self.height).map(cell).collect();
        self.set_map(rng, &cells);
        self.must = Must::Yes;
    }

    /// In a map of the best raw costs some cells become disparities whose raw cost is there, best or not.
    fn other_costs(&mut self, rng: &mut Rng) {
        let (costs, first) = (self.costs(), self.options.min_disparity);
        let one_in = rng.pick(&[2, 10, 40]);
        for (pixel, cell) in self.map.lent_mut().iter_mut().enumerate() {
            let there: Vec<(usize, f32)> = costs.there(pixel).collect();
            if !there.is_empty() && rng.one_in(one_in) {
                *cell = (first + rng.pick(&there).0 as i32) as f32;
            }
        }
        self.must = Must::Anything;
    }

    /// In a map that passes one cell becomes a disparity that is beaten, by as little as can be: it is the only bad cell.
    fn next_best(&mut self, rng: &mut Rng) {
        let costs = self.costs();
        let next = |pixel: usize| {
            let best = costs.there(pixel).map(|(_, cost)| cost).max_by(f32::total_cmp)?;
            let beaten = costs.there(pixel).filter(|(_, cost)| *cost < best);
            Some((pixel, beaten.max_by(|one, other| one.1.total_cmp(&other.1))?.0))
        };
        let all: Vec<(usize, usize)> = (0..self.width * self.height).filter_map(next).collect();
        if all.is_empty() {
            return;
        }
        let (pixel, k) = rng.pick(&all);
        self.map.lent_mut()[pixel] = (self.options.min_disparity + k as i32) as f32;
        self.must = Must::No { x: pixel % self.width, y: pixel / self.width };
    }

    /// Whole numbers of the searched range, or a little beyond it.
    fn whole(&mut self, rng: &mut Rng) {
        let (first, count) = (self.options.min_disparity as i64, self.options.num_disparities as i64);
        let beyond = rng.pick(&[0, 0, 2]);
        let blank_in = rng.pick(&[2, 30, 1000]);
        let cell = |rng: &mut Rng| match rng.one_in(blank_in) {
            true => not_valid(rng),
            false => rng.within(first - beyond, first + count - 1 + beyond) as f32,
        };
        let cells: Vec<f32> = (0..self.width * self.height).map(|_| cell(rng)).collect();
        self.set_map(rng, &cells);
    }

    /// No valid cell: it passes.
    fn blank(&mut self, rng: &mut Rng) {
        let cells: Vec<f32> = (0..self.width * self.height).map(|_| not_valid(rng)).collect();
        self.set_map(rng, &cells);
        self.must = Must::Yes;
    }

    /// A map that passes, most of it blank; what passed still does.
    fn blank_more(&mut self, rng: &mut Rng) {
        let blank_in = rng.pick(&[1, 2, 3]);
        for cell in self.map.lent_mut() {
            if !rng.one_in(blank_in + 1) {
                *cell = not_valid(rng);
            }
        }
    }

    /// Zeros become minus zeros, all or some of them; what passed still does.
    fn minus_zeros(&mut self, rng: &mut Rng) {
        let one_in = rng.pick(&[1, 2]);
        for cell in self.map.lent_mut() {
            if *cell == 0.0 && rng.one_in(one_in) {
                *cell = -0.0;
            }
        }
    }

    /// Some cells are changed, as often as not valid ones.
    fn change_cells(&mut self, rng: &mut Rng) {
        let options = self.options;
        let cells = self.map.lent_mut();
        let valid: Vec<usize> = (0..cells.len()).filter(|&i| cells[i].is_finite()).collect();
        for _ in 0..rng.pick(&[1, 1, 1, 2, 3]) {
            let at = if valid.is_empty() || rng.one_in(3) { rng.below(cells.len()) } else { rng.pick(&valid) };
            cells[at] = in_place_of(rng, cells[at], &options);
        }
        self.must = Must::Anything;
    }

    /// The least correlation becomes the least raw cost of a map that passes, or the number beside it.
    fn least_of_the_map(&mut self, rng: &mut Rng) {
        let (costs, search) = (self.costs(), self.search());
        let cost = |(pixel, &cell): (usize, &f32)| costs.at(pixel, index_of(&search, cell)?);
        let Some(least) = self.map.lent().iter().enumerate().filter_map(cost).min_by(f32::total_cmp) else { return };
        self.options.min_correlation = rng.pick(&[least, least.next_down(), least.next_up()]);
        if least < self.options.min_correlation {
            self.must = Must::Anything;
        }
    }

    fn one_picture(&mut self, rng: &mut Rng) -> &mut MadePicture {
        if rng.one_in(2) { &mut self.left } else { &mut self.right }
    }

    /// A size other than the pair's, as many pixels as it has or not.
    fn other_size(&self, rng: &mut Rng) -> (usize, usize) {
        let (w, h) = (self.width, self.height);
        let others = [(w + 1, h), (w, h + 1), (w + 1, h + 1), (h, w), (w * h, 1), (1, w * h), (2 * w, h)];
        let others: Vec<(usize, usize)> = others.into_iter().filter(|&size| size != (w, h)).collect();
        rng.pick(&others)
    }

    /// A side outside its range, with as many bytes as fit it or not: 1.
    fn spoil_side(&mut self, rng: &mut Rng) {
        let side = sizes::unfit_side(rng);
        let long = rng.pick(&[(SIDE_MOST + 1, 1), (1, SIDE_MOST + 1), (0, 1), (1, 0)]);
        let way = rng.below(3);
        let picture = self.one_picture(rng);
        match way {
            0 => picture.width = side,
            1 => picture.height = side,
            _ => *picture = MadePicture::of(vec![7; long.0 * long.1], long.0, long.1),
        }
    }

    /// A picture with a byte too many or too few: 2.
    fn spoil_bytes(&mut self, rng: &mut Rng) {
        let more = rng.one_in(2);
        let bytes = &mut self.one_picture(rng).bytes;
        if more { bytes.push(9) } else { bytes.truncate(bytes.len().saturating_sub(1)) }
    }

    /// A picture of another size, with the bytes that it needs: 3.
    fn spoil_sizes(&mut self, rng: &mut Rng) {
        let (width, height) = self.other_size(rng);
        let bytes = picture(rng, width, height);
        *self.one_picture(rng) = MadePicture::of(bytes, width, height);
    }

    /// A block that is zero or even: 4.
    fn spoil_block_even(&mut self, rng: &mut Rng) {
        self.options.block_size = rng.pick(&[0, 2, 4, BLOCK_MOST - 1, BLOCK_MOST + 1, 64, 1 << 32, 1 << 63, usize::MAX - 1]);
    }

    /// An odd block that is too large: 5.
    fn spoil_block_large(&mut self, rng: &mut Rng) {
        self.options.block_size = rng.pick(&[BLOCK_MOST + 2, BLOCK_MOST + 4, 65, 257, (1 << 32) + 3, (1 << 63) + 3, usize::MAX]);
    }

    /// No disparity, or fewer: 6.
    fn spoil_count_none(&mut self, rng: &mut Rng) {
        self.options.num_disparities = rng.pick(&[0, 0, -1, -20, i32::MIN, i32::MIN + 1]);
    }

    /// Too many disparities: 7.
    fn spoil_count_many(&mut self, rng: &mut Rng) {
        self.options.num_disparities = rng.pick(&[COUNT_MOST + 1, COUNT_MOST + 1, COUNT_MOST + 2, 4 * COUNT_MOST, 65_537, i32::MAX]);
    }

    /// A block that the pictures are too narrow or too low for: 8.
    fn spoil_block_wide(&mut self, rng: &mut Rng) {
        let wide = (self.width.min(self.height) + 1) | 1;
        self.options.block_size = rng.pick(&[wide, wide, (wide + 2).min(BLOCK_MOST), BLOCK_MOST]);
    }

    /// A first disparity outside its range: 9.
    fn spoil_first(&mut self, rng: &mut Rng) {
        let (below, above) = (-FIRST_MOST - 1, FIRST_MOST + 1);
        self.options.min_disparity = rng.pick(&[below, above, below - 1, above + 1000, 65_536, -65_536, i32::MIN, i32::MAX]);
    }

    /// A map that is not of the pictures' size, be it one of its own or none: 23.
    fn spoil_map(&mut self, rng: &mut Rng) {
        if rng.one_in(2) {
            return self.map.spoil_size(rng);
        }
        let (width, height) = self.other_size(rng);
        self.map.exact_of(rng, width, height);
    }

    /// A room that is too short: 12.
    fn spoil_room(&mut self, rng: &mut Rng) {
        self.room = rng.pick(&[Output::Shorter(1), Output::Shorter(1), Output::Shorter(7), Output::Empty]);
    }

    /// Something wrong with the pictures: 1, 2 or 3.
    fn spoil_pictures(&mut self, rng: &mut Rng) {
        take_one(&[Made::spoil_side as Step<Made>, Made::spoil_bytes, Made::spoil_sizes], self, rng);
    }

    /// Something wrong with the block: 4, 5 or 8.
    fn spoil_block(&mut self, rng: &mut Rng) {
        take_one(&[Made::spoil_block_even as Step<Made>, Made::spoil_block_large, Made::spoil_block_wide], self, rng);
    }

    /// Something wrong with what is searched: 6, 7 or 9.
    fn spoil_search(&mut self, rng: &mut Rng) {
        take_one(&[Made::spoil_count_none as Step<Made>, Made::spoil_count_many, Made::spoil_first], self, rng);
    }

    /// One of the faults, which may mend an earlier one, and not as it was.
    fn fault(&mut self, rng: &mut Rng) {
        take_one(&Self::FAULTS.map(|(_, fault)| fault), self, rng);
        self.must = Must::Anything;
    }

    /// Every fault with its number, in the order in which they are tested.
    pub const FAULTS: [(u32, Step<Made>); 11] = [
        (1, Made::spoil_side),
        (2, Made::spoil_bytes),
        (3, Made::spoil_sizes),
        (4, Made::spoil_block_even),
        (5, Made::spoil_block_large),
        (6, Made::spoil_count_none),
        (7, Made::spoil_count_many),
        (8, Made::spoil_block_wide),
        (9, Made::spoil_first),
        (23, Made::spoil_map),
        (12, Made::spoil_room),
    ];

    pub const RECIPES: [Recipe<Made>; 23] = [
        ("our own block map", &[Made::good, Made::own]),
        ("our own block map of repeated columns", &[Made::repeated, Made::own]),
        ("our own block map about 0, with minus zeros", &[Made::about_zero, Made::own, Made::minus_zeros]),
        ("our own block map, most cells blank or infinite", &[Made::good, Made::own, Made::blank_more]),
        ("our own block map, some cells changed", &[Made::good, Made::own, Made::change_cells]),
        ("our own block map, one cell the next best", &[Made::good, Made::own, Made::next_best]),
        ("our own block map, min_correlation at its least raw cost", &[Made::good, Made::own, Made::least_of_the_map]),
        ("our own map, semi-global or with sub-pixel", &[Made::good, Made::own_otherwise]),
        ("the best with the larger index", &[Made::repeated, Made::best]),
        ("the best with the larger index, some cells changed", &[Made::repeated, Made::best, Made::change_cells]),
        ("the best with the larger index, one cell the next best", &[Made::repeated, Made::best, Made::next_best]),
        ("the best, some cells with another raw cost", &[Made::good, Made::best, Made::other_costs]),
        ("whole numbers", &[Made::good, Made::whole]),
        ("whole numbers, most cells blank", &[Made::good, Made::whole, Made::blank_more]),
        ("no valid cell", &[Made::good, Made::blank]),
        ("pictures whose sizes or bytes are unfit", &[Made::good, Made::own, Made::spoil_pictures]),
        ("a block that is unfit", &[Made::good, Made::own, Made::spoil_block]),
        ("a search that is unfit", &[Made::good, Made::own, Made::spoil_search]),
        ("a map of another size", &[Made::good, Made::own, Made::spoil_map]),
        ("a room that is too short", &[Made::good, Made::own, Made::spoil_room]),
        ("a map of another size, and a room that is too short", &[Made::good, Made::own, Made::spoil_room, Made::spoil_map]),
        ("two faults", &[Made::good, Made::own, Made::fault, Made::fault]),
        ("several faults", &[Made::good, Made::whole, Made::fault, Made::fault, Made::fault, Made::fault]),
    ];
}
