//! The check of a vendor's map in plain Rust, written from the request's text alone, so that the library is held to another reading of
//! it. Nothing here calls the library; the raw costs are those of the Rust that it was carried over from. A refusal is its number.
use oracle::opened::{BlockMatchOptions, GrayImage, raw_volume};
use runs::refusals::{LentPicture, Pair, first_of};

/// A picture or a map: its cells by rows, and the size that it is said to have.
#[derive(Debug, Clone, Copy)]
pub struct Grid<'a, T> {
    pub cells: &'a [T],
    pub width: usize,
    pub height: usize,
}

/// The options that a check reads.
#[derive(Debug, Clone, Copy)]
pub struct Search {
    pub min_disparity: i32,
    pub num_disparities: i32,
    pub block_size: usize,
    pub min_correlation: f32,
}

/// What is asked: whether a map passes as one of two pictures.
#[derive(Debug, Clone, Copy)]
pub struct Asked<'a> {
    pub left: Grid<'a, u8>,
    pub right: Grid<'a, u8>,
    pub search: Search,
    pub map: Grid<'a, f32>,
}

/// Why a valid cell does not pass: the first that applies.
#[derive(Debug, Clone, Copy, PartialEq, Eq)]
pub enum Fault {
    NotSearched,
    Blank,
    BelowMinimum,
    Beaten,
}

/// The number of the first reason to refuse, 0 for none, with so many cells of the whole-number room. What the room needs is worked out
/// only for pictures that are not refused, for the sides of others may be any.
fn refusal(asked: &Asked, room: usize) -> u32 {
    let Asked { left, right, search, map } = asked;
    let of = |picture: &Grid<u8>| LentPicture { width: picture.width, height: picture.height, bytes: picture.cells.len() };
    let Search { min_disparity: first, num_disparities: count, block_size: block, .. } = *search;
    match (Pair { left: of(left), right: of(right), block, count, first }).refusal() {
        0 => first_of(&[
            (23, map.width != left.width || map.height != left.height || map.cells.len() != left.cells.len()),
            (12, room < 5 * (left.width + 1) * (left.height + 1)),
        ]),
        number => number,
    }
}

/// The raw costs of a pair, the left picture being the reference.
pub struct Costs {
    all: Vec<f32>,
    pixels: usize,
    count: usize,
}

impl Costs {
    /// Of a pair that is not refused.
    pub fn of(left: Grid<u8>, right: Grid<u8>, search: &Search) -> Self {
        let image = |grid: Grid<u8>| GrayImage::new(grid.width, grid.height, grid.cells.to_vec());
        let Search { min_disparity, num_disparities, block_size, .. } = *search;
        let options = BlockMatchOptions { min_disparity, num_disparities, block_size, ..Default::default() };
        let all = raw_volume(&image(left), &image(right), false, &options);
        Self { all, pixels: left.cells.len(), count: num_disparities as usize }
    }

    /// That of one index at one pixel, counted by rows, where it is not blank.
    pub fn at(&self, pixel: usize, k: usize) -> Option<f32> {
        Some(self.all[k * self.pixels + pixel]).filter(|cost| *cost != f32::NEG_INFINITY)
    }

    /// Those at one pixel that are not blank, each with its index.
    pub fn there(&self, pixel: usize) -> impl DoubleEndedIterator<Item = (usize, f32)> {
        (0..self.count).filter_map(move |k| Some((k, self.at(pixel, k)?)))
    }
}

/// The index of the disparity that a number is, where it is one of the searched range; minus zero equals 0.
pub fn index_of(search: &Search, number: f32) -> Option<usize> {
    (0..search.num_disparities).find(|k| number == (search.min_disparity + k) as f32).map(|k| k as usize)
}

/// What is wrong with a cell; nothing is with one that is not valid.
fn fault(search: &Search, costs: &Costs, pixel: usize, cell: f32) -> Option<Fault> {
    if !cell.is_finite() {
        return None;
    }
    let Some(k) = index_of(search, cell) else { return Some(Fault::NotSearched) };
    let Some(own) = costs.at(pixel, k) else { return Some(Fault::Blank) };
    if own < search.min_correlation {
        return Some(Fault::BelowMinimum);
    }
    costs.there(pixel).any(|(_, cost)| cost > own).then_some(Fault::Beaten)
}

/// A map that was judged: what is wrong with each cell, by rows, and the raw costs that it was held to.
pub struct Judged {
    pub faults: Vec<Option<Fault>>,
    pub costs: Costs,
    width: usize,
}

impl Judged {
    /// Column and row of the first bad cell by rows; the answer is yes where there is none.
    pub fn first_bad(&self) -> Option<(usize, usize)> {
        let pixel = self.faults.iter().position(|fault| fault.is_some())?;
        Some((pixel % self.width, pixel / self.width))
    }
}

/// Judges a map, with so many cells of the whole-number room.
pub fn judge(asked: &Asked, room: usize) -> Result<Judged, u32> {
    let refused = refusal(asked, room);
    if refused != 0 {
        return Err(refused);
    }
    let costs = Costs::of(asked.left, asked.right, &asked.search);
    let faults = asked.map.cells.iter().enumerate().map(|(pixel, &cell)| fault(&asked.search, &costs, pixel, cell)).collect();
    Ok(Judged { faults, costs, width: asked.left.width })
}

#[cfg(test)]
mod tests {
    use super::*;
    use runs::limits::{BLOCK_MOST, COUNT_MOST, FIRST_MOST, SIDE_MOST};

    const ROW: [u8; 5] = [9, 1, 4, 7, 2];
    const MOVED: [u8; 5] = [1, 4, 7, 2, 5];
    const SEARCH: Search = Search { min_disparity: 0, num_disparities: 2, block_size: 3, min_correlation: 0.5 };
    const BLANK: f32 = f32::NAN;

    /// The middle row of a map of three rows of five pixels, whose other rows are blank, judged: what is wrong with its cells.
    fn judged(left: [u8; 5], right: [u8; 5], search: Search, middle: [f32; 5]) -> Vec<Option<Fault>> {
        let (left, right) = ([left; 3].concat(), [right; 3].concat());
        let map = [[BLANK; 5], middle, [BLANK; 5]].concat();
        let picture = |cells| Grid { cells, width: 5, height: 3 };
        let map = Grid { cells: &map, width: 5, height: 3 };
        let judged = judge(&Asked { left: picture(&left), right: picture(&right), search, map }, 120).expect("accepted");
        let first = judged.faults.iter().position(|fault| fault.is_some());
        assert_eq!(judged.first_bad(), first.map(|pixel| (pixel % 5, pixel / 5)));
        judged.faults[5..10].to_vec()
    }

    fn alone(search: Search, x: usize, cell: f32) -> Option<Fault> {
        let mut middle = [BLANK; 5];
        middle[x] = cell;
        judged(ROW, MOVED, search, middle)[x]
    }

    #[test]
    fn the_worked_example_passes() {
        assert_eq!(judged(ROW, MOVED, SEARCH, [BLANK, BLANK, 1.0, 1.0, BLANK]), [None; 5]);
        assert_eq!(judged(ROW, MOVED, SEARCH, [f32::INFINITY, -BLANK, 1.0, 1.0, f32::NEG_INFINITY]), [None; 5]);
    }

    #[test]
    fn each_fault() {
        let faults = [(2, 2.0), (2, -1.0), (2, 0.5), (2, 1.0000001), (2, 1e30)];
        assert!(faults.iter().all(|&(x, cell)| alone(SEARCH, x, cell) == Some(Fault::NotSearched)));
        // the windows of (0, 1) and of (1, 1) less 1 leave the pictures
        assert_eq!(alone(SEARCH, 0, 0.0), Some(Fault::Blank));
        assert_eq!(alone(SEARCH, 1, 1.0), Some(Fault::Blank));
        assert_eq!(alone(SEARCH, 2, 0.0), Some(Fault::BelowMinimum));
        assert_eq!(alone(Search { min_correlation: -1.0, ..SEARCH }, 2, 0.0), Some(Fault::Beaten));
    }

    #[test]
    fn comparisons_with_a_nan_are_false() {
        let search = |min_correlation| Search { min_correlation, ..SEARCH };
        assert_eq!(alone(search(f32::NAN), 2, 1.0), None);
        assert_eq!(alone(search(f32::NAN), 2, 0.0), Some(Fault::Beaten));
        // where only disparity 0 has a raw cost it is not beaten, however low it is
        assert_eq!(alone(search(f32::NAN), 1, 0.0), None);
        assert_eq!(alone(search(f32::NEG_INFINITY), 1, 0.0), None);
        assert_eq!(alone(search(1.0), 2, 1.0), None);
        assert_eq!(alone(search(1.0f32.next_up()), 2, 1.0), Some(Fault::BelowMinimum));
    }

    #[test]
    fn minus_zero_is_0() {
        assert_eq!(judged(ROW, ROW, SEARCH, [BLANK, 0.0, -0.0, -0.0, BLANK]), [None; 5]);
    }

    #[test]
    fn ties_pass() {
        // columns that come again after two
        let striped = [3, 8, 3, 8, 3];
        let search = Search { min_disparity: -2, num_disparities: 5, ..SEARCH };
        for middle in [[BLANK, 0.0, 0.0, 0.0, BLANK], [BLANK, -2.0, 0.0, 2.0, BLANK]] {
            assert_eq!(judged(striped, striped, search, middle), [None; 5]);
        }
        let any = Search { min_correlation: -1.0, ..search };
        assert_eq!(judged(striped, striped, any, [BLANK, BLANK, 1.0, BLANK, BLANK])[2], Some(Fault::Beaten));
    }

    #[test]
    fn refusals_in_their_order() {
        let (bytes, cells) = ([0; 15], [0.0; 15]);
        let picture = Grid { cells: &bytes[..], width: 5, height: 3 };
        let map = Grid { cells: &cells[..], width: 5, height: 3 };
        let mut asked = Asked { left: picture, right: picture, search: SEARCH, map };
        let refused = |asked: &Asked, room: usize| judge(asked, room).err();
        assert_eq!(refused(&asked, 120), None);
        assert_eq!(refused(&asked, 119), Some(12));
        asked.map.cells = &cells[..14];
        assert_eq!(refused(&asked, 119), Some(23));
        asked.map = Grid { cells: &cells, width: 3, height: 5 };
        assert_eq!(refused(&asked, 119), Some(23));
        asked.search.min_disparity = -FIRST_MOST - 1;
        assert_eq!(refused(&asked, 119), Some(9));
        asked.search.block_size = 5;
        assert_eq!(refused(&asked, 119), Some(8));
        asked.search.num_disparities = COUNT_MOST + 1;
        assert_eq!(refused(&asked, 119), Some(7));
        asked.search.num_disparities = 0;
        assert_eq!(refused(&asked, 119), Some(6));
        asked.search.block_size = BLOCK_MOST + 2;
        assert_eq!(refused(&asked, 119), Some(5));
        asked.search.block_size = BLOCK_MOST + 1;
        assert_eq!(refused(&asked, 119), Some(4));
        asked.right = Grid { width: 3, height: 5, ..picture };
        assert_eq!(refused(&asked, 119), Some(3));
        asked.right.cells = &bytes[..14];
        assert_eq!(refused(&asked, 119), Some(2));
        asked.right.width = SIDE_MOST + 1;
        assert_eq!(refused(&asked, 119), Some(1));
    }
}
