//! Disparity maps and their figures. What a refused call was lent is left as it was.
use crate::refusal::answer;
use crate::{Refusal, raw};

/// A disparity map that stands elsewhere: one number for each pixel of the left picture, and the size that the caller says it has.
///
/// A cell is *valid* where its number is finite, and blank where it is not; the library writes a NaN for a blank one.
#[derive(Debug, Clone, Copy)]
pub struct Map<'a> {
    /// The disparities in pixels by rows, the top row first: pixel (x, y) in cell y·width + x.
    pub cells: &'a [f32],
    /// How many cells a row has, from 1 to [`SIDE_MOST`](crate::limits::SIDE_MOST).
    pub width: usize,
    /// How many rows there are, from 1 to [`SIDE_MOST`](crate::limits::SIDE_MOST).
    pub height: usize,
}

/// A disparity map that holds its own cells, as [`read_pfm`](crate::read_pfm) gives it.
#[derive(Debug, Clone)]
pub struct OwnedMap {
    /// The disparities in pixels by rows, the top row first, a NaN for each blank cell: pixel (x, y) in cell y·width + x.
    pub cells: Vec<f32>,
    /// How many cells a row has.
    pub width: usize,
    /// How many rows there are.
    pub height: usize,
}

impl OwnedMap {
    /// The same map as the calls take it, without a copy.
    pub fn map(&self) -> Map<'_> {
        Map { cells: &self.cells, width: self.width, height: self.height }
    }
}

/// [`valid_count`] into the caller's own number.
pub fn valid_count_in(map: Map, count: &mut u64) -> Result<(), Refusal> {
    let Map { cells, width, height } = map;
    // Safety: the pointer comes with the length of its slice, and the lent number is apart from it.
    answer(unsafe { raw::plombrisa_valid_count(cells.as_ptr(), cells.len(), width, height, count) })
}

/// How many cells of a map are valid.
///
/// ```
/// use plombrisa::{Map, valid_count, valid_range};
///
/// let map = Map { cells: &[f32::NAN, 4.5, f32::INFINITY, 2.0], width: 2, height: 2 };
/// assert_eq!(valid_count(map), Ok(2));
/// assert_eq!(valid_range(map), Ok(Some((2.0, 4.5))));
/// ```
pub fn valid_count(map: Map) -> Result<u64, Refusal> {
    let mut count = 0;
    valid_count_in(map, &mut count)?;
    Ok(count)
}

/// [`cover`] into the caller's own number.
pub fn cover_in(map: Map, block_size: usize, permille: &mut u64) -> Result<(), Refusal> {
    let Map { cells, width, height } = map;
    // Safety: the pointer comes with the length of its slice, and the lent number is apart from it.
    answer(unsafe { raw::plombrisa_cover(cells.as_ptr(), cells.len(), width, height, block_size, permille) })
}

/// How many of 1,000 cells that can hold a match are valid, rounded down. With a block of that side, the one that the map was made with,
/// these are the cells of the inner frame: block_size / 2 or more away from every edge.
///
/// ```
/// use plombrisa::{Map, cover};
///
/// let blank = f32::NAN;
/// let map = Map { cells: &[blank, blank, blank, blank, blank, 3.0, blank, blank, blank, blank, blank, blank], width: 4, height: 3 };
/// // of the two inner cells one is valid, of all twelve also one
/// assert_eq!(cover(map, 3), Ok(500));
/// assert_eq!(cover(map, 1), Ok(83));
/// ```
pub fn cover(map: Map, block_size: usize) -> Result<u64, Refusal> {
    let mut permille = 0;
    cover_in(map, block_size, &mut permille)?;
    Ok(permille)
}

/// [`valid_range`] into the caller's own numbers: `some` is 1 where there is a range, and 0 where no cell is valid, which leaves the
/// other two as they were.
pub fn valid_range_in(map: Map, some: &mut u32, least: &mut f32, greatest: &mut f32) -> Result<(), Refusal> {
    let Map { cells, width, height } = map;
    // Safety: the pointer comes with the length of its slice, and the lent numbers are apart from it and from each other.
    answer(unsafe { raw::plombrisa_valid_range(cells.as_ptr(), cells.len(), width, height, some, least, greatest) })
}

/// The least and the greatest disparity of a map's valid cells; `None` where no cell is valid.
pub fn valid_range(map: Map) -> Result<Option<(f32, f32)>, Refusal> {
    let (mut some, mut least, mut greatest) = (0, 0.0, 0.0);
    valid_range_in(map, &mut some, &mut least, &mut greatest)?;
    Ok((some == 1).then_some((least, greatest)))
}
