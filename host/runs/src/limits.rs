//! The limits of document 01, as its text gives them. The runs hold the library to that text, so nothing here is taken from the library
//! or from its wrapper; a test of the wrapper (tests/limits.rs) holds the wrapper's limits to these.

/// Width and height of a picture and of a map: 1 to this.
pub const SIDE_MOST: usize = 2048;

/// The block's side: 1 to this, and odd.
pub const BLOCK_MOST: usize = 31;

/// How many disparities are searched: 1 to this.
pub const COUNT_MOST: i32 = 256;

/// The first disparity: this either way.
pub const FIRST_MOST: i32 = 4096;

/// A penalty of semi-global mode: 0 to this.
pub const PENALTY_MOST: f32 = 1024.0;

/// Whether a number is a width or a height.
pub fn is_side(n: usize) -> bool {
    (1..=SIDE_MOST).contains(&n)
}

/// Whether a map of so many cells can have this size.
pub fn is_map(cells: usize, width: usize, height: usize) -> bool {
    is_side(width) && is_side(height) && cells == width * height
}
