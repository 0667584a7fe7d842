//! The limits of what the library takes. What is beyond one of them is refused, with the number that [`Refusal`](crate::Refusal) names.

/// The most that a width or a height of a picture or a map may be; the least is 1.
pub const SIDE_MOST: usize = 2048;

/// The most that the side of a block may be, which is odd.
pub const BLOCK_MOST: usize = 31;

/// The most disparities that are searched; the fewest are 1.
pub const COUNT_MOST: i32 = 256;

/// The greatest first disparity; the least is its negative.
pub const FIRST_MOST: i32 = 4096;

/// The greatest penalty of a semi-global match; the least is 0.
pub const PENALTY_MOST: f32 = 1024.0;

/// The most that a width or a height of a sheet of version 1 may be. It belongs to the version: a map may be allowed to be larger.
pub const SHEET_SIDE_MOST: usize = 2048;

/// The greatest disparity that a sheet of whole ones holds; the least is its negative.
pub const WHOLE_MOST: i32 = 8192;

/// The least that the side of a heap's cells may be, in millimetres.
pub const CELL_LEAST: usize = 10;

/// The most that the side of a heap's cells may be, in millimetres.
pub const CELL_MOST: usize = 10_000;

/// How far a coordinate of a heap's points, an edge of its rectangle and its floor may be, either way, in millimetres.
pub const FARTHEST: i64 = 100_000;

/// The most cells that a heap's rectangle may have.
pub const CELLS_MOST: usize = 65_536;
