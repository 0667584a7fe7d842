//! The options of a match.

/// How two pictures are matched, with the names and defaults of the Rust that the library carries over.
///
/// [`raw_volume`](crate::raw_volume) reads the search (`min_disparity`, `num_disparities`) and the block alone,
/// [`check_vendor`](crate::check_vendor) these and `min_correlation`.
#[derive(Debug, Clone, Copy)]
pub struct Options {
    /// The first disparity that is searched, in pixels; 0 by default, and from -[`FIRST_MOST`](crate::limits::FIRST_MOST) to
    /// [`FIRST_MOST`](crate::limits::FIRST_MOST). Disparity 5 is a spot that the right picture shows 5 pixels further to the left.
    pub min_disparity: i32,
    /// How many disparities are searched, each a pixel more than the last; 64 by default, and from 1 to
    /// [`COUNT_MOST`](crate::limits::COUNT_MOST). Time and memory grow with it.
    pub num_disparities: i32,
    /// The side in pixels of the square that is compared around each pixel; 7 by default, odd, and from 1 to
    /// [`BLOCK_MOST`](crate::limits::BLOCK_MOST). A frame around the map, half as wide and rounded down, has no answer.
    pub block_size: usize,
    /// The least correlation, from -1 to 1, that a cell of a block map may have; 0.5 by default. A worse one leaves the cell blank; NaN
    /// leaves none blank. A semi-global map does not look at it.
    pub min_correlation: f32,
    /// By how much the best correlation of a cell of a block map must be above the best at a disparity more than one away; 0.03 by
    /// default. Less than that leaves the cell blank. A semi-global map does not look at it.
    pub uniqueness_ratio: f32,
    /// Whether the pair is matched from the right picture too, and cells that the two sides disagree on are left blank; yes by default.
    pub lr_consistency: bool,
    /// The most pixels by which the two sides may disagree; 1 by default.
    pub lr_max_diff: f32,
    /// Whether disparities are refined to fractions of a pixel; yes by default.
    pub subpixel: bool,
    /// Whether the map is semi-global, which has a figure at nearly every pixel, in place of a block map, which has a hole wherever the
    /// pictures do not show the answer; no by default. It takes nearly three times the memory.
    pub semi_global: bool,
    /// What a semi-global map charges for a step of one disparity between neighbours; 0.1 by default, and from 0 to
    /// [`PENALTY_MOST`](crate::limits::PENALTY_MOST).
    pub sgm_p1: f32,
    /// What a semi-global map charges for a larger step; 1.5 by default, from 0 to [`PENALTY_MOST`](crate::limits::PENALTY_MOST), and not
    /// below `sgm_p1`, or the match is refused.
    pub sgm_p2: f32,
}

impl Default for Options {
    fn default() -> Self {
        Self {
            min_disparity: 0,
            num_disparities: 64,
            block_size: 7,
            min_correlation: 0.5,
            uniqueness_ratio: 0.03,
            lr_consistency: true,
            lr_max_diff: 1.0,
            subpixel: true,
            semi_global: false,
            sgm_p1: 0.1,
            sgm_p2: 1.5,
        }
    }
}
