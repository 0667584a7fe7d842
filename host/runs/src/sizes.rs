//! Sizes of maps and of files, a width and a height.
use crate::limits::SIDE_MOST;
use crate::rng::Rng;

/// The side of the largest square that a run makes. It is no limit of the library's: where longer sides are allowed they are tried beside
/// short ones, for a square of them takes more time and memory than a run has.
pub const SQUARE_MOST: usize = 2048;

/// A small size, as most inputs have.
pub fn small(rng: &mut Rng) -> (usize, usize) {
    (1 + rng.below(5), 1 + rng.below(4))
}

/// A size with this side; the other is short.
pub fn narrow(rng: &mut Rng, long: usize) -> (usize, usize) {
    let short = rng.pick(&[1, 1, 2]);
    rng.pick(&[(long, short), (short, long)])
}

/// A side outside its range.
pub fn unfit_side(rng: &mut Rng) -> usize {
    rng.pick(&[0, SIDE_MOST + 1, SIDE_MOST + 2, 2 * SIDE_MOST, 1 << 32, (1 << 32) + 1, 1 << 63, usize::MAX])
}
