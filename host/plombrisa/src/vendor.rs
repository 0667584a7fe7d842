//! A check on the vendor's matcher. What a refused call was lent is left as it was.
use crate::memory::{judged, zeros};
use crate::refusal::answer;
use crate::{Error, Map, Options, Picture, Refusal, raw, whole_cells};

/// What a check of a vendor's map answers.
#[derive(Debug, Clone, Copy, PartialEq, Eq)]
pub enum Verdict {
    /// Every cell of the map passes.
    Yes,
    /// A cell does not pass; this one is the first such by rows, the top row first.
    No {
        /// The column of the cell, counted from 0 at the left edge.
        x: usize,
        /// The row of the cell, counted from 0 at the top.
        y: usize,
    },
}

/// [`check_vendor`] with the caller's own room, which has [`whole_cells`] or more, and into the caller's own numbers: `passed` is 1, which
/// leaves x and y as they were, or 0, and then they are the first bad cell's column and row. After the check the cells that the room needs
/// are zero.
pub fn check_vendor_in(
    left: Picture, right: Picture, options: &Options, map: Map, whole_room: &mut [u64], passed: &mut u32, x: &mut u64, y: &mut u64,
) -> Result<(), Refusal> {
    // Safety: each pointer comes with the length of its slice, and the room and the lent numbers are apart from all else.
    answer(unsafe {
        raw::plombrisa_check_vendor(
            left.bytes.as_ptr(), left.bytes.len(), left.width, left.height,
            right.bytes.as_ptr(), right.bytes.len(), right.width, right.height,
            options.min_disparity, options.num_disparities, options.block_size, options.min_correlation,
            map.cells.as_ptr(), map.cells.len(), map.width, map.height,
            whole_room.as_mut_ptr(), whole_room.len(), passed, x, y,
        )
    })
}

/// Whether a whole-pixel map that another matcher made of a pair is one that the pair's raw costs ([`raw_volume`](crate::raw_volume)) bear
/// out.
///
/// A valid cell passes where it is a disparity of the searched range whose raw cost, the left picture being the reference, is not blank, is
/// not below [`Options::min_correlation`] and is not beaten by that of another disparity; a tie passes, and minus zero counts as 0. A cell
/// that is not valid passes. Of the options no more than the search, the block and `min_correlation` is read.
///
/// ```
/// use plombrisa::{Map, Options, Picture, Refusal, Verdict, check_vendor, match_block};
///
/// let left = [9, 1, 4, 7, 2, 9, 1, 4, 7, 2, 9, 1, 4, 7, 2];
/// let right = [1, 4, 7, 2, 5, 1, 4, 7, 2, 5, 1, 4, 7, 2, 5];
/// let picture = |bytes| Picture { bytes, width: 5, height: 3 };
/// let options = Options { num_disparities: 2, block_size: 3, subpixel: false, ..Options::default() };
/// let check = |cells: &[f32]| check_vendor(picture(&left), picture(&right), &options, Map { cells, width: 5, height: 3 });
///
/// // with sub-pixel off the library's own block map passes
/// let mut cells = match_block(picture(&left), picture(&right), &options).unwrap();
/// assert_eq!(check(&cells), Ok(Verdict::Yes));
/// // disparity 1 has the greater raw cost there
/// cells[1 * 5 + 3] = 0.0;
/// assert_eq!(check(&cells), Ok(Verdict::No { x: 3, y: 1 }));
/// assert_eq!(check(&cells[..14]), Err(Refusal::MapSize.into()));
/// ```
pub fn check_vendor(left: Picture, right: Picture, options: &Options, map: Map) -> Result<Verdict, Error> {
    let (mut passed, mut x, mut y) = (0, 0, 0);
    judged(check_vendor_in(left, right, options, map, &mut [], &mut passed, &mut x, &mut y), Refusal::RoomTooShort)?;
    let mut whole_room = zeros(whole_cells(left.width, left.height))?;
    check_vendor_in(left, right, options, map, &mut whole_room, &mut passed, &mut x, &mut y)?;
    Ok(if passed == 1 { Verdict::Yes } else { Verdict::No { x: x as usize, y: y as usize } })
}
