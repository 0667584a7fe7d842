//! Matches and raw volumes. What a refused call was lent is left as it was.
use crate::memory::{bytes_of, judged, reserve};
use crate::refusal::answer;
use crate::{Error, Options, Picture, Refusal, raw};

/// The cells that a match, a raw volume or a check of a vendor's map needs of the whole-number room: 5(w+1)(h+1). What no `usize` holds is
/// `usize::MAX`.
pub fn whole_cells(width: usize, height: usize) -> usize {
    width.saturating_add(1).saturating_mul(height.saturating_add(1)).saturating_mul(5)
}

/// The cells that a match needs of the float room: V + w·h, and 3V + w·h in semi-global mode, where V is the cells of a raw volume,
/// count·w·h. What no `usize` holds is `usize::MAX`.
pub fn float_cells(width: usize, height: usize, count: usize, semi_global: bool) -> usize {
    let area = width.saturating_mul(height);
    let volumes = if semi_global { 3 } else { 1 };
    count.saturating_mul(width).saturating_mul(height).saturating_mul(volumes).saturating_add(area)
}

/// The bytes that a match needs beside its two pictures: the map and both rooms. What no `u64` holds is `u64::MAX`.
///
/// ```
/// use plombrisa::match_bytes;
///
/// // 640 by 480 pixels, 64 disparities: 93 MB for a block map, 250 MB for a semi-global one
/// assert_eq!(match_bytes(640, 480, 64, false), 93_433_640);
/// assert_eq!(match_bytes(640, 480, 64, true), 250_720_040);
/// ```
pub fn match_bytes(width: usize, height: usize, count: usize, semi_global: bool) -> u64 {
    bytes_of::<f32>(width.saturating_mul(height))
        .saturating_add(bytes_of::<u64>(whole_cells(width, height)))
        .saturating_add(bytes_of::<f32>(float_cells(width, height, count, semi_global)))
}

/// [`match_block`] into the caller's own map of w·h cells, with the caller's own rooms, which have [`whole_cells`] and [`float_cells`] or
/// more. After a match these cells of the rooms are zero, and those beyond are as they were.
pub fn match_block_in(
    left: Picture, right: Picture, options: &Options, out: &mut [f32], whole_room: &mut [u64], float_room: &mut [f32],
) -> Result<(), Refusal> {
    // Safety: each pointer comes with the length of its slice, and the three mutable slices are apart.
    answer(unsafe {
        raw::plombrisa_match_block(
            left.bytes.as_ptr(), left.bytes.len(), left.width, left.height,
            right.bytes.as_ptr(), right.bytes.len(), right.width, right.height,
            options.min_disparity, options.num_disparities, options.block_size,
            options.min_correlation, options.uniqueness_ratio, options.lr_consistency, options.lr_max_diff, options.subpixel,
            options.semi_global, options.sgm_p1, options.sgm_p2,
            out.as_mut_ptr(), out.len(), whole_room.as_mut_ptr(), whole_room.len(), float_room.as_mut_ptr(), float_room.len(),
        )
    })
}

/// The disparity map of two rectified pictures of one size: for pixel (x, y) of the left picture, in cell y·width + x, by how many pixels
/// the right picture shows the same spot further to the left, and a NaN where there is no answer.
///
/// The map is a block map, or a semi-global one, as [`Options::semi_global`] says. [`match_bytes`] tells the memory that it takes.
///
/// ```
/// use plombrisa::{Options, Picture, match_block};
///
/// let left = [9, 1, 4, 7, 2, 9, 1, 4, 7, 2, 9, 1, 4, 7, 2];
/// let right = [1, 4, 7, 2, 5, 1, 4, 7, 2, 5, 1, 4, 7, 2, 5];
/// let picture = |bytes| Picture { bytes, width: 5, height: 3 };
/// let options = Options { num_disparities: 2, block_size: 3, ..Options::default() };
/// let map = match_block(picture(&left), picture(&right), &options).unwrap();
/// assert_eq!(map[1 * 5 + 2], 1.0);
/// // the frame, a pixel wide with a block of 3, has no answer
/// assert!(map[0].is_nan());
/// ```
pub fn match_block(left: Picture, right: Picture, options: &Options) -> Result<Vec<f32>, Error> {
    judged(match_block_in(left, right, options, &mut [], &mut [], &mut []), Refusal::OutputLength)?;
    let (w, h, count) = (left.width, left.height, options.num_disparities as usize);
    let bytes = match_bytes(w, h, count, options.semi_global);
    let out = reserve(w * h, bytes)?;
    let whole_room = reserve(whole_cells(w, h), bytes)?;
    let float_room = reserve(float_cells(w, h, count, options.semi_global), bytes)?;
    let mut out = out.filled();
    match_block_in(left, right, options, &mut out, &mut whole_room.filled(), &mut float_room.filled())?;
    Ok(out)
}

/// [`raw_volume`] into the caller's own output of V = num_disparities·w·h cells, with the caller's own room, which has [`whole_cells`] or
/// more. After the call these cells of the room are zero, and those beyond are as they were.
pub fn raw_volume_in(
    left: Picture, right: Picture, options: &Options, from_right: bool, out: &mut [f32], whole_room: &mut [u64],
) -> Result<(), Refusal> {
    // Safety: each pointer comes with the length of its slice, and the two mutable slices are apart.
    answer(unsafe {
        raw::plombrisa_raw_volume(
            left.bytes.as_ptr(), left.bytes.len(), left.width, left.height,
            right.bytes.as_ptr(), right.bytes.len(), right.width, right.height,
            options.min_disparity, options.num_disparities, options.block_size, from_right,
            out.as_mut_ptr(), out.len(), whole_room.as_mut_ptr(), whole_room.len(),
        )
    })
}

/// The raw costs that a match chooses from: how well the block around each pixel correlates, from -1 to 1, with the other picture's block
/// at each disparity. Disparity min_disparity + k of pixel (x, y) is in cell k·w·h + y·w + x; negative infinity is a blank one, for a
/// block that leaves its picture or shows a single level.
///
/// The pixel is one of the left picture, and of the right one `from_right`. Of the options the search and the block are read.
///
/// ```
/// use plombrisa::{Options, Picture, raw_volume};
///
/// let left = [9, 1, 4, 7, 2, 9, 1, 4, 7, 2, 9, 1, 4, 7, 2];
/// let right = [1, 4, 7, 2, 5, 1, 4, 7, 2, 5, 1, 4, 7, 2, 5];
/// let picture = |bytes| Picture { bytes, width: 5, height: 3 };
/// let options = Options { num_disparities: 2, block_size: 3, ..Options::default() };
/// let costs = raw_volume(picture(&left), picture(&right), &options, false).unwrap();
/// let cost = |k: usize, x: usize, y: usize| costs[k * 15 + y * 5 + x];
/// assert_eq!(cost(1, 2, 1), 1.0);
/// assert!(cost(0, 2, 1) < 1.0);
/// assert_eq!(cost(0, 0, 0), f32::NEG_INFINITY);
/// ```
pub fn raw_volume(left: Picture, right: Picture, options: &Options, from_right: bool) -> Result<Vec<f32>, Error> {
    judged(raw_volume_in(left, right, options, from_right, &mut [], &mut []), Refusal::OutputLength)?;
    let (w, h) = (left.width, left.height);
    let (volume, room) = (options.num_disparities as usize * w * h, whole_cells(w, h));
    let bytes = bytes_of::<f32>(volume).saturating_add(bytes_of::<u64>(room));
    let out = reserve(volume, bytes)?;
    let whole_room = reserve(room, bytes)?;
    let mut out = out.filled();
    raw_volume_in(left, right, options, from_right, &mut out, &mut whole_room.filled())?;
    Ok(out)
}
