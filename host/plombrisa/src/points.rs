//! The points of a map. What a refused call was lent is left as it was.
use crate::memory::{judged, zeros};
use crate::refusal::answer;
use crate::{Error, Map, Refusal, raw};

/// The numbers of a rectified pair of cameras.
#[derive(Debug, Clone, Copy)]
pub struct Intrinsics {
    /// The focal length along a row in pixels, finite and positive.
    pub fx: f64,
    /// The focal length along a column in pixels, finite and positive.
    pub fy: f64,
    /// The column of the left camera's axis in pixels, finite.
    pub cx: f64,
    /// The row of the left camera's axis in pixels, finite.
    pub cy: f64,
    /// The distance between the two cameras in metres, finite and over 1e-12. Points come out in the unit that this is in.
    pub baseline: f64,
}

/// A point in the rectified left camera's frame, the pixel whose cell gave it, and that cell's disparity. Lengths are in metres where the
/// baseline is.
#[repr(C)]
#[derive(Debug, Clone, Copy, Default)]
pub struct PointRecord {
    /// How far the point is to the right of the camera's axis, in metres.
    pub x: f64,
    /// How far the point is below the camera's axis, as the pictures have it, in metres.
    pub y: f64,
    /// How far the point is from the camera along its axis, in metres.
    pub z: f64,
    /// The column of the cell, counted from 0 at the left edge.
    pub column: usize,
    /// The row of the cell, counted from 0 at the top.
    pub row: usize,
    /// The cell's disparity in pixels, finite and positive.
    pub disparity: f64,
}

/// [`rectified_point`] into the caller's own numbers: whether there is a point; where there is none the numbers are left as they were.
pub fn rectified_point_in(
    k: &Intrinsics, x: f64, y: f64, disparity: f64, px: &mut f64, py: &mut f64, pz: &mut f64,
) -> bool {
    // Safety: the three lent numbers are apart.
    unsafe { raw::plombrisa_rectified_point(k.fx, k.fy, k.cx, k.cy, k.baseline, x, y, disparity, px, py, pz) }
}

/// The point of a place in the left picture, in pixels, and a disparity, in pixels: x, y and z as a [`PointRecord`] has them. `None`
/// where the disparity is not finite and positive, or the place is not finite. The camera's numbers are taken as they are.
pub fn rectified_point(k: &Intrinsics, x: f64, y: f64, disparity: f64) -> Option<[f64; 3]> {
    let [mut px, mut py, mut pz] = [0.0; 3];
    rectified_point_in(k, x, y, disparity, &mut px, &mut py, &mut pz).then_some([px, py, pz])
}

/// [`points`] into the caller's own list, with their number; records of the list beyond them are left as they were.
pub fn points_in(map: Map, k: &Intrinsics, list: &mut [PointRecord], count: &mut u64) -> Result<(), Refusal> {
    let Map { cells, width, height } = map;
    // Safety: each pointer comes with the length of its slice, the record has the layout of the library's, and what is lent
    // is apart.
    answer(unsafe {
        raw::plombrisa_points(
            cells.as_ptr(), cells.len(), width, height, k.fx, k.fy, k.cx, k.cy, k.baseline,
            list.as_mut_ptr(), list.len(), count,
        )
    })
}

/// The points of a map by rows, the top row first: one for each cell whose disparity is finite and positive.
///
/// ```
/// use plombrisa::{Intrinsics, Map, points};
///
/// let camera = Intrinsics { fx: 100.0, fy: 100.0, cx: 0.5, cy: 0.0, baseline: 0.5 };
/// let points = points(Map { cells: &[f32::NAN, 25.0], width: 2, height: 1 }, &camera).unwrap();
/// assert_eq!(points.len(), 1);
/// assert_eq!((points[0].column, points[0].row, points[0].disparity), (1, 0, 25.0));
/// // depth is fx * baseline / disparity, and the pixel is half a pixel to the right of the axis
/// assert_eq!((points[0].x, points[0].y, points[0].z), (0.01, 0.0, 2.0));
/// ```
pub fn points(map: Map, k: &Intrinsics) -> Result<Vec<PointRecord>, Error> {
    let mut count = 0;
    judged(points_in(map, k, &mut [], &mut count), Refusal::ListTooShort)?;
    let mut list = zeros(map.cells.iter().filter(|cell| cell.is_finite() && **cell > 0.0).count())?;
    points_in(map, k, &mut list, &mut count)?;
    Ok(list)
}
