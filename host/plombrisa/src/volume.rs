//! The volume of a heap. What a refused call was lent is left as it was.
use crate::memory::{bytes_of, reserve};
use crate::refusal::answer;
use crate::{Error, PointRecord, Refusal, raw};

/// The ground that is measured: a rectangle, the cells that it is cut into, and the floor that the heap stands on, all in whole
/// millimetres from the left camera. Edges and floor lie within [`FARTHEST`](crate::limits::FARTHEST) either way; a site has no more than
/// [`CELLS_MOST`](crate::limits::CELLS_MOST) cells.
#[derive(Debug, Clone, Copy, PartialEq, Eq)]
pub struct Site {
    /// The rectangle's left edge, in millimetres to the right of the camera's axis. Points on it are inside.
    pub left: i64,
    /// The rectangle's right edge, in millimetres to the right of the camera's axis. Points on it are outside.
    pub right: i64,
    /// The edge towards the top of the pictures, in millimetres below the camera's axis. Points on it are inside.
    pub top: i64,
    /// The edge towards the bottom of the pictures, in millimetres below the camera's axis. Points on it are outside.
    pub bottom: i64,
    /// The side of a square cell in millimetres, from [`CELL_LEAST`](crate::limits::CELL_LEAST) to
    /// [`CELL_MOST`](crate::limits::CELL_MOST). The rectangle's sides are whole multiples of it.
    pub cell: usize,
    /// How far the floor is from the camera along its axis, in millimetres.
    pub floor: i64,
}

/// What is counted of a heap.
#[derive(Debug, Clone, Copy, Default, PartialEq, Eq)]
pub struct Figures {
    /// The sum of height times cell area over all cells, in cubic millimetres.
    pub volume: u64,
    /// How many points lie inside the rectangle.
    pub inside: u64,
    /// How many points lie outside the rectangle, which nothing else heeds.
    pub outside: u64,
    /// How many cells no point fell into; these count with height 0.
    pub empty: u64,
}

/// A heap that was measured.
#[derive(Debug, Clone, PartialEq, Eq)]
pub struct Heap {
    /// The volume, and how many points and cells made it.
    pub figures: Figures,
    /// How many cells a row of the grid has.
    pub columns: usize,
    /// How many rows of cells the grid has.
    pub rows: usize,
    /// The greatest height over the floor of the points in each cell, in millimetres, 0 where there are none, by rows, the row at the top
    /// edge first.
    pub heights: Vec<u64>,
}

/// [`heap_shape`] into the caller's own numbers.
pub fn heap_shape_in(site: &Site, columns: &mut u64, rows: &mut u64) -> Result<(), Refusal> {
    let Site { left, right, top, bottom, cell, floor } = *site;
    // Safety: the two lent numbers are apart.
    answer(unsafe { raw::plombrisa_heap_shape(left, right, top, bottom, cell, floor, columns, rows) })
}

/// How many columns and how many rows of cells a site has.
pub fn heap_shape(site: &Site) -> Result<(usize, usize), Refusal> {
    let (mut columns, mut rows) = (0, 0);
    heap_shape_in(site, &mut columns, &mut rows)?;
    Ok((columns as usize, rows as usize))
}

/// [`heap_volume`] of points that are given as three lists of one length, the coordinates x, y and z in metres, into the caller's own grid,
/// which has a number for each cell, and figures.
pub fn heap_volume_in(
    xs: &[f64], ys: &[f64], zs: &[f64], site: &Site, grid: &mut [u64], figures: &mut Figures,
) -> Result<(), Refusal> {
    let Site { left, right, top, bottom, cell, floor } = *site;
    let Figures { volume, inside, outside, empty } = figures;
    // Safety: each pointer comes with the length of its slice, and what is lent is apart.
    answer(unsafe {
        raw::plombrisa_heap_volume(
            xs.as_ptr(), xs.len(), ys.as_ptr(), ys.len(), zs.as_ptr(), zs.len(),
            left, right, top, bottom, cell, floor,
            grid.as_mut_ptr(), grid.len(), volume, inside, outside, empty,
        )
    })
}

/// The volume of a heap: the points fall into the square cells of a grid over a rectangle of ground, each cell keeps the greatest height,
/// and the volume is the sum of height times cell area.
///
/// Points are in metres, the site is in whole millimetres: x to the right, y downwards as in the pictures, z away from the camera, so that
/// a height is the floor's depth less z.
///
/// ```
/// use plombrisa::{Figures, PointRecord, Site, heap_volume};
///
/// let point = |x, y, z| PointRecord { x, y, z, ..PointRecord::default() };
/// let points = [point(0.25, 0.0, 2.5), point(0.5, 0.25, 2.9), point(0.999, 0.499, 3.1), point(1.0, 0.25, 2.0)];
/// let site = Site { left: 0, right: 1000, top: 0, bottom: 500, cell: 500, floor: 3000 };
/// let heap = heap_volume(&points, &site).unwrap();
/// assert_eq!((heap.columns, heap.rows), (2, 1));
/// // the third point lies below the floor, so its cell keeps the second's height; the fourth lies on the right edge, so outside
/// assert_eq!(heap.heights, [500, 100]);
/// assert_eq!(heap.figures, Figures { volume: 150_000_000, inside: 3, outside: 1, empty: 0 });
/// ```
pub fn heap_volume(points: &[PointRecord], site: &Site) -> Result<Heap, Error> {
    // a site without a grid gets none here, and the call then answers why: a point's fault may come before the site's
    let (columns, rows) = heap_shape(site).unwrap_or((0, 0));
    let (count, cells) = (points.len(), columns * rows);
    let bytes = bytes_of::<f64>(count).saturating_mul(3).saturating_add(bytes_of::<u64>(cells));
    let (xs, ys, zs) = (reserve(count, bytes)?, reserve(count, bytes)?, reserve(count, bytes)?);
    let mut heights = reserve(cells, bytes)?.filled();
    let xs = xs.collected(points.iter().map(|point| point.x));
    let ys = ys.collected(points.iter().map(|point| point.y));
    let zs = zs.collected(points.iter().map(|point| point.z));
    let mut figures = Figures::default();
    heap_volume_in(&xs, &ys, &zs, site, &mut heights, &mut figures)?;
    Ok(Heap { figures, columns, rows, heights })
}
