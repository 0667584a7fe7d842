//! The row index beside a map. What a refused call was lent is left as it was.
use crate::memory::{judged, zeros};
use crate::refusal::answer;
use crate::{Error, Map, Refusal, raw};

/// What the index holds of one row of a map.
#[repr(C)]
#[derive(Debug, Clone, Copy)]
pub struct RowRecord {
    /// How many cells of the row are valid.
    pub count: usize,
    /// The least disparity of the row's valid cells, in pixels; NaN where none is valid.
    pub least: f32,
    /// The greatest disparity of the row's valid cells, in pixels; NaN where none is valid.
    pub greatest: f32,
}

impl RowRecord {
    /// The least and the greatest disparity of the row's valid cells; `None` where none is valid.
    pub fn range(&self) -> Option<(f32, f32)> {
        (self.count != 0).then_some((self.least, self.greatest))
    }
}

impl Default for RowRecord {
    /// The record of a row without a valid cell.
    fn default() -> Self {
        Self { count: 0, least: f32::NAN, greatest: f32::NAN }
    }
}

/// The record of each row of a map, the top row first, into the caller's own index, which has one for each row.
pub fn fresh_index_in(map: Map, index: &mut [RowRecord]) -> Result<(), Refusal> {
    let Map { cells, width, height } = map;
    // Safety: each pointer comes with the length of its slice, the record has the layout of the library's, and the index is apart
    // from the cells.
    answer(unsafe { raw::plombrisa_fresh_index(cells.as_ptr(), cells.len(), width, height, index.as_mut_ptr(), index.len()) })
}

/// Edits the cell of one pixel of the caller's own map, x columns from the left edge and y rows from the top, both counted from 0, and the
/// record of its row in the caller's own index; `None` makes the cell blank, as a NaN does. It reads one row, not the map.
pub fn edit_cell_in(
    cells: &mut [f32], width: usize, height: usize, x: usize, y: usize, value: Option<f32>, index: &mut [RowRecord],
) -> Result<(), Refusal> {
    let value = value.unwrap_or(f32::NAN);
    // Safety: each pointer comes with the length of its slice, the record has the layout of the library's, and the two slices are
    // apart.
    answer(unsafe {
        raw::plombrisa_edit_cell(
            cells.as_mut_ptr(), cells.len(), width, height, x, y, value, index.as_mut_ptr(), index.len(),
        )
    })
}

/// The index of a map: for each row how many cells are valid, and the least and the greatest of those, kept so while single cells are
/// edited. An edit reads one row, not the map. The index stays the map's while the cells are edited through it and not otherwise.
///
/// ```
/// use plombrisa::{Map, Refusal, RowIndex, valid_count};
///
/// let mut cells = [4.0, f32::NAN, 0.5, f32::INFINITY, f32::NAN, f32::NAN];
/// let mut index = RowIndex::fresh(Map { cells: &cells, width: 3, height: 2 }).unwrap();
/// let ranges = |index: &RowIndex| index.rows().iter().map(|row| row.range()).collect::<Vec<_>>();
/// // an infinite cell is not valid, so the second row has no valid one
/// assert_eq!(ranges(&index), [Some((0.5, 4.0)), None]);
/// index.edit(&mut cells, 2, 0, None).unwrap();
/// index.edit(&mut cells, 1, 1, Some(-2.0)).unwrap();
/// assert_eq!(ranges(&index), [Some((4.0, 4.0)), Some((-2.0, -2.0))]);
/// assert_eq!(index.edit(&mut cells, 3, 0, None), Err(Refusal::PixelOutside));
/// assert_eq!(Ok(index.valid_count()), valid_count(Map { cells: &cells, width: 3, height: 2 }));
/// ```
#[derive(Debug, Clone)]
pub struct RowIndex {
    width: usize,
    records: Vec<RowRecord>,
}

impl RowIndex {
    /// The index of a map, worked out from its cells.
    pub fn fresh(map: Map) -> Result<Self, Error> {
        judged(fresh_index_in(map, &mut []), Refusal::IndexLength)?;
        let mut records = zeros(map.height)?;
        fresh_index_in(map, &mut records)?;
        Ok(Self { width: map.width, records })
    }

    /// Edits the cell of one pixel of the index's map, x columns from the left edge and y rows from the top, both counted from 0, and the
    /// record of its row; `None` makes the cell blank.
    pub fn edit(&mut self, cells: &mut [f32], x: usize, y: usize, value: Option<f32>) -> Result<(), Refusal> {
        edit_cell_in(cells, self.width, self.records.len(), x, y, value, &mut self.records)
    }

    /// The record of each row, from the first row on.
    pub fn rows(&self) -> &[RowRecord] {
        &self.records
    }

    /// How many cells of the map are valid: the rows' counts, added.
    pub fn valid_count(&self) -> u64 {
        self.records.iter().map(|row| row.count as u64).sum()
    }
}
