//! The row index in plain Rust, written from the request's text alone, so that the library is held to another reading of it. Nothing
//! here calls the library. A refusal is its number.
use runs::limits::is_map;

/// What the index holds of one row: how many of its cells are valid, and the least and the greatest of those, where there are any.
#[derive(Debug, Clone, Copy, PartialEq)]
pub struct Row {
    pub count: usize,
    pub range: Option<(f32, f32)>,
}

/// The record of a row's cells, from left to right: a further number replaces the least where it is less, the greatest where it is
/// greater.
pub fn row(cells: &[f32]) -> Row {
    let mut row = Row { count: 0, range: None };
    for &cell in cells.iter().filter(|cell| cell.is_finite()) {
        row.count += 1;
        row.range = Some(match row.range {
            None => (cell, cell),
            Some((least, greatest)) => (if cell < least { cell } else { least }, if cell > greatest { cell } else { greatest }),
        });
    }
    row
}

/// The record of each row of some cells, `width` to a row.
pub fn rows(cells: &[f32], width: usize) -> Vec<Row> {
    cells.chunks(width).map(row).collect()
}

/// The index worked out afresh from a map, beside which there is room for some records.
pub fn fresh(cells: &[f32], width: usize, height: usize, records: usize) -> Result<Vec<Row>, u32> {
    match () {
        () if !is_map(cells.len(), width, height) => Err(23),
        () if records != height => Err(28),
        () => Ok(rows(cells, width)),
    }
}

/// An edit of a map, beside which there is an index of some records: the record of the pixel's row afterwards.
pub fn edit(
    cells: &mut [f32], width: usize, height: usize, x: usize, y: usize, value: f32, records: usize,
) -> Result<Row, u32> {
    match () {
        () if !is_map(cells.len(), width, height) => Err(23),
        () if x >= width || y >= height => Err(26),
        () if records != height => Err(28),
        () => {
            let cells = &mut cells[y * width..][..width];
            cells[x] = value;
            Ok(row(cells))
        }
    }
}
