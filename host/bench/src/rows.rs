//! The row index of a map, fresh and while single cells are edited, beside the plain Rust that host/rows_run holds it to.
use crate::best_of;
use plombrisa::{Map, RowRecord, edit_cell_in, fresh_index_in};
use rows_run::index;
use runs::rng::Rng;
use std::hint::black_box;

/// How many edits the time of one is the mean of.
const EDITS: usize = 10_000;

/// A map of disparities, one cell in eight blank.
fn map(rng: &mut Rng, width: usize, height: usize) -> Vec<f32> {
    (0..width * height).map(|_| if rng.one_in(8) { f32::NAN } else { rng.within(0, 4096) as f32 / 16.0 }).collect()
}

/// Edits anywhere in a map: every other one blanks a cell.
fn edits(rng: &mut Rng, width: usize, height: usize) -> Vec<(usize, usize, Option<f32>)> {
    let value = |rng: &mut Rng, i: usize| (i % 2 == 0).then(|| rng.within(0, 4096) as f32 / 16.0);
    (0..EDITS).map(|i| (rng.below(width), rng.below(height), value(rng, i))).collect()
}

/// Whether the records are those of the plain Rust.
fn same(records: &[RowRecord], rows: &[index::Row]) -> bool {
    let equal = |(record, row): (&RowRecord, &index::Row)| record.count == row.count && record.range() == row.range;
    records.len() == rows.len() && records.iter().zip(rows).all(equal)
}

/// A row of the table: the index of one map worked out afresh by both, one edit by both, and how many edits a fresh index takes.
fn row(width: usize, height: usize, repeats: usize) {
    let mut rng = Rng::new(1);
    let mut cells = map(&mut rng, width, height);
    let mut records = vec![RowRecord::default(); height];
    let fresh = best_of(repeats, || fresh_index_in(Map { cells: &cells, width, height }, &mut records).expect("accepted"));
    let mut rows = Vec::new();
    let plain_fresh = best_of(repeats, || rows = black_box(index::fresh(&cells, width, height, height)).expect("accepted"));
    assert!(same(&records, &rows), "the two indexes differ");

    let edits = edits(&mut rng, width, height);
    let mut plain_cells = cells.clone();
    let edit = best_of(repeats, || {
        for &(x, y, value) in &edits {
            edit_cell_in(&mut cells, width, height, x, y, value, &mut records).expect("accepted");
        }
    });
    let plain_edit = best_of(repeats, || {
        for &(x, y, value) in &edits {
            let value = value.unwrap_or(f32::NAN);
            rows[y] = index::edit(&mut plain_cells, width, height, x, y, value, height).expect("accepted");
        }
    });
    assert!(same(&records, &rows) && same(&records, &index::rows(&cells, width)), "the two indexes differ after the edits");

    let (edit, plain_edit) = (edit / EDITS as f64, plain_edit / EDITS as f64);
    println!(
        "| {width}x{height} | {:.3} | {:.3} | {:.3} | {:.3} | {:.0} | {:.2} |",
        fresh * 1e3, plain_fresh * 1e3, edit * 1e6, plain_edit * 1e6, fresh / edit, edit * 1e9 / width as f64,
    );
}

/// Two maps, and two that have as many cells as each other in short rows and in long ones.
pub fn table(repeats: usize) {
    println!("an edit is the mean of {EDITS} anywhere in the map; best of {repeats}");
    println!(
        "| map | fresh: library ms | fresh: plain Rust ms | edit: library µs | edit: plain Rust µs | library: fresh / edit | \
         library: edit, ns per cell of a row |"
    );
    println!("|---|---|---|---|---|---|---|");
    for (width, height) in [(640, 480), (2048, 2048), (64, 2048), (2048, 64)] {
        row(width, height, repeats);
    }
}
