//! A map's sheet written and read, beside the plain Rust that host/sheets_run holds it to.
use crate::best_of;
use plombrisa::{Map, read_sheet_in, sheet_length_in, write_sheet_in};
use sheets_run::format;
use std::hint::black_box;

/// A row of the table: seconds of the library and of the plain Rust, writing and reading one map.
fn row(what: &str, map: Map, kind: u64, repeats: usize) {
    let mut count = 0;
    sheet_length_in(map, kind, &mut count).expect("a map of the kind");
    let mut sheet = vec![0; count as usize];
    let write = best_of(repeats, || write_sheet_in(map, kind, &mut sheet, &mut count).expect("accepted"));
    let mut cells = vec![0.0; map.cells.len()];
    let (mut width, mut height, mut found) = (0, 0, 0);
    let read = best_of(repeats, || read_sheet_in(&sheet, &mut cells, &mut found, &mut width, &mut height).expect("accepted"));

    let mut plain = Vec::with_capacity(sheet.len());
    let plain_write = best_of(repeats, || format::write(map.cells, map.width, map.height, kind, &mut plain).expect("accepted"));
    assert!(plain == sheet, "the two sheets differ");
    let mut plain_cells = Vec::with_capacity(cells.len());
    let plain_read = best_of(repeats, || {
        black_box(format::read(&sheet, &mut plain_cells).expect("accepted"));
    });
    let same = cells.iter().zip(&plain_cells).all(|(a, b)| a.to_bits() == b.to_bits() || (a.is_nan() && b.is_nan()));
    assert!(same && cells.len() == plain_cells.len(), "the two maps differ");
    let ms = |seconds: f64| seconds * 1e3;
    println!("| {what} | {} | {:.2} | {:.2} | {:.2} | {:.2} |", sheet.len(), ms(write), ms(plain_write), ms(read), ms(plain_read));
}

/// The same map in both kinds: its disparities rounded, and as they are.
pub fn table(map: Map, repeats: usize) {
    println!("{}x{}, best of {repeats}", map.width, map.height);
    println!("| map | bytes | library writes ms | plain Rust writes ms | library reads ms | plain Rust reads ms |");
    println!("|---|---|---|---|---|---|");
    let rounded: Vec<f32> = map.cells.iter().map(|cell| cell.round()).collect();
    row("kind 0, rounded", Map { cells: &rounded, ..map }, 0, repeats);
    row("kind 1", map, 1, repeats);
}
