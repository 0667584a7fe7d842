//! A picture's PGM file read, and a map's PFM file written and read, beside the plain Rust that host/netpbm_run holds them to.
use crate::best_of;
use netpbm_run::format;
use plombrisa::{Map, pfm_length_in, read_pfm_in, read_pgm_in, write_pfm_in};
use std::hint::black_box;

fn row(what: &str, bytes: usize, library: f64, plain: f64) {
    println!("| {what} | {bytes} | {:.3} | {:.3} |", library * 1e3, plain * 1e3);
}

/// Reading the PGM file of a picture.
fn read_pgm(levels: &[u8], width: usize, height: usize, repeats: usize) {
    let file = [format!("P5\n{width} {height}\n255\n").as_bytes(), levels].concat();
    let mut out = vec![0; levels.len()];
    let (mut found_width, mut found_height) = (0, 0);
    let library = best_of(repeats, || read_pgm_in(&file, &mut out, &mut found_width, &mut found_height).expect("accepted"));
    let mut plain_out = Vec::with_capacity(levels.len());
    let plain = best_of(repeats, || {
        black_box(format::read_pgm(&file, &mut plain_out).expect("accepted"));
    });
    assert!(out == levels && plain_out == levels, "the pictures differ");
    row("read PGM", file.len(), library, plain);
}

/// Writing the PFM file of a map, and reading it.
fn write_and_read_pfm(map: Map, repeats: usize) {
    let mut count = 0;
    pfm_length_in(map, &mut count).expect("a map");
    let mut file = vec![0; count as usize];
    let library = best_of(repeats, || write_pfm_in(map, &mut file, &mut count).expect("accepted"));
    let mut plain_file = Vec::with_capacity(file.len());
    let plain = best_of(repeats, || format::write_pfm(map.cells, map.width, map.height, &mut plain_file).expect("accepted"));
    assert!(file == plain_file, "the two files differ");
    row("write PFM", file.len(), library, plain);

    let mut cells = vec![0.0; map.cells.len()];
    let (mut width, mut height) = (0, 0);
    let library = best_of(repeats, || read_pfm_in(&file, &mut cells, &mut width, &mut height).expect("accepted"));
    let mut plain_cells = Vec::with_capacity(cells.len());
    let plain = best_of(repeats, || {
        black_box(format::read_pfm(&file, &mut plain_cells).expect("accepted"));
    });
    assert!(cells.iter().map(|cell| cell.to_bits()).eq(plain_cells.iter().map(|cell| cell.to_bits())), "the two maps differ");
    row("read PFM", file.len(), library, plain);
}

/// The picture whose levels these are, and the map, both of one size.
pub fn table(levels: &[u8], map: Map, repeats: usize) {
    println!("{}x{}, best of {repeats}", map.width, map.height);
    println!("| call | bytes | library ms | plain Rust ms |");
    println!("|---|---|---|---|");
    read_pgm(levels, map.width, map.height, repeats);
    write_and_read_pfm(map, repeats);
}
