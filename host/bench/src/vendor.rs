//! The check of a vendor's map, beside the match that made the map and the plain Rust that host/vendor_run holds it to.
use crate::{Pair, best_of, pair};
use plombrisa::{Map, Options, Picture, check_vendor_in, float_cells, match_block_in, whole_cells};
use std::hint::black_box;
use vendor_run::judge::{Asked, Grid, Search, judge};

/// The plain Rust's check, of a map that passes.
fn plain(pair: &Pair, options: &Options, cells: &[f32], repeats: usize) -> f64 {
    let Options { min_disparity, num_disparities, block_size, min_correlation, .. } = *options;
    let (width, height) = (pair.width, pair.height);
    let picture = |cells| Grid { cells, width, height };
    let search = Search { min_disparity, num_disparities, block_size, min_correlation };
    let asked = Asked { left: picture(&pair.left), right: picture(&pair.right), search, map: Grid { cells, width, height } };
    let mut bad = None;
    let seconds = best_of(repeats, || bad = black_box(judge(&asked, usize::MAX)).expect("accepted").first_bad());
    assert!(bad.is_none(), "the plain Rust's answer is no");
    seconds
}

/// A row of the table: seconds for the block map of a pair with sub-pixel off, and for the check of it, which is a yes, by both.
fn row(width: usize, height: usize, count: usize, block_size: usize, min_correlation: f32, repeats: usize) {
    let pair = pair(width, height);
    let options = Options { num_disparities: count as i32, block_size, min_correlation, subpixel: false, ..Options::default() };
    let picture = |bytes| Picture { bytes, width, height };
    let (left, right) = (picture(pair.left.as_slice()), picture(pair.right.as_slice()));
    let mut cells = vec![0.0; width * height];
    let mut whole = vec![0; whole_cells(width, height)];
    let mut float = vec![0.0; float_cells(width, height, count, false)];
    let matched = best_of(repeats, || match_block_in(left, right, &options, &mut cells, &mut whole, &mut float).expect("accepted"));

    let map = Map { cells: &cells, width, height };
    let (mut passed, mut x, mut y) = (0, 0, 0);
    let library = best_of(repeats, || {
        check_vendor_in(left, right, &options, map, &mut whole, &mut passed, &mut x, &mut y).expect("accepted")
    });
    assert!(passed == 1, "the library's answer is no, at ({x}, {y})");
    let plain = plain(&pair, &options, &cells, repeats);
    let valid = cells.iter().filter(|cell| cell.is_finite()).count();
    println!(
        "| {width}x{height}x{count} | {block_size} | {min_correlation} | {valid} | {library:.3} | {matched:.3} | {plain:.3} | {:.2} |",
        library / matched,
    );
}

/// Two sizes, and the larger one with a larger block, and with a least correlation that every raw cost is above: then a cell's own raw
/// cost is worked out for every index.
pub fn table(repeats: usize) {
    println!("the library's own block map, left-right on, sub-pixel off; every answer is yes; best of {repeats}");
    println!(
        "| pair | block | min_correlation | valid cells | check: library s | match: library s | check: plain Rust s | \
         library: check / match |"
    );
    println!("|---|---|---|---|---|---|---|---|");
    for (width, height, count, block_size, least) in
        [(320, 240, 32, 7, 0.5), (640, 480, 64, 7, 0.5), (640, 480, 64, 21, 0.5), (640, 480, 64, 7, -1.0)]
    {
        row(width, height, count, block_size, least, repeats);
    }
}
