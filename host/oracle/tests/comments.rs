//! Where the Rust's comments and its code differ, on the smallest inputs that show it (docs/DIFFERENCES.md).
use oracle::dense::{BlockMatchOptions, GrayImage, match_block};

fn flat(level: u8) -> GrayImage {
    GrayImage::new(3, 3, vec![level; 9])
}

fn options(semi_global: bool) -> BlockMatchOptions {
    BlockMatchOptions { num_disparities: 1, block_size: 3, lr_consistency: false, semi_global, ..Default::default() }
}

/// `select_sgm` is described as leaving a pixel without any raw cost blank. It never does.
#[test]
fn semi_global_fills_a_pixel_without_any_raw_cost() {
    let block = match_block(&flat(7), &flat(7), &options(false)).expect("accepted");
    let semi_global = match_block(&flat(7), &flat(7), &options(true)).expect("accepted");
    assert!(block.get(1, 1).is_nan());
    assert_eq!(semi_global.get(1, 1), 0.0);
}

/// `sgm_p2` "must be" at least `sgm_p1`, but nobody checks.
#[test]
fn penalties_may_stand_the_wrong_way_round() {
    let wrong = BlockMatchOptions { sgm_p1: 1.0, sgm_p2: 0.0, ..options(true) };
    assert!(match_block(&flat(7), &flat(7), &wrong).is_ok());
}

/// `solve_direction` is described as returning magnitudes that are not negative, and the module as searching `d ≥ 0`. A
/// negative first disparity gives negative cells.
#[test]
fn disparities_may_be_negative() {
    let below = BlockMatchOptions { min_disparity: -1, ..options(true) };
    let map = match_block(&flat(7), &flat(7), &below).expect("accepted");
    assert_eq!(map.get(1, 1), -1.0);
}

/// `min_correlation` is described as a number of [-1, 1]. A NaN is accepted, and rejects nothing.
#[test]
fn a_gate_may_be_a_nan() {
    let left = GrayImage::new(3, 3, vec![1, 2, 3, 4, 5, 6, 7, 8, 9]);
    let open = BlockMatchOptions { min_correlation: f32::NAN, ..options(false) };
    assert_eq!(match_block(&left, &left, &open).expect("accepted").get(1, 1), 0.0);
}

/// "Last valid pixel is replicated": a reading between four pixels of 255 can lie above 255.
#[test]
fn a_reading_can_exceed_the_largest_level() {
    let white = GrayImage::new(2, 2, vec![255; 4]);
    let above = (1..2000).flat_map(|i| (1..200).map(move |j| (i as f64 / 2000.0, j as f64 / 200.0)));
    assert!(above.map(|(x, y)| white.bilinear(x, y)).any(|v| v > 255.0));
}
