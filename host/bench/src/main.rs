//! Times the proved library beside the Rust on the same pairs, in one run, left-right test on.
//!
//! `bench [REPEATS]` prints a table: seconds (the best of the repeats), their ratio, and the most memory that each held at once.
//! `bench parts [REPEATS]` prints what the parts of one map of 640x480x64 take.
//! `bench sheets [REPEATS]` prints what a sheet of the block map of 640x480x64 takes, in either kind.
//! `bench netpbm [REPEATS]` prints what the PGM file of a picture of 640x480 and the PFM file of that map take.
//! `bench volume [REPEATS]` prints what the volume of a heap of 640x480 points takes.
//! `bench rows [REPEATS]` prints what the row index of a map takes, and what one edit beside it does.
//! `bench vendor [REPEATS]` prints what the check of a vendor's map takes, and the match that made the map.
//! `bench once library|rust|nothing block|semi-global` makes one map of 640x480x64, or only what both are made from, and prints
//! nothing, so that a counter of instructions has one thing to count.
mod memory;
mod netpbm;
mod rows;
mod sheets;
mod vendor;
mod volume;

use memory::peak_of;
use oracle::dense;
use plombrisa::{
    Map, Options, Picture, cover, float_cells, match_block, match_block_in, raw_volume_in, valid_count, whole_cells,
};
use std::hint::black_box;
use std::time::Instant;

struct Pair {
    width: usize,
    height: usize,
    left: Vec<u8>,
    right: Vec<u8>,
}

/// A textured pair: the right picture is the left one moved by 4 to 20 columns, more towards the bottom, with a little noise.
fn pair(width: usize, height: usize) -> Pair {
    let mut state = 0x2545_F491_4F6C_DD1Du64;
    let mut next = move || {
        state ^= state << 13;
        state ^= state >> 7;
        state ^= state << 17;
        state
    };
    let left: Vec<u8> = (0..width * height).map(|_| (next() >> 32) as u8).collect();
    let right = (0..width * height)
        .map(|i| {
            let (x, y) = (i % width, i / width);
            left[y * width + (x + 4 + y * 16 / height).min(width - 1)].saturating_add((next() % 3) as u8)
        })
        .collect();
    Pair { width, height, left, right }
}

fn rust_options(o: &Options) -> dense::BlockMatchOptions {
    dense::BlockMatchOptions {
        num_disparities: o.num_disparities,
        block_size: o.block_size,
        lr_consistency: o.lr_consistency,
        semi_global: o.semi_global,
        ..Default::default()
    }
}

/// The best of some runs, in seconds.
fn best_of(repeats: usize, mut run: impl FnMut()) -> f64 {
    (0..repeats)
        .map(|_| {
            let start = Instant::now();
            run();
            start.elapsed().as_secs_f64()
        })
        .fold(f64::INFINITY, f64::min)
}

struct Row {
    ours: f64,
    theirs: f64,
    our_bytes: usize,
    their_bytes: usize,
}

fn measure(pair: &Pair, count: usize, semi_global: bool, repeats: usize) -> Row {
    let (w, h) = (pair.width, pair.height);
    let options = Options { num_disparities: count as i32, semi_global, ..Options::default() };
    let picture = |bytes| Picture { bytes, width: w, height: h };
    let (left, right) = (picture(pair.left.as_slice()), picture(pair.right.as_slice()));

    let mut map = Vec::new();
    let mut ours = 0.0;
    let our_bytes = peak_of(|| {
        let mut out = vec![0.0; w * h];
        let mut whole = vec![0; whole_cells(w, h)];
        let mut float = vec![0.0; float_cells(w, h, count, semi_global)];
        ours = best_of(repeats, || match_block_in(left, right, &options, &mut out, &mut whole, &mut float).expect("accepted"));
        map = out;
    });

    let gray = |bytes: &[u8]| dense::GrayImage::new(w, h, bytes.to_vec());
    let (a, b, o) = (gray(&pair.left), gray(&pair.right), rust_options(&options));
    let mut rust = Vec::new();
    let mut theirs = 0.0;
    let their_bytes = peak_of(|| {
        theirs = best_of(repeats, || rust = black_box(dense::match_block(&a, &b, &o).expect("accepted")).data);
    });
    let same = map.iter().zip(&rust).all(|(x, y)| x.to_bits() == y.to_bits() || (x.is_nan() && y.is_nan()));
    assert!(same && map.len() == rust.len(), "the two maps differ");
    Row { ours, theirs, our_bytes, their_bytes }
}

/// How the time grows: one size, then twice the pixels, then twice the disparities.
fn growth(repeats: usize) {
    println!();
    println!("| mode | 320x240x32 s | twice the pixels (320x480x32) | twice the disparities (320x240x64) |");
    println!("|---|---|---|---|");
    for semi_global in [false, true] {
        let seconds = |h, count| measure(&pair(320, h), count, semi_global, repeats).ours;
        let (one, pixels, disparities) = (seconds(240, 32), seconds(480, 32), seconds(240, 64));
        let mode = if semi_global { "semi-global" } else { "block" };
        println!("| {mode} | {one:.3} | times {:.2} | times {:.2} |", pixels / one, disparities / one);
    }
}

/// The library's raw volume, the maps without and with the left-right test, in both modes, and the figures of the last.
fn parts(repeats: usize) {
    let (w, h, count) = (640, 480, 64);
    let pair = pair(w, h);
    let picture = |bytes| Picture { bytes, width: w, height: h };
    let (left, right) = (picture(pair.left.as_slice()), picture(pair.right.as_slice()));
    let mut out = vec![0.0; w * h];
    let mut volume = vec![0.0; count * w * h];
    let mut whole = vec![0; whole_cells(w, h)];
    let mut float = vec![0.0; float_cells(w, h, count, true)];
    let plain = Options { num_disparities: count as i32, ..Options::default() };
    let raw = best_of(repeats, || raw_volume_in(left, right, &plain, false, &mut volume, &mut whole).expect("accepted"));
    println!("640x480x64, block 7, best of {repeats}");
    println!("| part | s |");
    println!("|---|---|");
    println!("| raw volume of one side | {raw:.3} |");
    for semi_global in [false, true] {
        for lr_consistency in [false, true] {
            let options = Options { semi_global, lr_consistency, ..plain };
            let seconds = best_of(repeats, || match_block_in(left, right, &options, &mut out, &mut whole, &mut float).expect("accepted"));
            let mode = if semi_global { "semi-global" } else { "block" };
            println!("| {mode} map, left-right {} | {seconds:.3} |", if lr_consistency { "on" } else { "off" });
        }
    }
    let map = Map { cells: &out, width: w, height: h };
    let count = best_of(repeats, || _ = black_box(valid_count(map).expect("a map")));
    let figure = best_of(repeats, || _ = black_box(cover(map, plain.block_size).expect("a map")));
    println!("| valid cells of that map | {count:.6} |");
    println!("| cover of that map | {figure:.6} |");
}

/// A pair of 640x480 and the cells of its block map.
fn pair_and_map() -> (Pair, Vec<f32>) {
    let pair = pair(640, 480);
    let picture = |bytes| Picture { bytes, width: pair.width, height: pair.height };
    let cells = match_block(picture(&pair.left), picture(&pair.right), &Options::default()).expect("accepted");
    (pair, cells)
}

/// The sheets of a block map of 640x480x64.
fn sheets_of_a_map(repeats: usize) {
    let (pair, cells) = pair_and_map();
    sheets::table(Map { cells: &cells, width: pair.width, height: pair.height }, repeats);
}

/// The PGM file of a picture of 640x480 and the PFM file of its block map.
fn files_of_a_map(repeats: usize) {
    let (pair, cells) = pair_and_map();
    netpbm::table(&pair.left, Map { cells: &cells, width: pair.width, height: pair.height }, repeats);
}

/// One map of 640x480x64 by one of the two, or by neither.
fn once(who: &str, mode: &str) {
    let (w, h, count) = (640, 480, 64);
    let pair = pair(w, h);
    let options = Options { num_disparities: count as i32, semi_global: mode == "semi-global", ..Options::default() };
    let picture = |bytes| Picture { bytes, width: w, height: h };
    let gray = |bytes: &[u8]| dense::GrayImage::new(w, h, bytes.to_vec());
    let (left, right) = (picture(pair.left.as_slice()), picture(pair.right.as_slice()));
    let (a, b, o) = (gray(&pair.left), gray(&pair.right), rust_options(&options));
    let mut out = vec![0.0; w * h];
    let mut whole = vec![0; whole_cells(w, h)];
    let mut float = vec![0.0; float_cells(w, h, count, options.semi_global)];
    match who {
        "library" => match_block_in(left, right, &options, &mut out, &mut whole, &mut float).expect("accepted"),
        "rust" => drop(black_box(dense::match_block(&a, &b, &o).expect("accepted"))),
        _ => (),
    }
    black_box((out, whole, float));
}

fn main() {
    let words: Vec<String> = std::env::args().skip(1).collect();
    if let [first, who, mode] = words.as_slice() {
        assert!(first == "once", "bench once library|rust|nothing block|semi-global");
        return once(who, mode);
    }
    let repeats_after = |word: &str| {
        let asked = words.first().is_some_and(|first| first == word);
        asked.then(|| words.get(1).map_or(3, |n| n.parse().expect("REPEATS is a whole number")))
    };
    if let Some(repeats) = repeats_after("parts") {
        return parts(repeats);
    }
    if let Some(repeats) = repeats_after("sheets") {
        return sheets_of_a_map(repeats);
    }
    if let Some(repeats) = repeats_after("netpbm") {
        return files_of_a_map(repeats);
    }
    if let Some(repeats) = repeats_after("volume") {
        return volume::table(repeats);
    }
    if let Some(repeats) = repeats_after("rows") {
        return rows::table(repeats);
    }
    if let Some(repeats) = repeats_after("vendor") {
        return vendor::table(repeats);
    }
    let repeats = words.first().map_or(3, |n| n.parse().expect("REPEATS is a whole number"));
    println!("block 7, left-right on, best of {repeats}; every map was compared cell by cell");
    println!("| pair | mode | library s | Rust s | Rust / library | library MB | Rust MB | library ns per cell of the volume |");
    println!("|---|---|---|---|---|---|---|---|");
    for (w, h, count, both) in [(320, 240, 32, true), (640, 480, 64, true), (1280, 960, 128, false)] {
        let pair = pair(w, h);
        for semi_global in [false, true] {
            if semi_global && !both {
                continue;
            }
            let row = measure(&pair, count, semi_global, repeats);
            let mega = |bytes: usize| bytes as f64 / 1e6;
            println!(
                "| {w}x{h}x{count} | {} | {:.3} | {:.3} | {:.2} | {:.0} | {:.0} | {:.2} |",
                if semi_global { "semi-global" } else { "block" },
                row.ours, row.theirs, row.theirs / row.ours, mega(row.our_bytes), mega(row.their_bytes),
                row.ours * 1e9 / (w * h * count) as f64,
            );
        }
    }
    growth(repeats);
}
