//! `plombrisa volume`: on the example, of a pair and of a map, with the grid of heights, and on cameras and sites that are refused.
mod common;

use common::*;
use heap::scene::Scene;
use plombrisa::{Intrinsics, Map, Options, Picture, PointRecord, match_block, points};
use runs::limits::COUNT_MOST;
use std::fs;
use volume_run::measure::{self, CELL_LEAST, CELL_MOST, FARTHEST, Ground, Measured};

/// A measurement of these pictures; of an option that is given twice the last counts.
fn measured(left: &str, right: &str, options: &[&str]) -> Ended {
    started(&[&["volume", left, right], &CAMERA[..], &SITE, options].concat())
}

const GROUND: Ground = Ground { left: -7000, right: 7000, top: -7000, bottom: 7000, cell: 250, floor: 6000 };

fn records(options: &Options) -> Vec<PointRecord> {
    let Scene { width, height, left, right } = Scene::example();
    let picture = |bytes| Picture { bytes, width, height };
    let cells = match_block(picture(&left), picture(&right), options).expect("the pair is accepted");
    let camera = Intrinsics { fx: 60.0, fy: 60.0, cx: 100.0, cy: 75.0, baseline: 0.5 };
    points(Map { cells: &cells, width, height }, &camera).expect("a camera")
}

/// What the plain Rust measures on the example, with `CAMERA` and `SITE`.
fn measured_plainly(options: &Options) -> Measured {
    let records = records(options);
    let list = |of: fn(&PointRecord) -> f64| records.iter().map(of).collect::<Vec<f64>>();
    measure::measure(&list(|p| p.x), &list(|p| p.y), &list(|p| p.z), &GROUND).expect("a site")
}

/// The mean height in millimetres of the points of each cell of the example, by rows; none where there is no point.
fn means(options: &Options) -> Vec<Option<f64>> {
    let mut heights = vec![Vec::new(); 56 * 56];
    for point in records(options) {
        let [x, y, z] = [point.x, point.y, point.z].map(|metres| (metres * 1000.0).round() as i64);
        if x >= -7000 && x < 7000 && y >= -7000 && y < 7000 {
            heights[(y + 7000) as usize / 250 * 56 + (x + 7000) as usize / 250].push((6000 - z).max(0) as f64);
        }
    }
    heights.iter().map(|list| (!list.is_empty()).then(|| list.iter().sum::<f64>() / list.len() as f64)).collect()
}

/// The program prints what the plain Rust measures, and the volume by mean heights.
fn measured_on_the_example(words: &[&str], options: Options) {
    let ended = measured(LEFT, RIGHT, words);
    assert_eq!((ended.status, ended.err.as_str()), (Some(0), ""), "{words:?}");
    let Measured { volume, inside, outside, empty, .. } = measured_plainly(&options);
    let digits = format!("{volume:010}");
    let (whole, fraction) = digits.split_at(digits.len() - 9);
    let mean = means(&options).iter().flatten().sum::<f64>() / 1000.0 * 0.25 * 0.25;
    let should = format!(
        "volume: {whole}.{fraction} cubic metres\npoints: {inside} in the rectangle, {outside} outside\ncells: 56 by 56, {empty} empty\n\
         by mean heights: {mean:.3} cubic metres (reckoned by this program, not proved)\n"
    );
    assert_eq!(ended.out(), should, "{words:?}");
    assert!(mean * 1e9 < volume as f64);
}

#[test]
fn the_volume_of_the_example() {
    let block = Options { num_disparities: 24, ..Options::default() };
    measured_on_the_example(&SEARCH, block);
    let semi_global = Options { semi_global: true, lr_consistency: false, ..block };
    measured_on_the_example(&["--num-disparities", "24", "--semi-global", "--no-lr"], semi_global);
    // the heap that was drawn: a cone whose foot is seen 63 pixels from its middle at disparity 5, and whose top at disparity 18
    let (foot, height) = (63.0 * 0.5 / 5.0, 60.0 * 0.5 / 5.0 - 60.0 * 0.5 / 18.0);
    let cone = std::f64::consts::PI * foot * foot * height / 3.0;
    let volume = measured_plainly(&semi_global).volume as f64 / 1e9;
    assert!((volume / cone - 1.0).abs() < 0.05, "{volume} of {cone} cubic metres");
}

/// A map that is there measures as the pair that it was made of, and the floor is the lens height where none is given.
#[test]
fn the_volume_of_a_map() {
    let map = own("to_measure.pfm");
    printed(&[&["match", LEFT, RIGHT, text_of(&map)], &SEARCH[..]].concat());
    let of_pair = measured(LEFT, RIGHT, &SEARCH).out();
    let of_map = |site: &[&str]| printed(&[&["volume", "--map", text_of(&map)], &CAMERA[..], site].concat());
    assert_eq!(of_map(&SITE), of_pair);
    assert_eq!(of_map(&[&SITE[..10], &["--lens-height", "6"]].concat()), of_pair);
}

/// The grid of heights, read by ESRI's description: the greatest height of each cell in metres, and no datum where there is no point.
#[test]
fn the_grid_of_heights() {
    let options = Options { num_disparities: 24, ..Options::default() };
    let file = own("heights.asc");
    assert_eq!(measured(LEFT, RIGHT, &[&SEARCH[..], &["--heights", text_of(&file)]].concat()).status, Some(0));
    let text = fs::read_to_string(&file).expect("the grid");
    let mut lines = text.lines();
    let head: Vec<&str> = lines.by_ref().take(6).collect();
    let named = ["ncols 56", "nrows 56", "xllcorner -7.000", "yllcorner -7.000", "cellsize 0.250", "NODATA_value -9999"];
    assert_eq!(head, named);
    let data: Vec<f64> = lines.flat_map(|line| line.split(' ')).map(|word| word.parse().expect("a number")).collect();
    let (greatest, means) = (measured_plainly(&options).heights, means(&options));
    assert_eq!(data.len(), greatest.len());
    for (at, datum) in data.iter().enumerate() {
        let should = means[at].map_or(-9999.0, |_| greatest[at] as f64 / 1000.0);
        assert!((datum - should).abs() < 1e-9, "cell {at}: {datum} and not {should}");
    }
    assert!(data.contains(&-9999.0) && data.iter().any(|datum| *datum > 4.0));
}

#[test]
fn heaps_that_are_refused() {
    let [small, large] = [CELL_LEAST - 1, CELL_MOST + 1].map(|side| side.to_string());
    let [low, high] = [-FARTHEST - 1, FARTHEST + 1].map(|edge| edge.to_string());
    let many = (COUNT_MOST + 1).to_string();
    let refusals: [(&[&str], &str); 12] = [
        (&["--fx", "0"], "the camera: refused, 21: "),
        (&["--cy", "NaN"], "the camera: refused, 21: "),
        (&["--baseline", "0"], "the camera: refused, 22: "),
        (&["--cell", &small], "the heap: refused, 51: "),
        (&["--cell", &large, "--floor", &high], "the heap: refused, 51: "),
        (&["--floor", &high], "the heap: refused, 52: "),
        (&["--left", &low, "--right", &low], "the heap: refused, 52: "),
        (&["--right", "-7000"], "the heap: refused, 53: "),
        (&["--bottom", "7001", "--cell", "10"], "the heap: refused, 53: "),
        (&["--cell", "10"], "the heap: refused, 54: "),
        (&["--block-size", "4", "--cell", "10"], "refused, 4: "),
        (&["--num-disparities", &many], "refused, 7: "),
    ];
    for (options, said) in refusals {
        fails(&[&["volume", LEFT, RIGHT], &CAMERA[..], &SITE, &SEARCH, options].concat(), &[said]);
    }
    let edge = format!("; {high} mm is farther than 100 m");
    fails(&[&["volume", LEFT, RIGHT], &CAMERA[..], &SITE, &SEARCH, &["--floor", &high]].concat(), &[&edge]);
    let cut = &written("cut_heap.pgm", b"P5\n2 1\n255\na");
    for (right, said) in [(cut.as_str(), "refused, 44: "), ("/nowhere/right.pgm", "/nowhere/right.pgm: cannot be read: ")] {
        fails(&[&["volume", LEFT, right], &CAMERA[..], &SITE].concat(), &[said]);
    }
}

/// Points beyond 100 m are counted, and with the option that is named the same pair is measured.
#[test]
fn points_that_are_too_far() {
    // half a metre more than a hundred metres away at disparity 5
    let words = [&["volume", LEFT, RIGHT], &CAMERA[..], &SITE, &SEARCH, &["--baseline", "8.375", "--semi-global", "--no-lr"]].concat();
    let ended = started(&words);
    assert_eq!((ended.status, ended.bytes.len()), (Some(1), 0), "{}", ended.err);
    assert!(ended.err.contains("the heap: refused, 52: "), "{}", ended.err);
    let behind = |mark: &str| ended.err.split_once(mark).expect(mark).1.split_whitespace().next().expect("a word");
    let options = Options { num_disparities: 24, semi_global: true, lr_consistency: false, ..Options::default() };
    let too_far = |metres: &f64| metres.abs() * 8.375 / 0.5 >= 100.0005;
    let far = records(&options).iter().filter(|point| [point.x, point.y, point.z].iter().any(too_far)).count();
    assert_eq!(behind("one length; "), far.to_string(), "{}", ended.err);
    let ended = started(&[&words[..], &["--min-disparity", behind("--min-disparity "), "--quiet"]].concat());
    assert_eq!((ended.status, ended.err.as_str()), (Some(0), ""));
}
