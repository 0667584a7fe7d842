//! `plombrisa check`: maps of the example that pass and that do not, how many cells are bad and why, and what is refused.
mod common;

use common::*;
use heap::scene::Scene;
use plombrisa::{Options, Picture, Verdict, check_vendor, raw_volume, read_pfm};
use runs::limits::COUNT_MOST;
use std::fs;
use std::path::{Path, PathBuf};

/// The program's own block map of the example, whole disparities only, in a file of this name.
fn whole_map(name: &str) -> PathBuf {
    let map = own(name);
    printed(&[&["match", LEFT, RIGHT, text_of(&map), "--no-subpixel"], &SEARCH[..]].concat());
    map
}

/// A check of a map of the example; of an option that is given twice the last counts.
fn checked(map: &Path, options: &[&str]) -> Ended {
    started(&[&["check", LEFT, RIGHT, text_of(map)], &SEARCH[..], options].concat())
}

/// The check of a map of the example answers this; of a no also how many cells are bad, in all and by reason.
fn answers(map: &Path, options: &[&str], verdict: Verdict) -> Vec<usize> {
    let ended = checked(map, options);
    let (status, out) = match verdict {
        Verdict::Yes => (0, String::from("yes\n")),
        Verdict::No { x, y } => (3, format!("no: the cell in column {x} of row {y}\n")),
    };
    assert_eq!((ended.status, ended.err.as_str()), (Some(status), ""), "{map:?} {options:?}");
    let text = ended.out();
    let reasons = text.strip_prefix(&out).expect("the verdict first");
    let count = |line: &str| line.trim_start().trim_start_matches("bad: ").split(' ').next().expect("a word").parse().expect("a number");
    reasons.lines().map(count).collect()
}

/// A PFM file of the example's size with another number in one cell; the bottom row is the first in the file.
fn with_cell(file: &[u8], x: usize, y: usize, cell: f32) -> Vec<u8> {
    let at = file.len() - 4 * ((y + 1) * 200 - x);
    [&file[..at], &cell.to_le_bytes(), &file[at + 4..]].concat()
}

fn changed(file: &[u8]) -> PathBuf {
    PathBuf::from(written("changed.pfm", file))
}

#[test]
fn the_program_s_own_map_passes_and_a_changed_cell_is_named() {
    let map = whole_map("passes.pfm");
    assert_eq!(answers(&map, &[], Verdict::Yes), [0; 0]);

    let file = fs::read(&map).expect("the map");
    let (x, y) = (120, 90);
    let own_cell = read_pfm(&file).expect("a map").cells[y * 200 + x];
    assert!(own_cell > 0.0 && own_cell < 23.0, "{own_cell}");
    for cell in [own_cell + 0.5, -1.0, 24.0, 1e30] {
        assert_eq!(answers(&changed(&with_cell(&file, x, y, cell)), &[], Verdict::No { x, y }), [1, 1, 0, 0, 0], "{cell}");
    }
    for cell in [own_cell - 1.0, own_cell + 1.0] {
        let [all, not_searched, no_cost, below, beaten] = answers(&changed(&with_cell(&file, x, y, cell)), &[], Verdict::No { x, y })[..]
        else {
            panic!("five counts")
        };
        assert_eq!((all, not_searched, no_cost, below + beaten), (1, 0, 0, 1), "{cell}");
        let lax = answers(&changed(&with_cell(&file, x, y, cell)), &["--min-correlation", "-1"], Verdict::No { x, y });
        assert_eq!(lax, [1, 0, 0, 0, 1], "{cell}");
    }
    for blank in [f32::NAN, f32::INFINITY, f32::NEG_INFINITY] {
        answers(&changed(&with_cell(&file, x, y, blank)), &[], Verdict::Yes);
    }
    // the window leaves the picture at its corners; of two cells the upper is named, though the other is further to the left
    for (x, y) in [(0, 0), (199, 0), (0, 149), (199, 149)] {
        assert_eq!(answers(&changed(&with_cell(&file, x, y, 5.0)), &[], Verdict::No { x, y }), [1, 0, 1, 0, 0]);
    }
    let two = with_cell(&with_cell(&file, 20, 60, 24.0), 150, 40, 24.0);
    assert_eq!(answers(&changed(&two), &[], Verdict::No { x: 150, y: 40 }), [2, 2, 0, 0, 0]);
}

/// With another search, block or least correlation the map does not pass; the cell is the library's, and the counts are those of the
/// whole raw volume.
#[test]
fn a_check_heeds_its_options() {
    let file = whole_map("heeded.pfm");
    let map = read_pfm(&fs::read(&file).expect("the map")).expect("a map");
    let Scene { width, height, left, right } = Scene::example();
    let picture = |bytes| Picture { bytes, width, height };
    let made = Options { num_disparities: 24, ..Options::default() };
    let others = [
        (["--min-disparity", "6"], Options { min_disparity: 6, ..made }),
        (["--num-disparities", "18"], Options { num_disparities: 18, ..made }),
        (["--block-size", "9"], Options { block_size: 9, ..made }),
        (["--min-correlation", "0.9"], Options { min_correlation: 0.9, ..made }),
    ];
    for (words, options) in others {
        let verdict = check_vendor(picture(&left), picture(&right), &options, map.map()).expect("the map is accepted");
        assert_ne!(verdict, Verdict::Yes, "{words:?}");
        let volume = raw_volume(picture(&left), picture(&right), &options, false).expect("the pair is accepted");
        assert_eq!(answers(&file, &words, verdict), counted(&map.cells, &volume, &options), "{words:?}");
    }
}

/// The bad cells of a map by the request's text, over the whole raw volume: all, and by the first reason that applies.
fn counted(cells: &[f32], volume: &[f32], options: &Options) -> Vec<usize> {
    let mut counts = vec![0; 5];
    for (at, cell) in cells.iter().enumerate().filter(|(_, cell)| cell.is_finite()) {
        let costs: Vec<f32> = volume.iter().skip(at).step_by(cells.len()).copied().collect();
        let index = (0..costs.len()).find(|k| (options.min_disparity + *k as i32) as f32 == *cell);
        let reason = match index.map(|k| costs[k]) {
            None => 1,
            Some(cost) if cost.is_infinite() => 2,
            Some(cost) if cost < options.min_correlation => 3,
            Some(cost) if costs.iter().any(|other| *other > cost) => 4,
            Some(_) => continue,
        };
        counts[0] += 1;
        counts[reason] += 1;
    }
    counts
}

#[test]
fn checks_that_are_refused() {
    let refused = |left: &str, right: &str, map: &Path, options: &[&str], said: &[&str]| {
        fails(&[&["check", left, right, text_of(map)], &SEARCH[..], options].concat(), said);
    };
    let whole = whole_map("whole_for_refusals.pfm");
    let all = |map: &Path| format!("{LEFT}, {RIGHT} and {}: refused, ", map.display());

    let file = fs::read(&whole).expect("the map");
    let turned = [b"Pf\n150 200\n-1.0\n", &file[file.len() - 4 * 200 * 150..]].concat();
    for (name, bytes) in [("turned_map.pfm", &turned[..]), ("small_map.pfm", b"Pf\n1 1\n-1.0\n\0\0\x80\x7F")] {
        let map = PathBuf::from(written(name, bytes));
        refused(LEFT, RIGHT, &map, &[], &[&format!("plombrisa: {}23: ", all(&map))]);
    }
    let malformed: [(&str, &[u8], &str, &str); 6] = [
        ("empty", b"", "41", "the file is empty"),
        ("colours", b"PF\n1 1\n-1.0\n\0\0\0\0\0\0\0\0\0\0\0\0", "41", "a PFM file in colours"),
        ("header", b"Pf\n1\n", "41", "a PFM file whose header is cut or malformed"),
        ("no_width", b"Pf\n0 1\n-1.0\n", "43", "the header says 0 1 -1.0"),
        ("cut", b"Pf\n2 1\n-1.0\n\0\0\0\0", "44", "the data are cut: 4 bytes are missing of 8"),
        ("left_over", b"Pf\n1 1\n-1.0\n\0\0\0\0abc", "44", "3 bytes are left over behind the 4 of the data"),
    ];
    for (name, bytes, number, more) in malformed {
        let map = PathBuf::from(written(&format!("{name}_map.pfm"), bytes));
        refused(LEFT, RIGHT, &map, &[], &[&format!("{}: refused, {number}: ", map.display()), more]);
    }
    refused(LEFT, RIGHT, Path::new(RIGHT), &[], &[&format!("{RIGHT}: refused, 41: "), "it is a PGM picture"]);
    refused(LEFT, RIGHT, Path::new("/nowhere/map.pfm"), &[], &["/nowhere/map.pfm: cannot be read: "]);

    let map_name = text_of(&whole);
    refused(map_name, RIGHT, &whole, &[], &[&format!("{map_name}: refused, 41: ")]);
    refused(LEFT, "/nowhere/right.pgm", &whole, &[], &["/nowhere/right.pgm: cannot be read: "]);
    refused(LEFT, RIGHT, &whole, &["--block-size", "4"], &[&format!("{}4: ", all(&whole))]);
    refused(LEFT, RIGHT, &whole, &["--num-disparities", &(COUNT_MOST + 1).to_string()], &[&format!("{}7: ", all(&whole))]);
}
