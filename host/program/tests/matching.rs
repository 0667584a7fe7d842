//! `plombrisa match`: on the example in both modes, and on files and words that it must turn away.
mod common;

use common::*;
use heap::colours;
use heap::scene::Scene;
use plombrisa::{Map, Options, Picture, cover, match_block, read_pfm, valid_range};
use runs::limits::{BLOCK_MOST, COUNT_MOST, FIRST_MOST, SIDE_MOST};
use std::fs;
use std::path::PathBuf;

/// A run on these pictures, with a map and a preview of this name.
fn matched(left: &str, right: &str, name: &str, options: &[&str]) -> (Ended, PathBuf, PathBuf) {
    let (map, preview) = (own(&format!("{name}.pfm")), own(&format!("{name}.png")));
    for file in [&map, &preview] {
        let _ = fs::remove_file(file);
    }
    let files = ["match", left, right, text_of(&map), text_of(&preview)];
    (started(&[&files, options].concat()), map, preview)
}

/// The program turns something away: status 1, the words in what it says, and no file written.
fn turned_away(left: &str, right: &str, name: &str, options: &[&str], words: &[&str]) {
    let (ended, map, preview) = matched(left, right, name, options);
    assert_eq!(ended.status, Some(1), "{name}: {}", ended.err);
    for word in words {
        assert!(ended.err.contains(word), "{name}: {:?} does not say {word:?}", ended.err);
    }
    assert!(ended.bytes.is_empty() && !map.exists() && !preview.exists(), "{name}");
    assert!(!ended.err.contains("panicked"), "{name}: {}", ended.err);
}

#[test]
fn the_example_is_the_scene() {
    let [left, right] = Scene::example().pgm_files();
    assert!(fs::read(LEFT).expect("the left picture") == left, "example/left.pgm is not what `heap pair` writes");
    assert!(fs::read(RIGHT).expect("the right picture") == right, "example/right.pgm is not what `heap pair` writes");
}

/// The program's map is `match_block`'s, each hole as plus infinity; the preview is the map in colours; the cover is the library's.
fn on_the_example(name: &str, words: &[&str], options: Options) {
    let (ended, map_file, preview) = matched(LEFT, RIGHT, name, words);
    assert_eq!((ended.status, ended.err.as_str()), (Some(0), ""), "{name}");

    let scene = Scene::example();
    let (width, height) = (scene.width, scene.height);
    let picture = |bytes| Picture { bytes, width, height };
    let cells = match_block(picture(&scene.left), picture(&scene.right), &options).expect("the pair is accepted");
    let permille = cover(Map { cells: &cells, width, height }, options.block_size).expect("a map");
    assert_eq!(ended.out(), format!("size: 200 by 150\ncover: {permille} of 1000\n"), "{name}");

    let written = fs::read(map_file).expect("the map");
    let mut expected = b"Pf\n200 150\n-1.0\n".to_vec();
    for row in cells.chunks(width).rev() {
        let hole = f32::INFINITY;
        row.iter().for_each(|cell| expected.extend(if cell.is_nan() { hole } else { *cell }.to_le_bytes()));
    }
    assert!(written == expected, "{name}: the map is another");
    assert!(cells.iter().any(|cell| cell.is_nan()) && cells.iter().any(|cell| cell.is_finite()), "{name}");

    let map = read_pfm(&written).expect("the map reads back");
    let same = |(a, b): (&f32, &f32)| a.to_bits() == b.to_bits() || (a.is_nan() && b.is_nan());
    assert!((map.width, map.height) == (width, height) && map.cells.iter().zip(&cells).all(same), "{name}");
    is_drawn(name, &fs::read(preview).expect("the preview"), Map { cells: &cells, width, height });
}

/// The rows of colours of a PNG file that host/heap wrote, read by PNG's own description: behind IDAT two bytes of zlib's and then stored
/// blocks, each with a byte and two lengths before it; in them the rows, each with a byte of its own before its pixels.
fn colours_of(png: &[u8]) -> Vec<Vec<[u8; 3]>> {
    let number = |at: usize| u32::from_be_bytes(png[at..at + 4].try_into().expect("four bytes")) as usize;
    assert!(png.starts_with(b"\x89PNG\r\n\x1a\n\0\0\0\x0DIHDR") && png[24..29] == [8, 2, 0, 0, 0], "a PNG of three colours");
    let (width, length) = (number(16), number(33));
    assert_eq!(&png[37..41], b"IDAT");
    let mut blocks = &png[43..41 + length - 4];
    let mut bytes = Vec::new();
    while let [_, low, high, _, _, rest @ ..] = blocks {
        let (block, behind) = rest.split_at(usize::from(u16::from_le_bytes([*low, *high])));
        bytes.extend(block);
        blocks = behind;
    }
    let colour = |three: &[u8]| [three[0], three[1], three[2]];
    bytes.chunks(1 + 3 * width).map(|row| row[1..].chunks(3).map(colour).collect()).collect()
}

/// The preview shows the map in colours of its own range, and below it a scale from the darkest to the brightest.
fn is_drawn(name: &str, png: &[u8], map: Map) {
    let rows = colours_of(png);
    let (least, greatest) = valid_range(map).expect("a map").expect("a valid cell");
    let of_cells = |row: &[f32]| row.iter().map(|&cell| colours::of_cell(cell, least, greatest)).collect::<Vec<[u8; 3]>>();
    assert!(rows[..map.height].iter().zip(map.cells.chunks(map.width)).all(|(row, cells)| *row == of_cells(cells)), "{name}");
    let scale = &rows[map.height..];
    let bar = scale.iter().find(|row| row[0] == colours::of_cell(least, least, greatest)).expect("a scale");
    assert_eq!(bar.last(), Some(&colours::of_cell(greatest, least, greatest)), "{name}");
    let inked = |columns: std::ops::Range<usize>| scale.iter().any(|row| row[columns.clone()].contains(&[0; 3]));
    assert!(inked(0..40) && inked(map.width - 40..map.width), "{name}: no figures at the scale's ends");
}

#[test]
fn the_example_in_block_mode() {
    on_the_example("block", &SEARCH, Options { num_disparities: 24, ..Options::default() });
    let small = Options { num_disparities: 24, block_size: 5, ..Options::default() };
    on_the_example("joined", &["--num-disparities=24", "--block-size=5"], small);
    on_the_example("defaults", &[], Options::default());
}

#[test]
fn the_example_in_semi_global_mode() {
    let options = Options { num_disparities: 24, semi_global: true, lr_consistency: false, ..Options::default() };
    on_the_example("semi_global", &["--semi-global", "--no-lr", "--num-disparities", "24"], options);
    let whole = Options { subpixel: false, lr_consistency: true, min_disparity: -2, block_size: 5, ..options };
    let words = ["--semi-global", "--no-subpixel", "--num-disparities", "24", "--min-disparity", "-2", "--block-size", "5"];
    on_the_example("whole", &words, whole);
}

/// A preview can be left out, and of a map without a figure, or narrower than its scale, there is one all the same.
#[test]
fn previews_of_small_maps_and_none() {
    let map = own("no_preview.pfm");
    assert_eq!(printed(&["match", LEFT, RIGHT, text_of(&map), "--num-disparities", "24"]), "size: 200 by 150\ncover: 885 of 1000\n");
    let level = written("one_level.pgm", b"P5 3 3 255\naaaaaaaaa");
    let (ended, _, preview) = matched(&level, &level, "one_level", &["--block-size", "3", "--quiet"]);
    assert_eq!((ended.status, ended.err.as_str(), ended.bytes.len()), (Some(0), "", 0));
    assert_eq!(colours_of(&fs::read(preview).expect("the preview")), vec![vec![colours::HOLE; 3]; 3]);
    let (ended, _, preview) = matched(&level, &level, "narrow", &["--block-size", "3", "--semi-global", "--quiet"]);
    assert_eq!((ended.status, ended.err.as_str()), (Some(0), ""));
    let rows = colours_of(&fs::read(preview).expect("the preview"));
    assert!(rows.len() > 3 && rows.iter().all(|row| row.len() == rows[0].len() && row.len() >= 72), "{}", rows[0].len());
}

#[test]
fn hints_that_change_nothing() {
    let hinted = |left, right, name, options: &[&str], hint: &str| {
        let words = [&SEARCH[..], options].concat();
        let (ended, map, _) = matched(left, right, name, &words);
        assert_eq!(ended.status, Some(0), "{name}");
        assert!(ended.err.starts_with("plombrisa: hint: ") && ended.err.contains(hint), "{name}: {}", ended.err);
        let with_hint = fs::read(&map).expect("the map");
        let (ended, map, _) = matched(left, right, name, &[&words[..], &["--quiet"]].concat());
        assert_eq!((ended.status, ended.err.as_str(), ended.bytes.len()), (Some(0), "", 0), "{name}");
        assert!(with_hint == fs::read(&map).expect("the map"), "{name}: the hint changed the map");
    };
    for mode in [&["--block"][..], &["--semi-global", "--no-lr"]] {
        hinted(RIGHT, LEFT, "exchanged", mode, "the two pictures look exchanged: 3 of 1000 cells");
        let far = [mode, &["--min-disparity", "30"]].concat();
        hinted(LEFT, RIGHT, "range", &far, "the search, disparities 30 to 53, may not fit the rig");
    }
}

#[test]
fn malformed_files_are_named_with_their_refusal_and_what_they_are() {
    let too_wide = format!("P5\n{} 1\n255\n", SIDE_MOST + 1);
    let hand_made: [(&str, &[u8], &str, &str); 18] = [
        ("empty", b"", "41", "the file is empty"),
        ("plain", b"P2\n2 1\n255\n7 8\n", "41", "it is a plain PGM picture: pnmtopnm "),
        ("colours", b"P6\n1 1\n255\nabc", "41", "it is a PPM picture in colours: ppmtopgm "),
        ("plain_colours", b"P3\n1 1\n255\n1 2 3\n", "41", "it is a plain PPM picture in colours: ppmtopgm "),
        ("png", b"\x89PNG\r\n\x1a\n", "41", "it is a PNG picture: pngtopam "),
        ("jpeg", b"\xFF\xD8\xFF\xE0", "41", "it is a JPEG picture: jpegtopnm "),
        ("tiff", b"II*\0", "41", "it is a TIFF picture: tifftopnm "),
        ("bitmap", b"P4\n8 1\na", "41", "it is a PBM bitmap"),
        ("map", b"Pf\n1 1\n-1.0\n\0\0\0\0", "41", "it is a PFM map and no picture"),
        ("text", b"two cameras", "41", "it is no picture of a format that is known here"),
        ("cut_header", b"P5\n2 1\n25", "41", "a PGM file whose header is cut or malformed"),
        ("comment_behind", b"P5\n2 1\n255#\nab", "41", "a PGM file whose header is cut or malformed"),
        ("maximum", b"P5\n2 1\n254\nab", "42", "its levels do not go to 255: pamdepth 255 "),
        ("two_bytes", b"P5 # deep\n2 1\n65535\nabcd", "42", "it is a 16-bit PGM picture: pamdepth 255 "),
        ("no_width", b"P5\n0 1\n255\n", "43", "the header says 0 1 255"),
        ("too_wide", too_wide.as_bytes(), "43", "the header says "),
        ("cut", b"P5\n2 # wide\n3\n255\nabcd", "44", "the data are cut: 2 bytes are missing of 6"),
        ("left_over", b"P5\n2 1\n255\nabc", "44", "1 byte is left over behind the 2 of the data"),
    ];
    for (name, bytes, number, more) in hand_made {
        let file = written(&format!("{name}.pgm"), bytes);
        let said = format!("{file}: refused, {number}: ");
        turned_away(&file, RIGHT, &format!("{name}_left"), &[], &[&said, more]);
        turned_away(LEFT, &file, &format!("{name}_right"), &[], &[&said, more]);
    }
}

#[test]
fn pictures_that_the_matcher_refuses() {
    let small = &written("small.pgm", b"P5 2 1 255\nab");
    turned_away(LEFT, small, "sizes", &[], &[LEFT, small, "refused, 3: "]);
    turned_away(small, small, "small", &[], &[small, "refused, 8: "]);
    turned_away(LEFT, RIGHT, "even", &["--block-size", "4"], &[LEFT, RIGHT, "refused, 4: "]);
    turned_away(LEFT, RIGHT, "large", &["--block-size", &(BLOCK_MOST + 2).to_string()], &["refused, 5: "]);
    turned_away(LEFT, RIGHT, "none", &["--num-disparities", "0"], &["refused, 6: "]);
    turned_away(LEFT, RIGHT, "many", &["--num-disparities", &(COUNT_MOST + 1).to_string()], &["refused, 7: "]);
    turned_away(LEFT, RIGHT, "first", &["--min-disparity", &(FIRST_MOST + 1).to_string()], &["refused, 9: "]);
    turned_away(LEFT, RIGHT, "penalty", &["--semi-global", "--sgm-p1", "NaN"], &["refused, 10: "]);
    turned_away(LEFT, RIGHT, "reversed", &["--semi-global", "--sgm-p1", "1.5", "--sgm-p2", "0.1"], &["refused, 13: "]);
}
