//! `plombrisa points`: the PLY file, read back by a reader of its own.
mod common;

use common::*;
use heap::scene::Scene;
use plombrisa::{Intrinsics, Map, Options, Picture, PointRecord, match_block, points};
use std::fs;

/// A PLY file as its description has it: an element with properties of some types, and the values behind the header.
struct Ply {
    properties: Vec<String>,
    vertices: Vec<Vec<f64>>,
}

fn value(kind: &str, bytes: &mut &[u8]) -> f64 {
    let (now, rest) = bytes.split_at(if kind == "double" { 8 } else { 1 });
    *bytes = rest;
    if kind == "double" { f64::from_le_bytes(now.try_into().expect("eight bytes")) } else { f64::from(now[0]) }
}

fn read_ply(file: &[u8]) -> Ply {
    const END: &[u8] = b"end_header\n";
    let end = file.windows(END.len()).position(|part| part == END).expect("the header's end") + END.len();
    let header = std::str::from_utf8(&file[..end]).expect("text");
    let lines: Vec<Vec<&str>> = header.lines().map(|line| line.split(' ').collect()).collect();
    assert_eq!((&lines[0][..], &lines[1][..]), (&["ply"][..], &["format", "binary_little_endian", "1.0"][..]));
    let count = lines.iter().find(|line| line.starts_with(&["element", "vertex"])).expect("vertices")[2].parse().expect("a number");
    let properties: Vec<&Vec<&str>> = lines.iter().filter(|line| line[0] == "property").collect();
    assert!(properties.iter().all(|line| ["double", "uchar"].contains(&line[1])));
    let mut bytes = &file[end..];
    let mut vertex = |_| properties.iter().map(|line| value(line[1], &mut bytes)).collect();
    let vertices = (0..count).map(&mut vertex).collect();
    assert!(bytes.is_empty(), "{} bytes are left over", bytes.len());
    Ply { properties: properties.iter().map(|line| String::from(line[2])).collect(), vertices }
}

/// The points of the example's block map, and the example.
fn expected() -> (Vec<PointRecord>, Scene) {
    let scene = Scene::example();
    let (width, height) = (scene.width, scene.height);
    let picture = |bytes| Picture { bytes, width, height };
    let options = Options { num_disparities: 24, ..Options::default() };
    let cells = match_block(picture(&scene.left), picture(&scene.right), &options).expect("the pair is accepted");
    let camera = Intrinsics { fx: 60.0, fy: 60.0, cx: 100.0, cy: 75.0, baseline: 0.5 };
    (points(Map { cells: &cells, width, height }, &camera).expect("a camera"), scene)
}

/// The file has these points, in their order and bit for bit, with the levels of the left picture as colours where it has colours.
fn holds(file: &[u8], coloured: bool) {
    let (records, scene) = expected();
    let Ply { properties, vertices } = read_ply(file);
    let names = ["x", "y", "z", "red", "green", "blue"];
    assert_eq!(properties, names[..if coloured { 6 } else { 3 }]);
    assert_eq!(vertices.len(), records.len());
    for (vertex, point) in vertices.iter().zip(&records) {
        let level = f64::from(scene.left[point.row * scene.width + point.column]);
        let should = [point.x, point.y, point.z, level, level, level];
        assert!(vertex.iter().zip(should).all(|(a, b)| a.to_bits() == b.to_bits()), "{vertex:?} and not {should:?}");
    }
}

#[test]
fn of_a_pair_and_of_a_map() {
    let (records, _) = expected();
    let report = format!("points: {}\n", records.len());
    let (map, ply) = (own("points.pfm"), own("points.ply"));
    let of_pair = [&["points", LEFT, RIGHT, text_of(&ply)], &SEARCH[..], &CAMERA].concat();
    assert_eq!(printed(&of_pair), report);
    holds(&fs::read(&ply).expect("the points"), true);

    printed(&[&["match", LEFT, RIGHT, text_of(&map)], &SEARCH[..]].concat());
    let of_map = [&["points", "--map", text_of(&map), text_of(&ply)], &CAMERA[..]].concat();
    assert_eq!(printed(&of_map), report);
    holds(&fs::read(&ply).expect("the points"), false);
    assert_eq!(printed(&[&of_map[..], &["--picture", LEFT]].concat()), report);
    holds(&fs::read(&ply).expect("the points"), true);

    let to_standard = [&["points", LEFT, RIGHT, "-"], &SEARCH[..], &CAMERA].concat();
    let ended = started(&to_standard);
    assert_eq!((ended.status, ended.err), (Some(0), report));
    holds(&ended.bytes, true);
}

#[test]
fn points_that_are_refused() {
    let ply = own("unwritten.ply");
    let _ = fs::remove_file(&ply);
    let refused = |more: &[&str], said: &str| {
        fails(&[&["points", LEFT, RIGHT, text_of(&ply)], &SEARCH[..], &CAMERA, more].concat(), &[said]);
        assert!(!ply.exists(), "{more:?}");
    };
    refused(&["--fx", "0"], "the camera: refused, 21: ");
    refused(&["--baseline", "inf"], "the camera: refused, 22: ");
    refused(&["--block-size", "6"], "refused, 4: ");
    let map = written("two_cells.pfm", b"Pf\n2 1\n-1.0\n\0\0\x80\x3F\0\0\x80\x3F");
    let of_map = [&["points", "--map", &map, text_of(&ply)], &CAMERA[..]].concat();
    fails(&[&of_map[..], &["--picture", LEFT]].concat(), &["the picture is not of the map's size"]);
    assert_eq!(printed(&of_map), "points: 2\n");
}
