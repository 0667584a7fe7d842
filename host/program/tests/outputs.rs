//! Outputs: tried before the work, written whole or not at all, never over an input; `-` for standard input and output.
mod common;

use common::*;
use std::fs;
use std::os::unix::fs::{PermissionsExt, symlink};

#[test]
fn files_that_are_not_there_or_cannot_be_written() {
    let folder = folder("unwritable");
    let map = folder.join("map.pfm");
    let map = text_of(&map);
    fails(&["match", "/nowhere/left.pgm", RIGHT, map], &["/nowhere/left.pgm: cannot be read: "]);
    fails(&["match", LEFT, env!("CARGO_TARGET_TMPDIR"), map], &["cannot be read: "]);
    fails(&["match", LEFT, RIGHT, "/nowhere/map.pfm"], &["/nowhere/map.pfm: cannot be written: "]);
    fails(&["match", LEFT, RIGHT, map, "/nowhere/preview.png"], &["/nowhere/preview.png: cannot be written: "]);
    fails(&["match", LEFT, RIGHT, text_of(&folder)], &["cannot be written: "]);
    let round_about = folder.join("../unwritable/map.pfm");
    for twice in [map, text_of(&round_about)] {
        fails(&["match", LEFT, RIGHT, map, twice], &["map.pfm: is named for two outputs"]);
    }
    // tried before the work: a picture that is no picture is not looked at
    let bad = written("bad_beside.pgm", b"P2");
    fails(&["match", &bad, RIGHT, "/nowhere/map.pfm"], &["/nowhere/map.pfm: cannot be written: "]);
    assert_eq!(names_in(&folder), [""; 0], "something was left behind");
}

/// A refused call leaves the file that was there, and none beside it; an accepted one takes its place, with its rights.
#[test]
fn whole_or_not_at_all() {
    let folder = folder("whole");
    let map = folder.join("map.pfm");
    fs::write(&map, b"the old map").expect("the file can be written");
    fs::set_permissions(&map, fs::Permissions::from_mode(0o640)).expect("its rights can be set");
    fails(&["match", LEFT, RIGHT, text_of(&map), "--block-size", "4"], &["refused, 4: "]);
    assert_eq!((fs::read(&map).expect("the map"), names_in(&folder)), (b"the old map".to_vec(), vec![String::from("map.pfm")]));
    printed(&["match", LEFT, RIGHT, text_of(&map)]);
    assert!(fs::read(&map).expect("the map").starts_with(b"Pf\n200 150\n"));
    assert_eq!(fs::metadata(&map).expect("the map").permissions().mode() & 0o777, 0o640);
    assert_eq!(names_in(&folder), ["map.pfm"]);
}

#[test]
fn never_over_an_input() {
    let folder = folder("inputs");
    let (left, right, link) = (folder.join("left.pgm"), folder.join("right.pgm"), folder.join("link.pfm"));
    fs::copy(LEFT, &left).expect("a copy");
    fs::copy(RIGHT, &right).expect("a copy");
    symlink(&left, &link).expect("a link");
    let hard = folder.join("hard.pfm");
    fs::hard_link(&right, &hard).expect("a link");
    let round_about = folder.join("../inputs/left.pgm");
    let rig = folder.join("rig.txt");
    fs::write(&rig, "num-disparities = 24\n").expect("the file can be written");
    for output in [&left, &right, &link, &hard, &round_about, &rig] {
        let words = ["match", text_of(&left), text_of(&right), text_of(output), "--rig", text_of(&rig)];
        fails(&words, &["is read, and would be written over"]);
    }
    assert!(fs::read(&left).expect("it") == fs::read(LEFT).expect("it") && fs::read(&right).expect("it") == fs::read(RIGHT).expect("it"));
    assert_eq!(names_in(&folder), ["hard.pfm", "left.pgm", "link.pfm", "rig.txt", "right.pgm"]);
}

/// A link to an output is followed: the file that it names is written.
#[test]
fn through_a_link() {
    let folder = folder("links");
    let (real, link) = (folder.join("real.pfm"), folder.join("link.pfm"));
    fs::write(&real, b"old").expect("the file can be written");
    symlink(&real, &link).expect("a link");
    printed(&["match", LEFT, RIGHT, text_of(&link)]);
    assert!(fs::read(&real).expect("the map").starts_with(b"Pf\n") && fs::symlink_metadata(&link).expect("it").is_symlink());
}

/// Standard input and output in the place of files; text goes to standard error then, and a device is written as it is.
#[test]
fn standard_input_and_output() {
    let map = own("by_file.pfm");
    let report = printed(&[&["match", LEFT, RIGHT, text_of(&map)], &SEARCH[..]].concat());
    let file = fs::read(&map).expect("the map");
    let left = fs::read(LEFT).expect("the left picture");
    let ended = started_with(&[&["match", "-", RIGHT, "-"], &SEARCH[..]].concat(), &left);
    assert_eq!((ended.status, &ended.err), (Some(0), &report));
    assert!(ended.bytes == file);
    let ended = started_with(&[&["match", "-", RIGHT, "-", "--quiet"], &SEARCH[..]].concat(), &left);
    assert_eq!((ended.status, ended.err.as_str()), (Some(0), ""));
    assert!(ended.bytes == file);
    assert_eq!(printed(&[&["match", LEFT, RIGHT, "/dev/null"], &SEARCH[..]].concat()), report);
    let ended = started_with(&["match", "-", RIGHT, "-"], b"\x89PNG");
    assert_eq!((ended.status, ended.bytes.len()), (Some(1), 0));
    assert!(ended.err.contains("standard input: refused, 41: ") && ended.err.contains("a PNG picture"), "{}", ended.err);
}
