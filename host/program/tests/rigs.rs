//! Rig files: what stands in them is read, options on the line win, and a search range that the rig outgrew is warned of.
mod common;

use common::*;
use std::fs;

/// The example's rig: fx times the baseline is 30, so that the floor is at disparity 5 and a heap of 4.5 m reaches 20.
const RIG: &str = "\
# the example's rig
rig = north yard
mount = gantry 2
moved = 2026-03-02
lens-height = 6
tallest-heap = 4.5
fx = 60
fy = 60
cx = 100
cy = 75
baseline = 0.5
left = -7000
right = 7000
top = -7000
bottom = 7000
cell = 250
num-disparities = 24
semi-global = yes
lr = no
";

fn rig(name: &str, text: &str) -> String {
    written(name, text.as_bytes())
}

#[test]
fn a_rig_file_stands_for_its_options() {
    let rig = rig("rig.txt", RIG);
    let by_rig = printed(&["volume", LEFT, RIGHT, "--rig", &rig]);
    let words = [&["volume", LEFT, RIGHT, "--semi-global", "--no-lr"], &SEARCH[..], &CAMERA, &SITE].concat();
    assert_eq!(by_rig, printed(&words));
    // the line wins, be it before or behind
    let block = printed(&[&["volume", LEFT, RIGHT], &SEARCH[..], &CAMERA, &SITE].concat());
    assert_eq!(printed(&["volume", "--block", "--lr", LEFT, RIGHT, "--rig", &rig]), block);
    assert_eq!(printed(&["volume", "--rig", &rig, LEFT, RIGHT, "--block", "--lr"]), block);
}

/// Every verb takes a rig file, and reads of it what it has use for.
#[test]
fn every_verb_takes_it() {
    let rig = &rig("every.txt", &format!("{RIG}subpixel = no\n"));
    let [map, ply, sheet, back] = ["rig.pfm", "rig.ply", "rig.sheet", "rig_back.pfm"].map(own);
    let [map, ply, sheet, back] = [&map, &ply, &sheet, &back].map(|file| text_of(file));
    assert_eq!(printed(&["match", LEFT, RIGHT, map, "--rig", rig, "--block", "--lr"]), "size: 200 by 150\ncover: 885 of 1000\n");
    assert_eq!(printed(&["check", LEFT, RIGHT, map, "--rig", rig]), "yes\n");
    assert!(printed(&["points", LEFT, RIGHT, ply, "--rig", rig]).starts_with("points: "));
    assert!(printed(&["sheet", "write", map, sheet, "--rig", rig]).starts_with("size: "));
    assert!(printed(&["sheet", "read", sheet, back, "--rig", rig]).starts_with("size: "));
}

/// The incident: the rig was moved, and the old search range stayed on the form. The planner's map has a figure everywhere all the same.
#[test]
fn a_range_that_does_not_hold_the_heap_is_warned_of() {
    let rig = rig("moved.txt", &RIG.replace("num-disparities = 24", "num-disparities = 16"));
    let map = own("moved.pfm");
    let warning = "plombrisa: warning: rig north yard (gantry 2), last moved 2026-03-02: with the lens 6 m above the floor and heaps of up \
                   to 4.5 m, disparities 5 to 20 can occur, and 0 to 15 are searched: the map is wrong or has holes where they lie \
                   outside. --min-disparity 5 --num-disparities 16 holds them\n";
    for quiet in [&[][..], &["--quiet"]] {
        let ended = started(&[&["match", LEFT, RIGHT, text_of(&map), "--rig", &rig], quiet].concat());
        assert_eq!((ended.status, ended.err.as_str()), (Some(0), warning));
    }
    let with_warning = fs::read(&map).expect("the map");
    printed(&["match", LEFT, RIGHT, text_of(&map), "--semi-global", "--no-lr", "--num-disparities", "16"]);
    assert!(with_warning == fs::read(&map).expect("the map"), "the warning changed the map");
    printed(&["match", LEFT, RIGHT, text_of(&map), "--rig", &rig, "--min-disparity=5", "--num-disparities=16"]);
    let check = started(&["check", LEFT, RIGHT, text_of(&map), "--rig", &rig]);
    assert!(check.err == warning && check.status == Some(3), "{}", check.err);
    let on_the_line = ["--fx", "60", "--baseline", "0.5", "--lens-height", "6", "--tallest-heap", "4.5", "--num-disparities", "16"];
    let ended = started(&[&["match", LEFT, RIGHT, text_of(&map)], &on_the_line[..]].concat());
    assert!(ended.status == Some(0) && ended.err.contains("warning: this rig: with the lens 6 m"), "{}", ended.err);
}

#[test]
fn a_floor_that_is_not_the_lens_height_is_warned_of() {
    let rig = rig("floor.txt", &format!("{RIG}floor = 5000\n"));
    let ended = started(&["volume", LEFT, RIGHT, "--rig", &rig]);
    assert_eq!(ended.status, Some(0));
    for part in ["warning: rig north yard", "the floor is 5000 mm deep, and the lens 6 m"] {
        assert!(ended.err.contains(part), "{}", ended.err);
    }
}

#[test]
fn rig_files_that_are_none() {
    let map = own("unwritten_rig.pfm");
    let unfit: [(&str, &[u8], &str); 4] = [
        ("bad_name.txt", b"rig = a\nfocus = 3\n", ": line 2: focus is not a name of a rig file"),
        ("bad_value.txt", b"fx = wide\n", ": line 1: fx does not take the value wide"),
        ("no_value.txt", b"rig\n", ": line 1: rig: no = between a name and a value"),
        ("no_text.txt", b"rig = \xFF\n", ": is no text"),
    ];
    for (name, bytes, said) in unfit {
        let rig = written(name, bytes);
        fails(&["match", LEFT, RIGHT, text_of(&map), "--rig", &rig], &[&format!("{rig}{said}")]);
    }
    fails(&["match", LEFT, RIGHT, text_of(&map), "--rig", "/nowhere/rig.txt"], &["/nowhere/rig.txt: cannot be read: "]);
    assert!(!map.exists());
}
