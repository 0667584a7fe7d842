//! The Netpbm commands that the program names for pictures of other formats, tried with Netpbm where it is here.
mod common;

use common::*;
use std::fs;
use std::io::{Write, stderr};
use std::path::Path;
use std::process::Command;

/// A format, how Netpbm makes a file of it from the example's left picture, and whether it keeps every level.
const FORMATS: [(&str, &str, bool); 9] = [
    ("ppm", "pgmtoppm white LEFT", true),
    ("plain_ppm", "pgmtoppm white LEFT | pnmtoplainpnm", true),
    ("plain_pgm", "pnmtoplainpnm LEFT", true),
    ("deep_pgm", "pamdepth 65535 LEFT", true),
    ("shallow_pgm", "pamdepth 254 LEFT", false),
    ("png", "pnmtopng LEFT", true),
    ("jpeg", "pnmtojpeg LEFT", false),
    ("tiff", "pnmtotiff LEFT", true),
    ("bmp", "pgmtoppm white LEFT | ppmtobmp", true),
];

fn shell(line: &str) -> bool {
    Command::new("sh").args(["-c", line]).output().expect("a shell").status.success()
}

/// The command that the program names for a file that it does not read.
fn named_for(file: &str) -> String {
    let ended = started(&["match", file, RIGHT, text_of(&own("unconverted.pfm"))]);
    assert_eq!(ended.status, Some(1), "{file}: {}", ended.err);
    let (_, behind) = ended.err.rsplit_once(": ").expect("a command");
    String::from(behind.split_once(" > NEW.pgm converts it").unwrap_or_else(|| panic!("{file}: {}", ended.err)).0)
}

#[test]
fn what_is_named_converts() {
    if !shell("command -v pamdepth") {
        writeln!(stderr(), "\nNOT RUN: the conversions that the program names: Netpbm is not here").expect("standard error can be written");
        return;
    }
    let (left, map) = (fs::read(Path::new(LEFT)).expect("the left picture"), own("converted.pfm"));
    for (name, made_by, kept) in FORMATS {
        let (file, new) = (own(&format!("left.{name}")), own(&format!("{name}_converted.pgm")));
        assert!(shell(&format!("({}) > {}", made_by.replace("LEFT", LEFT), text_of(&file))), "{name}: {made_by}");
        let command = named_for(text_of(&file));
        assert!(shell(&format!("({command}) > {}", text_of(&new))), "{name}: {command}");
        let levels = fs::read(&new).expect("the converted picture");
        assert!(!kept || levels.ends_with(&left[left.len() - 200 * 150..]), "{name}: other levels");
        printed(&[&["match", text_of(&new), RIGHT, text_of(&map)], &SEARCH[..]].concat());
    }
}
