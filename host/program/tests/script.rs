//! The script of the repository's root: it starts the program with the words given, from any folder. What is missing it has proved and
//! built first; where these tests run, everything is there.
mod common;

use common::*;
use std::fs;
use std::path::Path;
use std::process::Command;

#[test]
fn it_starts_the_program_from_any_folder() {
    let script = Path::new(env!("CARGO_MANIFEST_DIR")).join("../../plombrisa");
    let folder = folder("elsewhere");
    fs::copy(LEFT, folder.join("left.pgm")).expect("a copy");
    fs::copy(RIGHT, folder.join("right picture.pgm")).expect("a copy");
    let words = ["match", "left.pgm", "right picture.pgm", "map.pfm", "--num-disparities=24"];
    let output = Command::new(script).args(words).current_dir(&folder).output().expect("the script runs");
    let [out, err] = [output.stdout, output.stderr].map(|bytes| String::from_utf8(bytes).expect("text"));
    assert_eq!((output.status.code(), out.as_str()), (Some(0), "size: 200 by 150\ncover: 885 of 1000\n"), "{err}");
    assert!(fs::read(folder.join("map.pfm")).expect("the map").starts_with(b"Pf\n200 150\n"));
}
