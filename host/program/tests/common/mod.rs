//! The program as a user starts it, on files of a test's own.
#![allow(dead_code)]
use runs::program::program_at;
use std::fs;
use std::io::Write;
use std::path::{Path, PathBuf};
use std::process::{Command, Stdio};

pub const LEFT: &str = concat!(env!("CARGO_MANIFEST_DIR"), "/../../example/left.pgm");
pub const RIGHT: &str = concat!(env!("CARGO_MANIFEST_DIR"), "/../../example/right.pgm");

/// How many disparities the example is searched for.
pub const SEARCH: [&str; 2] = ["--num-disparities", "24"];

/// The numbers of the example's camera and site: two cameras half a metre apart and 6 m above the ground.
pub const CAMERA: [&str; 10] = ["--fx", "60", "--fy", "60", "--cx", "100", "--cy", "75", "--baseline", "0.5"];
pub const SITE: [&str; 12] =
    ["--left", "-7000", "--right", "7000", "--top", "-7000", "--bottom", "7000", "--cell", "250", "--floor", "6000"];

/// A file of a test's own.
pub fn own(name: &str) -> PathBuf {
    Path::new(env!("CARGO_TARGET_TMPDIR")).join(name)
}

pub fn text_of(path: &Path) -> &str {
    path.to_str().expect("a name")
}

/// A file of a test's own with these bytes; its name.
pub fn written(name: &str, bytes: &[u8]) -> String {
    let file = own(name);
    fs::write(&file, bytes).expect("the file can be written");
    String::from(text_of(&file))
}

/// An empty folder of a test's own.
pub fn folder(name: &str) -> PathBuf {
    let folder = own(name);
    let _ = fs::remove_dir_all(&folder);
    fs::create_dir_all(&folder).expect("the folder can be made");
    folder
}

/// The names of the files in a folder.
pub fn names_in(folder: &Path) -> Vec<String> {
    let entries = fs::read_dir(folder).expect("the folder").map(|entry| entry.expect("an entry").file_name());
    let mut names: Vec<String> = entries.map(|name| name.into_string().expect("text")).collect();
    names.sort();
    names
}

/// How a run ended: the exit status, and what came on either stream.
#[derive(Debug)]
pub struct Ended {
    pub status: Option<i32>,
    pub bytes: Vec<u8>,
    pub err: String,
}

impl Ended {
    pub fn out(&self) -> String {
        String::from_utf8(self.bytes.clone()).expect("text")
    }
}

pub fn program() -> Command {
    program_at(Path::new(env!("CARGO_BIN_EXE_plombrisa")))
}

/// A run with these words and nothing on standard input.
pub fn started(words: &[&str]) -> Ended {
    started_with(words, b"")
}

/// A run with these words, and these bytes on standard input.
pub fn started_with(words: &[&str], input: &[u8]) -> Ended {
    let mut command = program();
    command.args(words).stdin(Stdio::piped()).stdout(Stdio::piped()).stderr(Stdio::piped());
    let mut child = command.spawn().expect("the program runs");
    // a program that ends before it has read all is no fault of the test
    let _ = child.stdin.take().expect("its input").write_all(input);
    let output = child.wait_with_output().expect("the program ends");
    Ended { status: output.status.code(), bytes: output.stdout, err: String::from_utf8(output.stderr).expect("text") }
}

/// A run that succeeds and says nothing on standard error; what it prints.
pub fn printed(words: &[&str]) -> String {
    let ended = started(words);
    assert_eq!((ended.status, ended.err.as_str()), (Some(0), ""), "{words:?}");
    ended.out()
}

/// A run that fails with status 1, and says each of these.
pub fn fails(words: &[&str], said: &[&str]) {
    let ended = started(words);
    assert_eq!((ended.status, ended.bytes.len()), (Some(1), 0), "{words:?}: {}", ended.err);
    assert!(ended.err.starts_with("plombrisa: ") && !ended.err.contains("panicked"), "{words:?}: {}", ended.err);
    for part in said {
        assert!(ended.err.contains(part), "{words:?}: {:?} does not say {part:?}", ended.err);
    }
}
