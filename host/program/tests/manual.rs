//! The manual page: no complaint of the program that checks it, and every option of the program in it.
mod common;

use common::*;
use std::path::Path;
use std::process::{Command, Output};

const PAGE: &str = concat!(env!("CARGO_MANIFEST_DIR"), "/../../man/plombrisa.1");

fn there(command: &str) -> bool {
    Command::new("sh").args(["-c", &format!("command -v {command}")]).output().expect("a shell").status.success()
}

/// What checks the page: mandoc, or else man.
fn checked() -> Output {
    if there("mandoc") {
        return Command::new("mandoc").args(["-Tlint", "-Wwarning", PAGE]).output().expect("mandoc runs");
    }
    assert!(there("man"), "neither mandoc nor man is here: apt-get install mandoc");
    Command::new("man").args(["--warnings", "-E", "UTF-8", "-l", "-Tutf8", "-Z", PAGE]).output().expect("man runs")
}

#[test]
fn nothing_is_wrong_with_it() {
    let output = checked();
    let complaints = if there("mandoc") { &output.stdout } else { &output.stderr };
    assert!(output.status.success() && complaints.is_empty(), "{}", String::from_utf8_lossy(complaints));
}

#[test]
fn it_has_every_option_verb_and_status() {
    let page = std::fs::read_to_string(Path::new(PAGE)).expect("the page").replace("\\-", "-");
    assert!(page.contains(&format!("\"plombrisa {}\"", env!("CARGO_PKG_VERSION"))), "the version");
    for verb in [&["match"][..], &["volume"], &["points"], &["check"], &["sheet", "write"], &["sheet", "read"]] {
        assert!(page.contains(&format!(".B plombrisa {}", verb.join(" "))), "{verb:?}");
        let help = printed(&[verb, &["--help"]].concat());
        let options = help.split(|c: char| !c.is_ascii_alphanumeric() && c != '-').filter(|word| word.starts_with("--"));
        for option in options {
            let named = page.split(|c: char| !c.is_ascii_alphanumeric() && c != '-').any(|word| word == option);
            assert!(named, "{option} of {verb:?}");
        }
    }
    for status in 0..4 {
        assert!(page.contains(&format!(".TP\n.B {status}\n")), "status {status}");
    }
}
