//! Out of memory: a sentence with the bytes that are needed, exit status 1, and no file written.
mod common;

use common::*;
use plombrisa::match_bytes;
use runs::program::emulator;
use std::io::{Write, stderr};
use std::process::Command;

/// Digits in threes, as the documents write numbers.
fn grouped(number: u64) -> String {
    let digits = number.to_string();
    let (first, rest) = digits.split_at((digits.len() - 1) % 3 + 1);
    rest.as_bytes().chunks(3).fold(String::from(first), |text, three| format!("{text},{}", std::str::from_utf8(three).expect("digits")))
}

#[test]
fn a_match_that_there_is_no_memory_for() {
    if emulator().is_some() {
        writeln!(stderr(), "\nNOT RUN: a match without memory: the emulator itself takes more than the limit").expect("standard error");
        return;
    }
    let picture = written("large.pgm", &[&b"P5 2048 2048 255\n"[..], &[7; 2048 * 2048]].concat());
    let map = own("without_memory.pfm");
    let words = format!("match {picture} {picture} {} --num-disparities 256 --semi-global", text_of(&map));
    let line = format!("ulimit -v 1000000; exec '{}' {words}", env!("CARGO_BIN_EXE_plombrisa"));
    let output = Command::new("sh").args(["-c", &line]).output().expect("a shell");
    let said = String::from_utf8(output.stderr).expect("text");
    let bytes = grouped(match_bytes(2048, 2048, 256, true));
    assert_eq!(said, format!("plombrisa: {picture} and {picture}: out of memory: {bytes} bytes are needed\n"));
    assert!(output.status.code() == Some(1) && output.stdout.is_empty() && !map.exists());
}
