//! README.md and docs/USE.md: their commands, run here in their order, print what the pages show, and their figures are the program's.
mod common;

use common::*;
use plombrisa::match_bytes;
use std::fs;
use std::io::{Write, stderr};
use std::os::unix::fs::PermissionsExt;
use std::path::{Path, PathBuf};
use std::process::{Command, Output};

fn page(name: &str) -> String {
    fs::read_to_string(Path::new(env!("CARGO_MANIFEST_DIR")).join("../..").join(name)).expect(name)
}

/// A page's text as words with single spaces, to look for a sentence in.
fn running_text(page: &str) -> String {
    page.split_whitespace().collect::<Vec<&str>>().join(" ")
}

/// A folder as the repository's root is: the program, its example, and a folder of rigs.
fn root(name: &str) -> PathBuf {
    let root = folder(name);
    let rig = Path::new(env!("CARGO_MANIFEST_DIR")).join("../../example/rig.txt");
    for place in ["example", "rigs/north", "rigs/south"] {
        fs::create_dir_all(root.join(place)).expect("a folder");
        for (file, name) in [(Path::new(LEFT), "left.pgm"), (Path::new(RIGHT), "right.pgm"), (&rig, "rig.txt")] {
            fs::copy(file, root.join(place).join(name)).expect("a copy");
        }
    }
    let started: Vec<String> = std::iter::once(program().get_program())
        .chain(program().get_args())
        .map(|word| format!("'{}'", word.to_str().expect("a name")))
        .collect();
    let script = root.join("plombrisa");
    fs::write(&script, format!("#!/bin/sh\nexec {} \"$@\"\n", started.join(" "))).expect("the script can be written");
    fs::set_permissions(&script, fs::Permissions::from_mode(0o755)).expect("the script can be started");
    root
}

fn shell(line: &str, root: &Path) -> Output {
    Command::new("sh").args(["-c", line]).current_dir(root).output().expect("a shell")
}

/// What a page shows behind a command: on which stream, and the text.
enum Shown<'a> {
    Printed(&'a str),
    Said(&'a str),
    Nothing,
}

fn shown_behind(text: &str) -> Shown<'_> {
    let block = |mark: &str| text.strip_prefix(mark)?.split_once("```\n").map(|(block, _)| block);
    match (block("\nwhich prints\n\n```\n"), block("\nwhich says on standard error\n\n```\n")) {
        (Some(block), _) => Shown::Printed(block),
        (_, Some(block)) => Shown::Said(block),
        _ => Shown::Nothing,
    }
}

/// The commands of a page that start the program, each with what the page shows behind it.
fn commands(page: &str) -> Vec<(&str, Shown<'_>)> {
    let lines = page.split_inclusive('\n').filter(|line| line.starts_with("    ") && line.contains("./plombrisa "));
    lines.map(|line| (line.trim(), shown_behind(page.split_once(line).expect("a line of it").1))).collect()
}

fn run_all(name: &str, least: usize) {
    let (page, root) = (page(name), root(&name.replace(['/', '.'], "_")));
    let commands = commands(&page);
    assert!(commands.len() >= least, "{name}: {} commands", commands.len());
    for (line, shown) in commands {
        if line.starts_with("parallel") && !shell("command -v parallel", &root).status.success() {
            writeln!(stderr(), "\nNOT RUN: {line}: GNU parallel is not here").expect("standard error can be written");
            continue;
        }
        let output = shell(line, &root);
        let [out, err] = [&output.stdout, &output.stderr].map(|bytes| String::from_utf8_lossy(bytes).into_owned());
        let status = if out.starts_with("no: ") { 3 } else { 0 };
        assert_eq!(output.status.code(), Some(status), "{line}: {err}");
        match shown {
            Shown::Printed(text) => assert_eq!((out.as_str(), err.as_str()), (text, ""), "{line}"),
            Shown::Said(text) => assert_eq!(err, text, "{line}"),
            Shown::Nothing => assert!(out.contains("size: 200 by 150\n") || out.is_empty(), "{line}: {out}"),
        }
    }
}

#[test]
fn the_readme_s_commands_print_what_it_shows() {
    run_all("README.md", 2);
}

#[test]
fn the_manual_s_commands_print_what_it_shows() {
    run_all("docs/USE.md", 11);
    let rigs = own("docs_USE_md/rigs");
    let maps = ["north", "south"].map(|rig| fs::read(rigs.join(rig).join("map.pfm")));
    if let [Ok(north), Ok(south)] = maps {
        assert!(north == south && north.starts_with(b"Pf\n200 150\n"), "the rigs' maps");
    }
}

#[test]
fn the_readme_is_short() {
    assert!(page("README.md").len() <= 8 * 1024);
}

#[test]
fn the_rig_file_is_shown_as_it_is() {
    assert!(page("docs/USE.md").contains(&format!("```\n{}```\n", page("example/rig.txt"))));
}

/// The figures in the text: the cover of the planner's map, and the volume with other cells.
#[test]
fn the_figures_are_the_program_s() {
    let map = own("figures.pfm");
    let planner = printed(&["match", LEFT, RIGHT, text_of(&map), "--num-disparities", "24", "--semi-global", "--no-lr"]);
    let cover = planner.split_whitespace().nth(5).expect("the cover");
    assert!(running_text(&page("README.md")).contains(&format!("whose cover is {cover}.")), "{planner}");
    assert!(running_text(&page("docs/USE.md")).contains(&format!("its cover is {cover},")), "{planner}");

    let words = [&["volume", LEFT, RIGHT, "--semi-global", "--no-lr"], &SEARCH[..], &CAMERA, &SITE].concat();
    let with_cells = |side| printed(&[&words[..], &["--cell", side]].concat());
    let figure = |out: &str, at: usize| out.split_whitespace().nth(at).expect("a figure").parse::<f64>().expect("a number").round();
    let text = running_text(&page("docs/USE.md"));
    let (large, small) = (with_cells("500"), with_cells("100"));
    assert!(text.contains(&format!("({} with cells of 500 mm)", figure(&large, 1))), "{large}");
    let (volume, empty) = (figure(&small, 1), figure(&small, 15));
    assert!(text.contains(&format!("({volume} with cells of 100 mm, of which {empty} are empty)")), "{small}");
}

/// The README's table of memory is what a match asks for, in 10^6 or 10^9 bytes.
#[test]
fn the_memory_is_what_a_match_asks_for() {
    let said = |bytes: u64| match bytes {
        0..1_000_000_000 => format!("{:.0} MB", bytes as f64 / 1e6),
        _ => format!("{:.1} GB", bytes as f64 / 1e9),
    };
    let number = |word: &str| word.replace(',', "").parse::<usize>().expect("a number");
    let readme = page("README.md");
    let rows = readme.lines().filter(|line| line.starts_with('|') && line.contains(" by "));
    assert!(rows.clone().count() >= 4);
    for row in rows.map(|line| line.split('|').map(str::trim).collect::<Vec<&str>>()) {
        let (width, height) = row[1].split_once(" by ").expect("a size");
        let bytes = |semi_global| match_bytes(number(width), number(height), number(row[2]), semi_global);
        assert_eq!([row[3], row[4]], [said(bytes(false)), said(bytes(true))], "{row:?}");
    }
}

#[test]
fn the_readme_names_the_kit() {
    let kit = Command::new("rt").arg("version").output().expect("rt runs");
    let kit = String::from_utf8(kit.stdout).expect("text");
    assert!(page("README.md").contains(&format!("`{}`", kit.trim())), "{kit}");
}
