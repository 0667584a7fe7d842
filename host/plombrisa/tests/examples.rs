//! The examples of the page on use: the text there is the text compiled here. The two matches answer the worked example of document 01.
mod common;

use common::{C, CPP, empty_folder, ended, linked, printed, repository};
use runs::program::{program_at, shell_line};
use std::fs::{self, read_to_string};
use std::process::Command;

/// The page that shows the examples.
const PAGE: &str = "docs/USE.md";

fn page() -> String {
    read_to_string(repository().join(PAGE)).unwrap_or_else(|error| panic!("{PAGE}: {error}"))
}

fn example(name: &str) -> String {
    read_to_string(repository().join("host/plombrisa/examples").join(name)).expect(name)
}

#[test]
fn the_page_shows_them() {
    let page = page();
    for name in ["match.c", "match.rs", "sheet.rs", "netpbm.rs", "volume.rs", "rows.rs", "vendor.rs"] {
        assert!(page.contains(&example(name)), "{PAGE} does not show {name} as it is");
    }
    let readme = read_to_string(repository().join("README.md")).expect("README.md");
    assert!(readme.contains(&example("match.rs")), "README.md does not show match.rs as it is");
}

#[test]
fn the_c_example_runs_as_c_and_as_cpp() {
    let source = repository().join("host/plombrisa/examples/match.c");
    for language in [C, CPP] {
        assert_eq!(printed(&mut program_at(&linked(&source, &language, &[]))), "disparity at (2, 1): 1\n");
    }
}

/// The example with a block of 4 says why it is refused.
#[test]
fn the_c_example_prints_the_reason_of_a_refusal() {
    let text = example("match.c");
    let [accepted, refused] = ["0, 2, 3, 0.5f", "0, 2, 4, 0.5f"];
    assert_eq!(text.matches(accepted).count(), 1, "the example has its options in another way");
    let source = empty_folder("refused").join("refused.c");
    fs::write(&source, text.replace(accepted, refused)).expect("the source can be written");
    let output = ended(&mut program_at(&linked(&source, &C, &[])));
    let reason = plombrisa::Refusal::BlockEven.reason();
    assert_eq!(String::from_utf8(output.stdout).expect("text"), format!("refused, 4: {reason}\n"));
    assert_eq!(output.status.code(), Some(1));
}

/// The page's line that compiles the example, as it stands.
#[test]
fn the_page_compiles_the_c_example() {
    let page = page();
    let line = page.lines().find(|line| line.contains("host/plombrisa/examples/match.c ")).expect("the line");
    let shown = printed(shell_line(line).current_dir(repository()));
    assert_eq!(shown, "disparity at (2, 1): 1\n");
    assert!(page.contains(&format!("prints `{}`", shown.trim_end())));
}

/// What a Rust example prints.
fn printed_by_example(name: &str) -> String {
    let cargo = std::env::var("CARGO").expect("cargo runs the tests");
    let mut command = Command::new(cargo);
    command.args(["run", "--quiet", "--release", "-p", "plombrisa", "--example", name]).current_dir(repository().join("host"));
    printed(&mut command)
}

#[test]
fn the_rust_examples_run() {
    assert_eq!(printed_by_example("match"), "disparity at (2, 1): 1\n");
    assert_eq!(printed_by_example("sheet"), "8 bytes: [01, 00, 02, 02, 00, 09, 02, 01]\n2 by 2: [NaN, 4.0, -1.0, 0.0]\n");
    assert_eq!(printed_by_example("netpbm"), "3 by 1: [97, 98, 99]\n2 by 1: [NaN, 4.5]\n");
    let figures = "Figures { volume: 187500000, inside: 3, outside: 1, empty: 0 }";
    assert_eq!(printed_by_example("volume"), format!("2 by 1: [500, 250], {figures}\n"));
    let before = "row 0: RowRecord { count: 2, least: 0.5, greatest: 4.0 }; 5 cells are valid";
    let after = "row 0: RowRecord { count: 1, least: 4.0, greatest: 4.0 }; 4 cells are valid";
    assert_eq!(printed_by_example("rows"), format!("{before}\n{after}\n"));
    let verdicts = "disparity 1 at (3, 1): yes\ndisparity 0 at (3, 1): no, the cell at (3, 1)\n";
    assert_eq!(printed_by_example("vendor"), verdicts);
}
