//! The header plombrisa.h and the helpers of plombrisa.c, held to the library, to the wrapper and to its table of refusals.
mod common;

use common::{C, CPP, Language, linked, printed, repository};
use plombrisa::limits::{COUNT_MOST, SIDE_MOST};
use plombrisa::{Refusal, float_cells, whole_cells};
use runs::limits::FIRST_MOST;
use runs::program::program_at;
use std::path::PathBuf;

fn test_program(name: &str, language: &Language) -> PathBuf {
    let source = repository().join("host/plombrisa/tests").join(name);
    linked(&source, language, &[format!("-DFIRST_MOST={FIRST_MOST}")])
}

#[test]
fn it_declares_the_exports_as_they_are() {
    for language in [C, CPP] {
        assert_eq!(printed(&mut program_at(&test_program("header.c", &language))), "");
    }
}

/// A size, a number of disparities and whether the match is semi-global.
type Asked = (usize, usize, i32, bool);

/// Sizes that the library takes, least and greatest among them, and disparities that it refuses.
const FIT: [Asked; 7] = [
    (1, 1, 1, false),
    (5, 3, 2, false),
    (5, 3, 2, true),
    (640, 480, 64, true),
    (SIDE_MOST, SIDE_MOST, COUNT_MOST, true),
    (7, 2, 0, true),
    (7, 2, -1, true),
];

/// Sizes whose counts do not fit, by a sum, by a product, and by no more than the factor at the end.
const UNFIT: [Asked; 6] = [
    (usize::MAX, usize::MAX, i32::MAX, true),
    (usize::MAX, 1, 1, false),
    (1, usize::MAX, 1, false),
    (1 << 32, 1 << 32, 1, false),
    (1 << 31, 1 << 31, 4, true),
    (1 << 31, (1 << 31) - 1, 4, false),
];

/// The cells of the two rooms by the formulas of the header, in numbers of twice the length: what does not fit those fits no room.
fn exact_cells((width, height, count, semi_global): Asked) -> [u128; 2] {
    let (width, height, count) = (width as u128, height as u128, u128::try_from(count).unwrap_or(0));
    let volumes = if semi_global { 3 } else { 1 };
    [(width + 1).saturating_mul(height + 1).saturating_mul(5), (width * height).saturating_mul(volumes * count + 1)]
}

/// What helpers.c prints, by lines: the version, the sentences, the cells that were asked for.
fn told_by_helpers(language: &Language) -> Vec<String> {
    let mut command = program_at(&test_program("helpers.c", language));
    for (width, height, count, semi_global) in FIT.iter().chain(&UNFIT) {
        command.args([width.to_string(), height.to_string(), count.to_string(), u8::from(*semi_global).to_string()]);
    }
    printed(&mut command).lines().map(String::from).collect()
}

fn reason_of(number: u32) -> String {
    match number {
        0 => String::from("done"),
        n => Refusal::of_number(n).map_or(String::from("no such number"), Refusal::reason),
    }
}

/// A count as the helpers answer it.
fn fitted(exact: u128) -> usize {
    usize::try_from(exact).unwrap_or(usize::MAX)
}

#[test]
fn the_helpers_answer_what_the_wrapper_does() {
    let version = env!("CARGO_PKG_VERSION");
    let sentences = (0..100).chain([u32::MAX]).map(|number| format!("{number} {}", reason_of(number)));
    let cells = FIT.iter().chain(&UNFIT).map(|asked| exact_cells(*asked).map(fitted)).map(|[whole, float]| format!("{whole} {float}"));
    let expected: Vec<String> = std::iter::once(format!("{version} {version}")).chain(sentences).chain(cells).collect();
    for language in [C, CPP] {
        assert_eq!(told_by_helpers(&language), expected);
    }
}

/// The formulas that the helpers are held to are the wrapper's where the counts fit, and the unfit sizes are unfit in one room or both.
#[test]
fn the_cells_are_the_wrappers() {
    for asked in FIT {
        let (width, height, count, semi_global) = asked;
        let count = usize::try_from(count).unwrap_or(0);
        let wrapped = [whole_cells(width, height), float_cells(width, height, count, semi_global)];
        assert_eq!(wrapped.map(|cells| cells as u128), exact_cells(asked), "{asked:?}");
    }
    for asked in UNFIT {
        assert!(exact_cells(asked).iter().any(|exact| *exact > usize::MAX as u128), "{asked:?}");
    }
}

/// A case of the wrapper's enum as the header names it: BlockEven is PLOMBRISA_BLOCK_EVEN.
fn c_name(refusal: Refusal) -> String {
    let mut name = String::from("PLOMBRISA");
    for letter in format!("{refusal:?}").chars() {
        if letter.is_ascii_uppercase() {
            name.push('_');
        }
        name.push(letter.to_ascii_uppercase());
    }
    name
}

/// The names and numbers of the header's enum, by number.
fn enumerated() -> Vec<(u32, String)> {
    let header = std::fs::read_to_string(repository().join("host/plombrisa/include/plombrisa.h")).expect("plombrisa.h");
    let (_, behind) = header.split_once("enum plombrisa_refusal {").expect("the enum");
    let (cases, _) = behind.split_once("};").expect("the enum's end");
    let case = |line: &str| {
        let (name, number) = line.trim().strip_prefix("PLOMBRISA_")?.split_once(" = ")?;
        let digits: String = number.chars().take_while(char::is_ascii_digit).collect();
        Some((digits.parse().expect("a number"), format!("PLOMBRISA_{name}")))
    };
    let mut found: Vec<(u32, String)> = cases.lines().filter_map(case).collect();
    found.sort();
    found
}

#[test]
fn the_enum_is_the_table() {
    let refusals = (1..100).filter_map(Refusal::of_number).map(|refusal| (refusal.number(), c_name(refusal)));
    let table: Vec<(u32, String)> = std::iter::once((0, String::from("PLOMBRISA_DONE"))).chain(refusals).collect();
    assert_eq!(enumerated(), table);
}
