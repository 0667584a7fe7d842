//! The Python module over the installed shared library, held to this wrapper on the example pair: the wrapper's answers are written to
//! files, and python_module.py compares. Debian's Python and its python3-numpy are needed, on the library's own processor; where they are
//! not there, standard error says that the module was not tested, and why.
mod common;

use common::{empty_folder, ended, installed, printed, repository};
use plombrisa::{
    Figures, Heap, Intrinsics, Map, Options, OwnedPicture, PointRecord, Refusal, Site, cover, heap_shape, heap_volume, match_block, points,
    read_pgm,
};
use std::fs;
use std::io::{Write, stderr};
use std::path::Path;
use std::process::Command;

/// Debian's, which has Debian's packages.
const PYTHON: &str = "/usr/bin/python3";

/// Why the module cannot be tested here, where it cannot.
fn obstacle() -> Option<String> {
    // asked of the machine: this test itself may be x86-64 code under an emulator
    let processor = printed(Command::new("uname").arg("-m"));
    if processor.trim_end() != "x86_64" {
        return Some(format!("Python is code for {} here, and cannot load the library, which is x86-64 code", processor.trim_end()));
    }
    match Command::new(PYTHON).args(["-c", "import numpy"]).output() {
        Ok(output) if output.status.success() => None,
        Ok(_) => Some(format!("{PYTHON} has no numpy: apt-get install python3-numpy")),
        Err(error) => Some(format!("{PYTHON}: {error}")),
    }
}

/// Whether the module can be tested. Where not, that is said past the test's own output, which cargo shows of a failed test alone.
fn can_be_tested(test: &str) -> bool {
    let obstacle = obstacle();
    if let Some(why) = &obstacle {
        writeln!(stderr(), "\nNOT RUN: {test} of host/plombrisa/tests/python.rs: {why}").expect("standard error can be written");
    }
    obstacle.is_none()
}

/// Python that looks for modules in this folder, and leaves nothing in it.
fn python(modules: &Path) -> Command {
    let mut command = Command::new(PYTHON);
    command.arg("-B").env("PYTHONPATH", modules).env_remove("PLOMBRISA_LIBRARY").env_remove("LD_LIBRARY_PATH");
    command
}

const CAMERA: Intrinsics = Intrinsics { fx: 60.0, fy: 60.0, cx: 100.0, cy: 75.0, baseline: 0.5 };
const SITE: Site = Site { left: -7000, right: 7000, top: -7000, bottom: 7000, cell: 250, floor: 6000 };

/// A picture of the example pair.
fn example(name: &str) -> OwnedPicture {
    let file = repository().join("example").join(name);
    read_pgm(&fs::read(file).expect("the picture can be read")).expect("a picture")
}

/// A block match, and beside it one that differs from it in each option; a semi-global match, and one for each of the penalties.
fn cases() -> Vec<Options> {
    let block = Options { num_disparities: 24, ..Options::default() };
    let semi_global = Options { semi_global: true, lr_consistency: false, ..block };
    vec![
        block,
        Options { min_disparity: -2, ..block },
        Options { num_disparities: 12, ..block },
        Options { block_size: 5, ..block },
        Options { min_correlation: 0.9, ..block },
        Options { uniqueness_ratio: 0.4, ..block },
        Options { lr_consistency: false, ..block },
        Options { lr_max_diff: 0.01, ..block },
        Options { subpixel: false, ..block },
        Options { semi_global: true, ..block },
        semi_global,
        Options { sgm_p1: 0.5, ..semi_global },
        Options { sgm_p2: 0.2, ..semi_global },
    ]
}

/// The options as words of JSON, by the names that they have in Python.
fn options_json(options: &Options) -> String {
    let Options {
        min_disparity, num_disparities, block_size, min_correlation, uniqueness_ratio, lr_consistency, lr_max_diff, subpixel, semi_global,
        sgm_p1, sgm_p2,
    } = options;
    format!(
        r#"{{"min_disparity": {min_disparity}, "num_disparities": {num_disparities}, "block_size": {block_size},
            "min_correlation": {min_correlation:?}, "uniqueness_ratio": {uniqueness_ratio:?}, "lr_consistency": {lr_consistency},
            "lr_max_diff": {lr_max_diff:?}, "subpixel": {subpixel}, "semi_global": {semi_global}, "sgm_p1": {sgm_p1:?},
            "sgm_p2": {sgm_p2:?}}}"#
    )
}

fn record_bytes(record: &PointRecord) -> Vec<u8> {
    let PointRecord { x, y, z, column, row, disparity } = *record;
    [x.to_ne_bytes(), y.to_ne_bytes(), z.to_ne_bytes(), column.to_ne_bytes(), row.to_ne_bytes(), disparity.to_ne_bytes()].concat()
}

/// Writes what the wrapper answers in one case, and gives its map and its words of JSON.
fn write_case(folder: &Path, name: &str, [left, right]: [&OwnedPicture; 2], options: &Options) -> (Vec<u8>, String) {
    let cells = match_block(left.picture(), right.picture(), options).expect("the pair is accepted");
    let map = Map { cells: &cells, width: left.width, height: left.height };
    let records = points(map, &CAMERA).expect("the camera is accepted");
    let Heap { figures, heights, .. } = heap_volume(&records, &SITE).expect("the points are accepted");
    let permille = cover(map, options.block_size).expect("a map");
    let write = |end: &str, bytes: &[u8]| fs::write(folder.join(format!("{name}.{end}")), bytes).expect("the file can be written");
    let bytes: Vec<u8> = cells.iter().flat_map(|cell| cell.to_ne_bytes()).collect();
    write("map", &bytes);
    write("points", &records.iter().flat_map(record_bytes).collect::<Vec<u8>>());
    write("heights", &heights.iter().flat_map(|height| height.to_ne_bytes()).collect::<Vec<u8>>());
    let Figures { volume, inside, outside, empty } = figures;
    let figures = format!(r#"{{"volume": {volume}, "inside": {inside}, "outside": {outside}, "empty": {empty}}}"#);
    let options = options_json(options);
    (bytes, format!(r#"{{"name": "{name}", "options": {options}, "cover": {permille}, "figures": {figures}}}"#))
}

/// Writes the pair and what the wrapper answers. No two cases have one map, so that an option that the module mislaid would be seen.
fn write_expected(folder: &Path) {
    let [left, right] = ["left.pgm", "right.pgm"].map(example);
    fs::write(folder.join("left"), &left.bytes).expect("the picture can be written");
    fs::write(folder.join("right"), &right.bytes).expect("the picture can be written");
    let numbered = cases().into_iter().enumerate();
    let written = numbered.map(|(at, options)| write_case(folder, &format!("case{at}"), [&left, &right], &options));
    let (maps, cases): (Vec<Vec<u8>>, Vec<String>) = written.unzip();
    let twin = (0..maps.len()).flat_map(|at| (0..at).map(move |other| (other, at))).find(|&(other, at)| maps[other] == maps[at]);
    assert_eq!(twin, None, "two cases have one map");

    let reasons = (1..100).filter_map(Refusal::of_number).map(|refusal| format!(r#""{}": {:?}"#, refusal.number(), refusal.reason()));
    let Intrinsics { fx, fy, cx, cy, baseline } = CAMERA;
    let Site { left: west, right: east, top, bottom, cell, floor } = SITE;
    let (columns, rows) = heap_shape(&SITE).expect("a site");
    let expected = format!(
        r#"{{"version": "{}", "width": {}, "height": {}, "defaults": {}, "grid": [{rows}, {columns}], "cases": [{}], "reasons": {{{}}},
            "camera": {{"fx": {fx}, "fy": {fy}, "cx": {cx}, "cy": {cy}, "baseline": {baseline}}},
            "site": {{"left": {west}, "right": {east}, "top": {top}, "bottom": {bottom}, "cell": {cell}, "floor": {floor}}}}}"#,
        env!("CARGO_PKG_VERSION"), left.width, left.height, options_json(&Options::default()), cases.join(", "),
        reasons.collect::<Vec<String>>().join(", "),
    );
    fs::write(folder.join("expected.json"), expected).expect("the file can be written");
}

#[test]
fn it_answers_what_the_wrapper_does() {
    if !can_be_tested("it_answers_what_the_wrapper_does") {
        return;
    }
    let folder = empty_folder("python_expected");
    write_expected(&folder);
    let module = installed("python_wrapper").join("lib/plombrisa");
    let tests = repository().join("host/plombrisa/tests/python_module.py");
    let output = ended(python(&module).arg(tests).arg(&folder));
    let told = String::from_utf8_lossy(&output.stderr);
    assert!(output.status.success() && told.trim_end().ends_with("OK"), "{told}");
}

/// The example of the page on use, as it stands there, prints what the page says.
#[test]
fn the_page_s_example() {
    if !can_be_tested("the_page_s_example") {
        return;
    }
    let page = fs::read_to_string(repository().join("docs/USE.md")).expect("docs/USE.md");
    let (_, behind) = page.split_once("```python\n").expect("the example");
    let (text, behind) = behind.split_once("```\n").expect("its end");
    let module = installed("python_page").join("lib/plombrisa");
    let shown = printed(python(&module).args(["-c", text]));
    assert!(behind.starts_with(&format!("\nprints `{}`", shown.trim_end())), "{shown}");
}

/// The library that the module loaded, or the last line of what Python said against it.
fn library_of(python: &mut Command) -> Result<String, String> {
    let output = ended(python.args(["-c", "import plombrisa; print(plombrisa._library._name)"]));
    let last = |bytes: Vec<u8>| String::from(String::from_utf8(bytes).expect("text").trim_end().lines().last().unwrap_or(""));
    if output.status.success() { Ok(last(output.stdout)) } else { Err(last(output.stderr)) }
}

#[test]
fn it_finds_the_library() {
    if !can_be_tested("it_finds_the_library") {
        return;
    }
    let prefix = installed("python_library");
    let (library, beside) = (prefix.join("lib/libplombrisa.so.0"), prefix.join("lib/plombrisa"));
    let in_tree = repository().join("host/plombrisa/python");
    let text = |path: &Path| Ok(String::from(path.to_str().expect("text")));
    let real = fs::canonicalize(prefix.join("lib")).expect("the folder").join("libplombrisa.so.0");
    assert_eq!(library_of(&mut python(&beside)), text(&real));
    assert_eq!(library_of(python(&in_tree).env("PLOMBRISA_LIBRARY", &library)), text(&library));
    assert_eq!(library_of(python(&in_tree).env("LD_LIBRARY_PATH", prefix.join("lib"))), Ok(String::from("libplombrisa.so.0")));

    let nowhere = library_of(python(&beside).env("PLOMBRISA_LIBRARY", "/nowhere/libplombrisa.so")).expect_err("there is none");
    let remedy = "PLOMBRISA_LIBRARY may name the file of Plombrisa's shared library";
    assert!(nowhere.starts_with(&format!("ImportError: /nowhere/libplombrisa.so cannot be loaded; {remedy}: ")), "{nowhere}");
}
