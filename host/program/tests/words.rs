//! The words: help at every level, the version, options in either form, and words that make no sense.
mod common;

use common::*;

/// What help is asked by, at every level, and how it begins.
const HELPS: [(&[&str], &str); 17] = [
    (&["help"], "usage: plombrisa match LEFT.pgm"),
    (&["--help"], "usage: plombrisa match LEFT.pgm"),
    (&["-h"], "usage: plombrisa match LEFT.pgm"),
    (&["help", "match"], "usage: plombrisa match LEFT.pgm"),
    (&["match", "--help"], "usage: plombrisa match LEFT.pgm"),
    (&["match", LEFT, "-h"], "usage: plombrisa match LEFT.pgm"),
    (&["help", "volume"], "usage: plombrisa volume LEFT.pgm"),
    (&["volume", "--help"], "usage: plombrisa volume LEFT.pgm"),
    (&["help", "points"], "usage: plombrisa points LEFT.pgm"),
    (&["points", "--help"], "usage: plombrisa points LEFT.pgm"),
    (&["help", "check"], "usage: plombrisa check LEFT.pgm"),
    (&["check", "--help"], "usage: plombrisa check LEFT.pgm"),
    (&["help", "sheet"], "usage: plombrisa sheet write MAP.pfm"),
    (&["sheet", "--help"], "usage: plombrisa sheet write MAP.pfm"),
    (&["sheet", "write", "--help"], "usage: plombrisa sheet write MAP.pfm"),
    (&["help", "sheet", "read"], "usage: plombrisa sheet read SHEET"),
    (&["help", "rig"], "usage: --rig FILE"),
];

#[test]
fn help_at_every_level() {
    for (words, begins) in HELPS {
        let text = printed(words);
        assert!(text.starts_with(begins), "{words:?}: {text}");
        assert!(text.lines().all(|line| line.chars().count() <= 140), "{words:?}: a long line");
    }
}

/// Every option that a verb takes stands in its help.
#[test]
fn help_names_every_option() {
    let all = "min-disparity num-disparities block-size min-correlation uniqueness-ratio lr-max-diff sgm-p1 sgm-p2 semi-global block lr \
               no-lr subpixel no-subpixel fx fy cx cy baseline left right top bottom cell floor lens-height tallest-heap map picture \
               heights kind rig quiet help";
    for verb in [&["match"][..], &["volume"], &["points"], &["check"], &["sheet", "write"], &["sheet", "read"]] {
        let text = printed(&[verb, &["--help"]].concat());
        for name in all.split_whitespace() {
            let named = text.split(|c: char| !c.is_ascii_alphanumeric() && c != '-').any(|word| word == format!("--{name}"));
            let ended = started(&[verb, &[&format!("--{name}")]].concat());
            let taken = !ended.err.contains("is not an option here");
            let of_camera = ["fx", "baseline"].contains(&name) && (verb == ["match"] || verb == ["check"]);
            assert!(named == taken || of_camera, "{verb:?} --{name}: named {named}, taken {taken}");
        }
    }
}

#[test]
fn the_version_names_the_library_and_the_kit() {
    let text = printed(&["--version"]);
    let kit = std::process::Command::new("rt").arg("version").output().expect("rt runs");
    let kit = String::from_utf8(kit.stdout).expect("text");
    assert_eq!(text, format!("plombrisa {} (library proved with {})\n", env!("CARGO_PKG_VERSION"), kit.trim()));
}

/// Both forms of an option, before and behind the files, and of one that is given twice the last.
#[test]
fn options_in_either_form() {
    let map = own("forms.pfm");
    let map = text_of(&map);
    let out = "size: 200 by 150\ncover: 885 of 1000\n";
    for words in [
        &["match", "--num-disparities=24", LEFT, RIGHT, map][..],
        &["match", LEFT, "--num-disparities", "24", RIGHT, map],
        &["match", LEFT, RIGHT, map, "--num-disparities=1", "--num-disparities=24"],
        &["match", "--num-disparities=24", "--semi-global", "--block", "--no-lr", "--lr", "--", LEFT, RIGHT, map],
    ] {
        assert_eq!(printed(words), out, "{words:?}");
    }
}

/// Words that make no sense: status 2, why, how the verb is called, and where to read on.
fn senseless(words: &[&str], why: &str) {
    let ended = started(words);
    assert_eq!((ended.status, ended.bytes.len()), (Some(2), 0), "{words:?}: {}", ended.err);
    assert!(ended.err.starts_with("plombrisa: ") && ended.err.contains(why), "{words:?}: {}", ended.err);
    assert!(ended.err.contains("\nusage: ") && ended.err.contains("\n`plombrisa help"), "{words:?}: {}", ended.err);
}

#[test]
fn words_that_make_no_sense() {
    let unfit: [(&[&str], &str); 17] = [
        (&[], "nothing was asked for"),
        (&["draw"], "draw is not a thing that plombrisa does"),
        (&["match"], "three files are needed, or four with a preview, and 0 were given"),
        (&["match", "a", "b"], "and 2 were given"),
        (&["match", "a", "b", "c", "d", "e"], "and 5 were given"),
        (&["match", "a", "b", "c", "--deep"], "--deep is not an option here"),
        (&["match", "a", "b", "c", "-q"], "-q is not an option here"),
        (&["match", "a", "b", "c", "--floor", "6000"], "--floor is not an option here"),
        (&["match", "-", "-", "c"], "standard input can be read once only"),
        (&["volume", "--map", "m", "a"], "no other files are needed, and 1 were given"),
        (&["volume", "--map", "m", "--num-disparities", "24"], "--num-disparities goes with two pictures, and not with --map"),
        (&["points", "a", "b", "c", "--picture", "d"], "--picture goes with --map"),
        (&["points", "--map", "m", "a", "--no-lr"], "--lr goes with two pictures, and not with --map"),
        (&["check", "a", "b"], "three files are needed, and 2 were given"),
        (&["check", "a", "b", "c", "--semi-global"], "--semi-global is not an option here"),
        (&["sheet"], "sheet is followed by write or read"),
        (&["help", "draw"], "there is no help on draw"),
    ];
    unfit.iter().for_each(|(words, why)| senseless(words, why));
}

#[test]
fn values_that_make_no_sense() {
    let unfit: [(&[&str], &str); 7] = [
        (&["--block-size"], "--block-size needs a value"),
        (&["--block-size", "-1"], "--block-size does not take the value -1"),
        (&["--block-size="], "--block-size does not take the value \n"),
        (&["--min-disparity", "2147483648"], "--min-disparity does not take the value 2147483648"),
        (&["--semi-global=yes"], "--semi-global takes no value"),
        (&["--quiet=yes"], "--quiet takes no value"),
        (&["--lens-height", "inf"], "--lens-height does not take the value inf"),
    ];
    unfit.iter().for_each(|(option, why)| senseless(&[&["match", "a", "b", "c"], *option].concat(), why));
    senseless(&["sheet", "write", "a", "b", "--kind", "half"], "--kind does not take the value half");
}

#[test]
fn a_camera_or_a_site_that_is_not_whole() {
    let camera = [&["volume", LEFT, RIGHT], &CAMERA[..]].concat();
    let no_floor = [&camera, &SITE[..10]].concat();
    senseless(&[&["volume", LEFT, RIGHT], &SITE[..]].concat(), "--fx is missing");
    senseless(&camera, "--left is missing");
    senseless(&no_floor, "--floor is missing");
    senseless(&[&no_floor[..], &["--floor", "6.5"]].concat(), "--floor does not take the value 6.5");
    senseless(&["points", LEFT, RIGHT, "p", "--fx", "60"], "--fy is missing");
}
