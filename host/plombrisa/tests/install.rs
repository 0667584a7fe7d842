//! host/install.sh as a user starts it, into empty folders: what is there afterwards, programs compiled against it, and what is said where
//! something is missing. It needs pkg-config, and the compilers for C and C++ with their static libraries.
mod common;

use common::{C, CPP, Language, MAN_PAGE, empty_folder, ended, install_script, installed, printed, program_file, repository, tree};
use runs::program::program_at;
use std::collections::BTreeSet;
use std::fs;
use std::os::unix::fs::PermissionsExt;
use std::path::{Path, PathBuf};
use std::process::Command;

const VERSION: &str = env!("CARGO_PKG_VERSION");

/// All files and links below a folder.
fn files_below(folder: &Path) -> BTreeSet<PathBuf> {
    let entries = fs::read_dir(folder).expect("the folder can be read").map(|entry| entry.expect("an entry").path());
    entries.flat_map(|path| if path.is_dir() && !path.is_symlink() { files_below(&path) } else { BTreeSet::from([path]) }).collect()
}

/// What an install has below its prefix, each with the rights that it gives; the links give none of their own.
fn expected_files() -> Vec<(String, Option<u32>)> {
    vec![
        (String::from("bin/plombrisa"), Some(0o755)),
        (String::from("include/plombrisa.h"), Some(0o644)),
        (String::from("lib/libplombrisa.a"), Some(0o644)),
        (format!("lib/libplombrisa.so.{VERSION}"), Some(0o755)),
        (String::from("lib/libplombrisa.so.0"), None),
        (String::from("lib/libplombrisa.so"), None),
        (String::from("lib/pkgconfig/plombrisa.pc"), Some(0o644)),
        (String::from("lib/plombrisa/plombrisa.py"), Some(0o644)),
        (String::from("share/man/man1/plombrisa.1"), Some(0o644)),
    ]
}

fn places(root: &Path) -> BTreeSet<PathBuf> {
    expected_files().iter().map(|(file, _)| root.join(file)).collect()
}

#[test]
fn every_file_is_there_and_printed() {
    let folder = empty_folder("install_files");
    let (tree, prefix) = (tree(&folder), folder.join("prefix"));
    let lines: BTreeSet<PathBuf> = printed(&mut install_script(&tree, &prefix)).lines().map(PathBuf::from).collect();
    assert_eq!(files_below(&prefix), places(&prefix));
    assert_eq!(lines, places(&prefix));
    for (file, rights) in expected_files() {
        let there = fs::symlink_metadata(prefix.join(&file)).expect("the file");
        assert_eq!(there.is_symlink(), rights.is_none(), "{file}");
        assert!(rights.is_none_or(|rights| there.permissions().mode() & 0o777 == rights), "{file}");
    }
    for (from, to) in [
        (program_file().as_str(), "bin/plombrisa"),
        (MAN_PAGE, "share/man/man1/plombrisa.1"),
        ("host/plombrisa/include/plombrisa.h", "include/plombrisa.h"),
        ("host/plombrisa/python/plombrisa.py", "lib/plombrisa/plombrisa.py"),
    ] {
        assert!(fs::read(tree.join(from)).expect(from) == fs::read(prefix.join(to)).expect(to), "{to} is not {from}");
    }
}

/// An install over another is the same install.
#[test]
fn it_can_be_done_again() {
    let folder = empty_folder("install_again");
    let (tree, prefix) = (tree(&folder), folder.join("prefix"));
    let first = printed(&mut install_script(&tree, &prefix));
    assert_eq!(printed(&mut install_script(&tree, &prefix)), first);
    assert_eq!(files_below(&prefix), places(&prefix));
}

/// What pkg-config says of an install.
fn pkg_config(prefix: &Path, words: &[&str]) -> Vec<String> {
    let mut command = Command::new("pkg-config");
    command.env("PKG_CONFIG_PATH", prefix.join("lib/pkgconfig")).args(words).arg("plombrisa");
    printed(&mut command).split_whitespace().map(String::from).collect()
}

/// The example, compiled by what pkg-config says and by these words more.
fn compiled(prefix: &Path, language: &Language, name: &str, words: &[&str]) -> PathBuf {
    let program = prefix.join(format!("{name}_{}", language.variable));
    let mut command = language.compile();
    command.args(words).arg(repository().join("host/plombrisa/examples/match.c")).args(["-x", "none"]);
    printed(command.args(pkg_config(prefix, &["--cflags", "--libs"])).arg("-o").arg(&program));
    program
}

/// The shared libraries that a program or a library asks for by name, or what it says of itself under another word.
fn dynamic_section(file: &Path, word: &str) -> Vec<String> {
    let told = printed(C.tool("objdump").arg("-p").arg(file));
    let value = |line: &str| line.trim().strip_prefix(word)?.strip_prefix(' ').map(|value| String::from(value.trim()));
    told.lines().filter_map(value).collect()
}

#[test]
fn programs_are_compiled_against_it() {
    let prefix = installed("install_programs");
    let shared = |program: &Path| dynamic_section(program, "NEEDED").contains(&String::from("libplombrisa.so.0"));
    for language in [C, CPP] {
        let program = compiled(&prefix, &language, "shared", &[]);
        assert!(shared(&program), "the shared library is not asked for");
        let printed_shared = printed(program_at(&program).env("LD_LIBRARY_PATH", prefix.join("lib")));
        let program = compiled(&prefix, &language, "static", &["-static"]);
        assert!(!shared(&program), "the shared library is asked for");
        assert_eq!([printed_shared, printed(&mut program_at(&program))], ["disparity at (2, 1): 1\n"; 2]);
    }
    assert_eq!(pkg_config(&prefix, &["--modversion"]), [VERSION]);
}

/// The names of the functions that the header declares.
fn declared() -> BTreeSet<String> {
    let header = fs::read_to_string(repository().join("host/plombrisa/include/plombrisa.h")).expect("plombrisa.h");
    let starts = header.match_indices("plombrisa_").map(|(at, _)| &header[at..]);
    let name = |text: &str| {
        let end = text.find(|letter: char| !letter.is_ascii_alphanumeric() && letter != '_')?;
        text[end..].starts_with('(').then(|| String::from(&text[..end]))
    };
    starts.filter_map(name).collect()
}

#[test]
fn the_shared_library_shows_the_header_and_nothing_else() {
    let library = installed("install_names").join("lib/libplombrisa.so");
    let told = printed(C.tool("nm").args(["-D", "--defined-only"]).arg(&library));
    let shown: BTreeSet<String> = told.lines().filter_map(|line| line.split_whitespace().last()).map(String::from).collect();
    assert_eq!(shown, declared());
    assert!(shown.contains("plombrisa_match_block") && shown.contains("plombrisa_reason"));
    assert_eq!(dynamic_section(&library, "SONAME"), ["libplombrisa.so.0"]);
    assert!(dynamic_section(&library, "TEXTREL").is_empty(), "the code would have to be changed where it is loaded");
}

/// A host without a C library has to supply `memset`, and nothing else.
#[test]
fn the_proved_archive_needs_memset_alone() {
    let archive = repository().join("target/staticlib/libplombrisa.a");
    let told = printed(C.tool("nm").arg("-u").arg(&archive));
    let needed: BTreeSet<&str> = told.lines().filter_map(|line| line.trim_start().strip_prefix("U ")).collect();
    assert_eq!(needed, BTreeSet::from(["memset"]));
}

/// While a package is made the files stand below DESTDIR, and no file says so.
#[test]
fn a_package_is_staged() {
    let folder = empty_folder("install_staged");
    let (tree, stage) = (tree(&folder), folder.join("stage"));
    printed(install_script(&tree, Path::new("/usr")).env("DESTDIR", &stage));
    assert_eq!(files_below(&stage), places(&stage.join("usr")));
    let file = fs::read_to_string(stage.join("usr/lib/pkgconfig/plombrisa.pc")).expect("the pkg-config file");
    assert!(file.starts_with("prefix=/usr\n") && !file.contains('@'), "{file}");
}

/// An install that fails: its status is 1, it says this, and it installs nothing.
fn fails_with(command: &mut Command, prefix: &Path, sentence: &str) {
    let output = ended(command);
    assert_eq!(output.status.code(), Some(1), "{sentence}");
    assert_eq!(String::from_utf8_lossy(&output.stderr), format!("host/install.sh: {sentence}\n"));
    assert!(output.stdout.is_empty() && !prefix.exists(), "{sentence}: something was installed");
}

#[test]
fn what_is_missing_is_named() {
    let program = program_file();
    for (file, remedy) in [
        ("target/staticlib/libplombrisa.a", "host/prove.sh plombrisa writes it"),
        (program.as_str(), "cargo build --release --offline, in host/, writes it"),
        (MAN_PAGE, "it is part of the repository"),
        ("host/plombrisa/include/plombrisa.h", "it is part of the repository"),
        ("host/plombrisa/include/plombrisa.c", "it is part of the repository"),
        ("host/plombrisa/plombrisa.pc.in", "it is part of the repository"),
        ("host/plombrisa/python/plombrisa.py", "it is part of the repository"),
    ] {
        let folder = empty_folder("install_missing");
        let (tree, prefix) = (tree(&folder), folder.join("prefix"));
        fs::remove_file(tree.join(file)).expect(file);
        fails_with(&mut install_script(&tree, &prefix), &prefix, &format!("{file} is missing: {remedy}"));
    }
}

#[test]
fn a_prefix_that_cannot_be_named_is_turned_away() {
    let folder = empty_folder("install_prefix");
    let tree = tree(&folder);
    let relative = Path::new("prefix");
    fails_with(&mut install_script(&tree, relative), &tree.join(relative), "PREFIX is prefix: it has to begin with /");
    let blank = Path::new("/nowhere/two words");
    let taken = "letters, digits and / . _ + ~ - are taken, for the pkg-config file has to name it";
    fails_with(&mut install_script(&tree, blank), blank, &format!("PREFIX is /nowhere/two words: {taken}"));
}

/// The repository as it stands: where the program is built and the manual page written, they are installed and the program tells its
/// version; where one of them is missing, the install says so and fails.
#[test]
fn the_repository_itself() {
    let prefix = empty_folder("install_repository").join("prefix");
    let missing = [program_file(), String::from(MAN_PAGE)].into_iter().find(|file| !repository().join(file).exists());
    match missing {
        None => {
            printed(&mut install_script(&repository(), &prefix));
            let told = printed(program_at(&prefix.join("bin/plombrisa")).arg("--version"));
            assert!(told.contains(VERSION), "{told}");
        }
        Some(file) => {
            let output = ended(&mut install_script(&repository(), &prefix));
            let said = String::from_utf8_lossy(&output.stderr);
            assert!(output.status.code() == Some(1) && said.contains(&format!("{file} is missing: ")), "{said}");
        }
    }
}
