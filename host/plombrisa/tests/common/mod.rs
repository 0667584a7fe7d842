//! What the tests of this package share: the repository, what a command prints, and the two languages that the header is for.
#![allow(dead_code, reason = "each file of tests uses a part of it")]
use std::fs;
use std::path::{Path, PathBuf};
use std::process::{Command, Output};

pub fn repository() -> PathBuf {
    Path::new(env!("CARGO_MANIFEST_DIR")).join("../..")
}

/// A folder of a test's own, and nothing in it.
pub fn empty_folder(name: &str) -> PathBuf {
    let folder = Path::new(env!("CARGO_TARGET_TMPDIR")).join(name);
    if folder.exists() {
        fs::remove_dir_all(&folder).expect("the folder of an earlier test can be removed");
    }
    fs::create_dir_all(&folder).expect("the folder can be made");
    folder
}

/// How a command ended; it must be there.
pub fn ended(command: &mut Command) -> Output {
    command.output().unwrap_or_else(|error| panic!("{}: {error}", command.get_program().display()))
}

/// What a command prints; it must succeed.
pub fn printed(command: &mut Command) -> String {
    let output = ended(command);
    assert!(output.status.success(), "{command:?}: {}: {}", output.status, String::from_utf8_lossy(&output.stderr));
    String::from_utf8(output.stdout).expect("text")
}

/// A language that the header is for: where the compiler for the library's processor is named, how it is called otherwise, and its words.
pub struct Language {
    pub variable: &'static str,
    usual: &'static str,
    words: &'static [&'static str],
}

pub const C: Language = Language { variable: "CC", usual: "cc", words: &["-x", "c", "-std=c11"] };

/// With C++'s own library inside the program, for the emulator has none for it.
pub const CPP: Language =
    Language { variable: "CXX", usual: "c++", words: &["-x", "c++", "-std=c++17", "-static-libstdc++", "-static-libgcc"] };

impl Language {
    /// The compiler's name.
    pub fn compiler(&self) -> String {
        std::env::var(self.variable).unwrap_or_else(|_| String::from(self.usual))
    }

    /// The compiler, to which no warning is allowed. What is no source of the language stands behind `-x none`.
    pub fn compile(&self) -> Command {
        let mut command = Command::new(self.compiler());
        command.args(self.words).args(["-Wall", "-Wextra", "-Wpedantic", "-Werror"]);
        command
    }

    /// The program at a place in the compiler's own set of tools, such as `nm`.
    pub fn tool(&self, name: &str) -> Command {
        Command::new(printed(Command::new(self.compiler()).arg(format!("-print-prog-name={name}"))).trim_end())
    }
}

/// The program that a source becomes which is linked with the archive as `rt lib` writes it, and so with plombrisa.c.
pub fn linked(source: &Path, language: &Language, further: &[String]) -> PathBuf {
    let name = source.file_name().expect("a file").to_str().expect("text").replace('.', "_");
    let program = Path::new(env!("CARGO_TARGET_TMPDIR")).join(format!("{name}_{}", language.variable));
    let include = repository().join("host/plombrisa/include");
    let mut command = language.compile();
    command.args(further).arg("-I").arg(&include).arg(source).arg(include.join("plombrisa.c"));
    command.args(["-x", "none"]).arg(repository().join("target/staticlib/libplombrisa.a")).arg("-o").arg(&program);
    printed(&mut command);
    program
}

/// A copy of the tree with what host/install.sh reads, and nothing else: links to the repository's own files, and stand-ins for the
/// program and the manual page, which this package's tests do not wait for.
pub fn tree(folder: &Path) -> PathBuf {
    let tree = folder.join("tree");
    for file in [
        "host/install.sh",
        "host/x86_64.sh",
        "host/plombrisa/include/plombrisa.h",
        "host/plombrisa/include/plombrisa.c",
        "host/plombrisa/plombrisa.pc.in",
        "host/plombrisa/python/plombrisa.py",
        "target/staticlib/libplombrisa.a",
    ] {
        let place = tree.join(file);
        fs::create_dir_all(place.parent().expect("a folder")).expect("the folder can be made");
        std::os::unix::fs::symlink(repository().join(file), place).expect("the link can be made");
    }
    for (file, text) in [(program_file(), "stands in for the program\n"), (String::from(MAN_PAGE), "stands in for the manual page\n")] {
        let place = tree.join(file);
        fs::create_dir_all(place.parent().expect("a folder")).expect("the folder can be made");
        fs::write(place, text).expect("the stand-in can be written");
    }
    tree
}

pub const MAN_PAGE: &str = "man/plombrisa.1";

/// Where cargo puts the program, in the repository.
pub fn program_file() -> String {
    match std::env::var("CARGO_BUILD_TARGET") {
        Ok(target) => format!("host/target/{target}/release/plombrisa"),
        Err(_) => String::from("host/target/release/plombrisa"),
    }
}

/// The install script of a tree, with this prefix and nothing before it.
pub fn install_script(tree: &Path, prefix: &Path) -> Command {
    let mut command = Command::new(tree.join("host/install.sh"));
    command.env("PREFIX", prefix).env_remove("DESTDIR");
    command
}

/// A prefix in an empty folder of this name that everything was installed to.
pub fn installed(name: &str) -> PathBuf {
    let folder = empty_folder(name);
    let prefix = folder.join("prefix");
    printed(&mut install_script(&tree(&folder), &prefix));
    prefix
}
