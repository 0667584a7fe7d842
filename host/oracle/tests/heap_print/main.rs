//! The print program as it is started, on inputs of every kind. Each answer is held to one that is worked out in plain Rust from
//! document 01's text, a map's cells by the Rust that Plombrisa carries over; nothing here links the proved library.
mod expected;
mod inputs;

use inputs::Kind;
use runs::program::{program_at, shell_line};
use std::collections::BTreeMap;
use std::fs;
use std::io::{ErrorKind, Write};
use std::path::{Path, PathBuf};
use std::process::{Child, Stdio};
use std::thread::sleep;
use std::time::Duration;

/// How the answers begin that an input can get. Of document 01's numbers a line reaches these: the two pictures have one size, as many
/// bytes as it says and at most 8 disparities, the penalties are the defaults, and what is lent is long enough.
const HEADS: [&str; 9] = ["MAP", "TOO BIG", "BAD INPUT", "REFUSED 1", "REFUSED 4", "REFUSED 5", "REFUSED 6", "REFUSED 8", "REFUSED 9"];

/// The fewest inputs that the program is started on.
const INPUTS_LEAST: usize = 400;

fn repository() -> PathBuf {
    Path::new(env!("CARGO_MANIFEST_DIR")).join("../..")
}

fn program() -> PathBuf {
    let program = repository().join("target/bin/heap_print");
    assert!(program.is_file(), "{} is not there: `host/prove.sh heap_print` makes it", program.display());
    program
}

fn started() -> Child {
    let [stdin, stdout, stderr] = [(); 3].map(|()| Stdio::piped());
    program_at(&program()).stdin(stdin).stdout(stdout).stderr(stderr).spawn().expect("the program starts")
}

/// What the program prints for an input that arrives in these pieces. It may end before it has taken a long one whole.
fn printed(pieces: &[&[u8]]) -> String {
    let mut running = started();
    let mut stdin = running.stdin.take().expect("standard input");
    for (i, piece) in pieces.iter().enumerate() {
        if i > 0 {
            sleep(Duration::from_millis(20));
        }
        let taken = stdin.write_all(piece);
        assert!(taken.is_ok() || taken.is_err_and(|why| why.kind() == ErrorKind::BrokenPipe));
    }
    drop(stdin);
    let ended = running.wait_with_output().expect("the program ends");
    assert!(ended.status.success() && ended.stderr.is_empty(), "{}: {}", ended.status, String::from_utf8_lossy(&ended.stderr));
    String::from_utf8(ended.stdout).expect("text")
}

/// The answer's first words, one of `HEADS`.
fn head(answer: &str) -> &'static str {
    let begins = |head: &&&str| answer.strip_prefix(**head).is_some_and(|rest| rest.starts_with([' ', '\n']));
    HEADS.iter().find(begins).unwrap_or_else(|| panic!("no answer begins so: {answer:?}"))
}

/// Starts the program on each input of a kind, and counts the answers by how they begin.
fn try_kind(kind: &Kind, answers: &mut BTreeMap<&'static str, usize>) {
    assert!(!kind.inputs.is_empty(), "{}: no input", kind.name);
    for input in &kind.inputs {
        let (is, should) = (printed(&[input]), expected::answer(input));
        assert_eq!(is, should, "{}: {:?}", kind.name, String::from_utf8_lossy(input));
        if let Some(begins) = kind.head {
            assert_eq!(head(&is), begins, "{}: {:?}", kind.name, String::from_utf8_lossy(input));
        }
        *answers.entry(head(&is)).or_default() += 1;
    }
    println!("{:>5} {}", kind.inputs.len(), kind.name);
}

#[test]
fn every_kind_of_input_gets_its_answer() {
    let mut answers = BTreeMap::new();
    for kind in inputs::kinds() {
        try_kind(&kind, &mut answers);
    }
    println!("{answers:?}");
    for head in HEADS {
        assert!(answers.contains_key(head), "nothing was answered {head}");
    }
    let inputs: usize = answers.values().sum();
    assert!(inputs >= INPUTS_LEAST, "{inputs} inputs, not {INPUTS_LEAST}");
}

/// A program may be given less at once than it asks for: the rest of the input still counts.
#[test]
fn an_input_may_arrive_in_pieces() {
    let input = inputs::longest();
    let (line, pictures) = input.split_at(20);
    let (left, right) = pictures.split_at(400);
    let answer = printed(&[line, left, right]);
    assert_eq!(answer, expected::answer(&input));
    assert_eq!(head(&answer), "MAP");
    assert_eq!(printed(&[&input, b"x"]), "BAD INPUT\n");
}

/// The manual docs/USE.md starts the program on the worked example, once it is made, and shows what it prints.
#[test]
fn the_manual_says_what_is_printed() {
    let manual = fs::read_to_string(repository().join("docs/USE.md")).expect("docs/USE.md");
    let (_, behind) = manual.split_once("\n    host/prove.sh heap_print && ").expect("the command");
    let (line, shown) = behind.split_once('\n').expect("a line");
    let ended = shell_line(line).current_dir(repository()).output().expect("a shell");
    let printed = String::from_utf8(ended.stdout).expect("text");
    assert!(shown.starts_with(&format!("\nwhich prints\n\n```\n{printed}```\n")), "{line}: {printed}");
    assert!(printed.starts_with("MAP 5 3 2\n") && ended.status.success());
}
