//! A program that was built for the library's processor, and the words that a run is started with.
use std::path::Path;
use std::process::Command;

/// The emulator, where cargo runs programs under one (host/x86_64.sh).
pub fn emulator() -> Option<String> {
    std::env::var("CARGO_TARGET_X86_64_UNKNOWN_LINUX_GNU_RUNNER").ok()
}

/// The program at a path, under the emulator where there is one.
pub fn program_at(path: &Path) -> Command {
    match emulator() {
        Some(emulator) => {
            let mut command = Command::new(emulator);
            command.arg(path);
            command
        }
        None => Command::new(path),
    }
}

/// A line as a reader of the README gives it to a shell, after `. host/x86_64.sh`.
pub fn shell_line(line: &str) -> Command {
    let mut command = Command::new("sh");
    command.args(["-c", line]).env("RUNNER", emulator().unwrap_or_default());
    command
}

/// A run's words, which are whole numbers; in place of missing ones those that are given here.
pub fn words_or<const N: usize>(mut words: [u64; N]) -> [u64; N] {
    for (word, given) in words.iter_mut().zip(std::env::args().skip(1)) {
        *word = given.parse().expect("a run's words are whole numbers");
    }
    words
}

/// Prints and gives a run's words SEED and COUNT, in place of missing ones 1 and a million.
pub fn seed_and_count() -> (u64, u64) {
    let [seed, count] = words_or([1, 1_000_000]);
    println!("seed {seed}, {count} inputs");
    (seed, count)
}
