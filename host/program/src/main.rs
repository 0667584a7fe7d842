//! The program `plombrisa`: pictures, maps and sheets in, maps, previews, points, volumes and verdicts out. The library reads, matches,
//! measures, checks and writes; this names the files and says what came of it. The exit status is 1 where something was refused, a file
//! could not be read or written or memory was lacking, 2 where the words make no sense, 3 where a check's answer is no, else 0.
mod arguments;
mod checking;
mod deeds;
mod files;
mod formats;
mod heights;
mod help;
mod hints;
mod ply;
mod preview;
mod rig;
mod settings;

use arguments::{Asked, Deed, Line, Senseless};
use deeds::{Done, Failure};
use help::Topic;
use settings::Settings;
use std::io::{self, Write};
use std::process::ExitCode;

/// Nobody is left to be told where standard error cannot be written.
fn say(text: &str) {
    let _ = writeln!(io::stderr(), "{text}");
}

fn print(text: &str) -> Result<(), String> {
    writeln!(io::stdout(), "{text}").map_err(|error| format!("the answer cannot be printed: {error}"))
}

/// The settings: the rig file's, and over them the line's.
fn settings_of(rig: Option<&str>, line: &Line) -> Result<Settings, Failure> {
    let mut settings = Settings::default();
    if let Some(file) = rig {
        let bytes = files::read(file)?;
        let text = String::from_utf8(bytes).map_err(|_| format!("{file}: is no text"))?;
        rig::read(&text, &mut settings).map_err(|why| format!("{file}: {why}"))?;
    }
    line.apply(&mut settings).map_err(Failure::Senseless)?;
    Ok(settings)
}

/// Says and writes what came of a deed. Text goes to standard error where an output is standard output.
fn tell(done: &Done, to_standard_output: bool, quiet: bool) -> Result<(), String> {
    done.hints.iter().for_each(|hint| say(&format!("plombrisa: hint: {hint}")));
    if quiet && !done.is_answer {
        return Ok(());
    }
    if to_standard_output {
        say(&done.text);
        return Ok(());
    }
    print(&done.text)
}

fn perform(deed: &Deed, rig: Option<&str>, line: &Line, quiet: bool) -> Result<ExitCode, Failure> {
    let inputs: Vec<&str> = deed.inputs().into_iter().chain(rig).collect();
    files::read_once(&inputs).map_err(Failure::Senseless)?;
    let settings = settings_of(rig, line)?;
    deed.warnings(&settings).iter().for_each(|warning| say(&format!("plombrisa: warning: {warning}")));
    let outputs = files::open_all(&deed.outputs(), &inputs)?;
    let mut done = deed.done(&settings, quiet)?;
    files::write_all(outputs, &std::mem::take(&mut done.contents))?;
    tell(&done, deed.outputs().contains(&files::STANDARD), quiet)?;
    Ok(if done.no { ExitCode::from(3) } else { ExitCode::SUCCESS })
}

fn senseless(why: &str, topic: Topic) -> ExitCode {
    let name = topic.name();
    let gap = if name.is_empty() { "" } else { " " };
    say(&format!("plombrisa: {why}\n{}\n`plombrisa help{gap}{name}` says more", topic.usage()));
    ExitCode::from(2)
}

fn version() -> String {
    format!("plombrisa {} (library proved with {})", plombrisa::version(), env!("PLOMBRISA_KIT"))
}

/// Does what was asked, and answers the exit status.
fn run(asked: &Asked) -> Result<ExitCode, Failure> {
    match asked {
        Asked::Do { deed, rig, settings, quiet } => return perform(deed, rig.as_deref(), settings, *quiet),
        Asked::Help(topic) => print(&topic.text())?,
        Asked::Version => print(&version())?,
    }
    Ok(ExitCode::SUCCESS)
}

/// The arguments as text; one that is no UTF-8 is refused, for its name could not be said.
fn words() -> Result<Vec<String>, Senseless> {
    let no_text = |word: std::ffi::OsString| Senseless { why: format!("{} is not UTF-8", word.display()), topic: Topic::All };
    std::env::args_os().skip(1).map(|word| word.into_string().map_err(no_text)).collect()
}

/// What help there is on what was asked for.
fn topic_of(asked: &Asked) -> Topic {
    match asked {
        Asked::Do { deed, .. } => deed.topic(),
        Asked::Help(topic) => *topic,
        Asked::Version => Topic::All,
    }
}

fn main() -> ExitCode {
    let asked = match words().and_then(arguments::parse) {
        Ok(asked) => asked,
        Err(Senseless { why, topic }) => return senseless(&why, topic),
    };
    match run(&asked) {
        Ok(status) => status,
        Err(Failure::Senseless(why)) => senseless(&why, topic_of(&asked)),
        Err(Failure::Failed(why)) => {
            say(&format!("plombrisa: {why}"));
            ExitCode::FAILURE
        }
    }
}
