//! What the words on the line ask for.
use crate::help::Topic;
use crate::settings::{CAMERA, EXPECTED, MATCHING, SEARCH, SITE, Settings, Unfit};
use plombrisa::Kind;

/// The files that a map comes from: a pair that is matched, or a map that is there.
#[derive(Debug, PartialEq, Eq)]
pub enum Source {
    Pair { left: String, right: String },
    Map(String),
}

impl Source {
    /// The files that are read.
    pub fn files(&self) -> Vec<&str> {
        match self {
            Self::Pair { left, right } => vec![left, right],
            Self::Map(map) => vec![map],
        }
    }
}

/// What is to be done. A file that is `-` is standard input or standard output.
#[derive(Debug, PartialEq, Eq)]
pub enum Deed {
    Match { left: String, right: String, map: String, preview: Option<String> },
    Volume { source: Source, heights: Option<String> },
    Points { source: Source, picture: Option<String>, points: String },
    Check { left: String, right: String, map: String },
    WriteSheet { map: String, sheet: String, kind: Kind },
    ReadSheet { sheet: String, map: String },
}

/// What was asked for: a deed with its settings, the rig file's and then the line's, or a text.
#[derive(Debug)]
pub enum Asked {
    Do { deed: Deed, rig: Option<String>, settings: Line, quiet: bool },
    Help(Topic),
    Version,
}

/// Words that make no sense: what is wrong with them, and where to read on.
#[derive(Debug, PartialEq, Eq)]
pub struct Senseless {
    pub why: String,
    pub topic: Topic,
}

/// The settings of the line, each a name and a value, in their order.
#[derive(Debug, Default, PartialEq, Eq)]
pub struct Line(Vec<(String, String)>);

impl Line {
    /// Puts them over the settings that are there.
    pub fn apply(&self, settings: &mut Settings) -> Result<(), String> {
        for (name, value) in &self.0 {
            settings.set(name, value).map_err(|unfit| match unfit {
                Unfit::Name => format!("--{name} is not an option here"),
                Unfit::Value => format!("--{name} does not take the value {value}"),
            })?;
        }
        Ok(())
    }
}

/// Options without a value, each with the setting that it stands for.
const FLAGS: [(&str, &str, &str); 6] = [
    ("semi-global", "semi-global", "yes"),
    ("block", "semi-global", "no"),
    ("lr", "lr", "yes"),
    ("no-lr", "lr", "no"),
    ("subpixel", "subpixel", "yes"),
    ("no-subpixel", "subpixel", "no"),
];

/// The words of a verb, sorted: files, settings, and what the verb itself has by name.
#[derive(Debug, Default)]
struct Sorted {
    files: Vec<String>,
    settings: Line,
    named: Vec<(String, String)>,
    quiet: bool,
    help: bool,
}

/// A verb: the names of settings that it reads, names of its own, and the deed that its words ask for.
struct Verb {
    settings: &'static [&'static [&'static str]],
    own: &'static [&'static str],
    deed: fn(&Sorted) -> Result<Deed, String>,
}

impl Verb {
    fn takes(&self, name: &str) -> bool {
        self.settings.iter().any(|names| names.contains(&name))
    }
}

impl Sorted {
    /// Sorts the words behind a verb.
    fn new(words: &mut dyn Iterator<Item = String>, verb: &Verb) -> Result<Self, String> {
        let mut sorted = Self::default();
        let mut options_end = false;
        while let Some(word) = words.next() {
            match word.strip_prefix("--") {
                Some("") if !options_end => options_end = true,
                Some(option) if !options_end => sorted.take(option, words, verb)?,
                _ if word == "-h" && !options_end => sorted.help = true,
                _ if word.starts_with('-') && word != "-" && !options_end => return Err(format!("{word} is not an option here")),
                _ => sorted.files.push(word),
            }
        }
        Ok(sorted)
    }

    /// Takes one option, without its dashes, and its value, which stands behind `=` or is the next word.
    fn take(&mut self, option: &str, words: &mut dyn Iterator<Item = String>, verb: &Verb) -> Result<(), String> {
        let (name, joined) = match option.split_once('=') {
            Some((name, value)) => (name, Some(String::from(value))),
            None => (option, None),
        };
        let flag = FLAGS.iter().find(|(flag, setting, _)| *flag == name && verb.takes(setting));
        match (name, joined) {
            ("quiet" | "help", Some(_)) => return Err(format!("--{name} takes no value")),
            ("quiet", None) => self.quiet = true,
            ("help", None) => self.help = true,
            (_, joined) => match (flag, joined) {
                (Some(_), Some(_)) => return Err(format!("--{name} takes no value")),
                (Some((_, setting, value)), None) => self.settings.0.push((String::from(*setting), String::from(*value))),
                (None, joined) => self.take_value(name, joined, words, verb)?,
            },
        }
        Ok(())
    }

    fn take_value(
        &mut self, name: &str, joined: Option<String>, words: &mut dyn Iterator<Item = String>, verb: &Verb,
    ) -> Result<(), String> {
        let own = name == "rig" || verb.own.contains(&name);
        if !own && !verb.takes(name) {
            return Err(format!("--{name} is not an option here"));
        }
        let value = joined.or_else(|| words.next()).ok_or_else(|| format!("--{name} needs a value"))?;
        let pair = (String::from(name), value);
        if own { self.named.push(pair) } else { self.settings.0.push(pair) }
        Ok(())
    }

    /// The value of a name of the verb's own; of one that is given twice the last counts.
    fn own(&self, name: &str) -> Option<String> {
        self.named.iter().rev().find(|(known, _)| known == name).map(|(_, value)| value.clone())
    }

    /// The map that is named in the place of a pair, with which no option of a match goes: it would seem to be heeded.
    fn map(&self) -> Result<Option<String>, String> {
        let of_a_match = |name: &&String| SEARCH.contains(&name.as_str()) || MATCHING.contains(&name.as_str());
        let map = self.own("map");
        match self.settings.0.iter().map(|(name, _)| name).find(of_a_match) {
            Some(name) if map.is_some() => Err(format!("--{name} goes with two pictures, and not with --map")),
            _ => Ok(map),
        }
    }

    /// The files, of which there must be so many, in a word too.
    fn files<const N: usize>(&self, many: &str) -> Result<[String; N], String> {
        let count = self.files.len();
        <[String; N]>::try_from(self.files.clone()).map_err(|_| format!("{many} files are needed, and {count} were given"))
    }
}

const MATCH: Verb = Verb { settings: &[SEARCH, MATCHING, EXPECTED], own: &[], deed: match_deed };
const VOLUME: Verb =
    Verb { settings: &[SEARCH, MATCHING, CAMERA, SITE, EXPECTED], own: &["map", "heights"], deed: volume_deed };
const POINTS: Verb = Verb { settings: &[SEARCH, MATCHING, CAMERA, EXPECTED], own: &["map", "picture"], deed: points_deed };
const CHECK: Verb = Verb { settings: &[SEARCH, EXPECTED], own: &[], deed: check_deed };
const WRITE_SHEET: Verb = Verb { settings: &[], own: &["kind"], deed: write_sheet_deed };
const READ_SHEET: Verb = Verb { settings: &[], own: &[], deed: read_sheet_deed };

fn match_deed(words: &Sorted) -> Result<Deed, String> {
    let (files, preview) = match &words.files[..] {
        [files @ .., preview] if files.len() == 3 => (files.to_vec(), Some(preview.clone())),
        files => (files.to_vec(), None),
    };
    let count = files.len();
    let three = <[String; 3]>::try_from(files);
    let [left, right, map] = three.map_err(|_| format!("three files are needed, or four with a preview, and {count} were given"))?;
    Ok(Deed::Match { left, right, map, preview })
}

fn volume_deed(words: &Sorted) -> Result<Deed, String> {
    let source = match words.map()? {
        Some(map) => {
            let [] = words.files("no other")?;
            Source::Map(map)
        }
        None => {
            let [left, right] = words.files("two")?;
            Source::Pair { left, right }
        }
    };
    Ok(Deed::Volume { source, heights: words.own("heights") })
}

fn points_deed(words: &Sorted) -> Result<Deed, String> {
    match words.map()? {
        Some(map) => {
            let [points] = words.files("one")?;
            Ok(Deed::Points { source: Source::Map(map), picture: words.own("picture"), points })
        }
        None if words.own("picture").is_some() => Err(String::from("--picture goes with --map; of a pair the left picture is taken")),
        None => {
            let [left, right, points] = words.files("three")?;
            Ok(Deed::Points { source: Source::Pair { left, right }, picture: None, points })
        }
    }
}

fn check_deed(words: &Sorted) -> Result<Deed, String> {
    let [left, right, map] = words.files("three")?;
    Ok(Deed::Check { left, right, map })
}

fn write_sheet_deed(words: &Sorted) -> Result<Deed, String> {
    let [map, sheet] = words.files("two")?;
    let kind = match words.own("kind").as_deref() {
        None | Some("exact") => Kind::Exact,
        Some("whole") => Kind::Whole,
        Some(other) => return Err(format!("--kind does not take the value {other}")),
    };
    Ok(Deed::WriteSheet { map, sheet, kind })
}

fn read_sheet_deed(words: &Sorted) -> Result<Deed, String> {
    let [sheet, map] = words.files("two")?;
    Ok(Deed::ReadSheet { sheet, map })
}

/// The words behind a verb.
fn behind(words: &mut dyn Iterator<Item = String>, topic: Topic) -> Result<Asked, Senseless> {
    let verb = match topic {
        Topic::Match => MATCH,
        Topic::Volume => VOLUME,
        Topic::Points => POINTS,
        Topic::Check => CHECK,
        Topic::WriteSheet => WRITE_SHEET,
        Topic::ReadSheet => READ_SHEET,
        Topic::All | Topic::Sheet | Topic::Rig => return Ok(Asked::Help(topic)),
    };
    let senseless = |why| Senseless { why, topic };
    let sorted = Sorted::new(words, &verb).map_err(senseless)?;
    if sorted.help {
        return Ok(Asked::Help(topic));
    }
    let deed = (verb.deed)(&sorted).map_err(senseless)?;
    sorted.settings.apply(&mut Settings::default()).map_err(senseless)?;
    Ok(Asked::Do { deed, rig: sorted.own("rig"), quiet: sorted.quiet, settings: sorted.settings })
}

/// Which verb of sheets the words ask for.
fn sheet(words: &mut dyn Iterator<Item = String>) -> Result<Asked, Senseless> {
    match words.next().as_deref() {
        Some("write") => behind(words, Topic::WriteSheet),
        Some("read") => behind(words, Topic::ReadSheet),
        Some("--help" | "-h") => Ok(Asked::Help(Topic::Sheet)),
        _ => Err(Senseless { why: String::from("sheet is followed by write or read"), topic: Topic::Sheet }),
    }
}

/// What `help` and the words behind it ask for.
fn help(words: &mut dyn Iterator<Item = String>) -> Result<Asked, Senseless> {
    let name = words.collect::<Vec<String>>().join(" ");
    let topic = Topic::ALL.into_iter().find(|topic| topic.name() == name);
    topic.map(Asked::Help).ok_or_else(|| Senseless { why: format!("there is no help on {name}"), topic: Topic::All })
}

/// What the words behind the program's name ask for.
pub fn parse(words: impl IntoIterator<Item = String>) -> Result<Asked, Senseless> {
    let words = &mut words.into_iter();
    let nothing = |why: String| Err(Senseless { why, topic: Topic::All });
    match words.next().as_deref() {
        Some("match") => behind(words, Topic::Match),
        Some("volume") => behind(words, Topic::Volume),
        Some("points") => behind(words, Topic::Points),
        Some("check") => behind(words, Topic::Check),
        Some("sheet") => sheet(words),
        Some("help") => help(words),
        Some("--help" | "-h") => Ok(Asked::Help(Topic::All)),
        Some("--version") => Ok(Asked::Version),
        Some(other) => nothing(format!("{other} is not a thing that plombrisa does")),
        None => nothing(String::from("nothing was asked for")),
    }
}
