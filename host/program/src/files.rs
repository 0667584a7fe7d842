//! Files in and out. An output is tried before the long work and written whole or not at all: into a file of another name beside it, which
//! takes its place at the end. No output is written over an input.
use std::fs::{self, File, OpenOptions};
use std::io::{self, Read, Write};
use std::os::unix::fs::MetadataExt;
use std::path::{Path, PathBuf};

/// Standard input or standard output.
pub const STANDARD: &str = "-";

/// A file's name as it is said to a person.
pub fn name_of<'a>(file: &'a str, standard: &'a str) -> &'a str {
    if file == STANDARD { standard } else { file }
}

fn input_name(file: &str) -> &str {
    name_of(file, "standard input")
}

/// The bytes of a file, or of standard input.
pub fn read(file: &str) -> Result<Vec<u8>, String> {
    let unreadable = |error: io::Error| format!("{}: cannot be read: {error}", input_name(file));
    if file != STANDARD {
        return fs::read(file).map_err(unreadable);
    }
    let mut bytes = Vec::new();
    io::stdin().lock().read_to_end(&mut bytes).map_err(unreadable)?;
    Ok(bytes)
}

/// Refuses words that read standard input twice.
pub fn read_once(inputs: &[&str]) -> Result<(), String> {
    let standard = inputs.iter().filter(|file| **file == STANDARD).count();
    if standard > 1 { Err(String::from("standard input can be read once only")) } else { Ok(()) }
}

/// An output that was tried, and is not written yet.
pub struct Output {
    name: String,
    target: Target,
}

enum Target {
    Standard,
    /// A device or a pipe, which is written to as it is.
    Device(File),
    /// The file's place, and the file beside it that is to take it.
    Beside { place: PathBuf, beside: PathBuf, file: File },
}

/// The place of a file that is there, where a link points to, or of one that is to be in its folder.
fn place_of(file: &str) -> PathBuf {
    let to_be = || {
        let path = Path::new(file);
        let folder = path.parent().filter(|folder| !folder.as_os_str().is_empty()).unwrap_or(Path::new("."));
        Some(fs::canonicalize(folder).ok()?.join(path.file_name()?))
    };
    fs::canonicalize(file).ok().or_else(to_be).unwrap_or_else(|| PathBuf::from(file))
}

/// A new file beside a place, with the rights of the file that is there, which must be one that may be written.
fn new_beside(place: &Path) -> io::Result<(PathBuf, File)> {
    let name = place.file_name().ok_or(io::ErrorKind::IsADirectory)?;
    let beside = place.with_file_name(format!(".{}.{}.part", name.to_string_lossy(), std::process::id()));
    let rights = match OpenOptions::new().write(true).open(place) {
        Ok(there) => Some(there.metadata()?.permissions()),
        Err(error) if error.kind() == io::ErrorKind::NotFound => None,
        Err(error) => return Err(error),
    };
    let file = OpenOptions::new().write(true).create_new(true).open(&beside)?;
    rights.map_or(Ok(()), |rights| file.set_permissions(rights))?;
    Ok((beside, file))
}

impl Target {
    fn open(file: &str) -> io::Result<Self> {
        if file == STANDARD {
            return Ok(Self::Standard);
        }
        let place = place_of(file);
        match fs::metadata(&place) {
            Ok(there) if there.is_dir() => Err(io::ErrorKind::IsADirectory.into()),
            Ok(there) if !there.is_file() => OpenOptions::new().write(true).open(&place).map(Self::Device),
            _ => new_beside(&place).map(|(beside, file)| Self::Beside { place, beside, file }),
        }
    }
}

/// Whether two names are those of one file.
fn same_file(one: &str, other: &str) -> bool {
    let identity = |file: &str| fs::metadata(file).ok().map(|there| (there.dev(), there.ino()));
    let named = one != STANDARD && other != STANDARD;
    named && (place_of(one) == place_of(other) || identity(one).is_some_and(|id| identity(other) == Some(id)))
}

impl Output {
    /// Tries an output that is not to be written over these inputs.
    pub fn open(file: &str, inputs: &[&str]) -> Result<Self, String> {
        let name = String::from(name_of(file, "standard output"));
        if inputs.iter().any(|input| same_file(file, input)) && fs::metadata(file).is_ok_and(|there| there.is_file()) {
            return Err(format!("{name}: is read, and would be written over"));
        }
        let target = Target::open(file).map_err(|error| format!("{name}: cannot be written: {error}"))?;
        Ok(Self { name, target })
    }

    fn write(&mut self, bytes: &[u8]) -> io::Result<()> {
        match &mut self.target {
            Target::Standard => {
                let mut out = io::stdout().lock();
                out.write_all(bytes)?;
                out.flush()
            }
            Target::Device(file) => file.write_all(bytes),
            Target::Beside { file, .. } => {
                file.write_all(bytes)?;
                file.sync_all()
            }
        }
    }

    /// Puts what was written in its place.
    fn settle(self) -> Result<(), String> {
        match &self.target {
            Target::Beside { place, beside, .. } => {
                fs::rename(beside, place).map_err(|error| format!("{}: cannot be written: {error}", self.name))
            }
            _ => Ok(()),
        }
    }
}

impl Drop for Output {
    /// What did not take its place goes; once it has, there is nothing of that name.
    fn drop(&mut self) {
        if let Target::Beside { beside, .. } = &self.target {
            let _ = fs::remove_file(beside);
        }
    }
}

/// Opens the outputs of a deed, none of which may be an input or another output.
pub fn open_all(files: &[&str], inputs: &[&str]) -> Result<Vec<Output>, String> {
    for (at, file) in files.iter().enumerate() {
        if files[..at].iter().any(|other| file == other || same_file(file, other)) {
            return Err(format!("{}: is named for two outputs", name_of(file, "standard output")));
        }
    }
    files.iter().map(|file| Output::open(file, inputs)).collect()
}

/// Writes each output, and only when all are written puts them in their places.
pub fn write_all(outputs: Vec<Output>, contents: &[Vec<u8>]) -> Result<(), String> {
    let mut outputs = outputs;
    for (output, bytes) in outputs.iter_mut().zip(contents) {
        output.write(bytes).map_err(|error| format!("{}: cannot be written: {error}", output.name))?;
    }
    outputs.into_iter().try_for_each(Output::settle)
}
