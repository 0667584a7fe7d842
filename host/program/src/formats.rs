//! What a file is that is no PGM picture or no PFM map, and what turns it into one: words for a person, never a changed answer.
use plombrisa::Refusal;

/// A format that is met in the place of another, by its first bytes, and the Netpbm command that makes PGM of it.
struct Met {
    begins: &'static [u8],
    name: &'static str,
    converted_by: &'static str,
}

const fn met(begins: &'static [u8], name: &'static str, converted_by: &'static str) -> Met {
    Met { begins, name, converted_by }
}

/// `FILE` stands for the file's name. pamdepth brings every maximum to 255.
const PICTURES: &[Met] = &[
    met(b"P6", "a PPM picture in colours", "ppmtopgm FILE | pamdepth 255"),
    met(b"P3", "a plain PPM picture in colours", "ppmtopgm FILE | pamdepth 255"),
    met(b"P2", "a plain PGM picture", "pnmtopnm FILE | pamdepth 255"),
    met(b"P7", "a PAM picture", "pamtopnm FILE | ppmtopgm | pamdepth 255"),
    met(b"\x89PNG", "a PNG picture", "pngtopam FILE | ppmtopgm | pamdepth 255"),
    met(b"\xFF\xD8\xFF", "a JPEG picture", "jpegtopnm FILE | ppmtopgm"),
    met(b"II*\0", "a TIFF picture", "tifftopnm FILE | ppmtopgm | pamdepth 255"),
    met(b"MM\0*", "a TIFF picture", "tifftopnm FILE | ppmtopgm | pamdepth 255"),
    met(b"BM", "a BMP picture", "bmptopnm FILE | ppmtopgm | pamdepth 255"),
];

/// What makes a binary PGM file with the maximum 255 of another.
const TO_255: &str = "pamdepth 255 FILE";

/// What else is met in a picture's place, which no command makes a picture of.
const NO_PICTURES: &[(&[u8], &str)] = &[
    (b"P1", "a plain PBM bitmap, which has no grey levels"),
    (b"P4", "a PBM bitmap, which has no grey levels"),
    (b"Pf", "a PFM map and no picture"),
    (b"PF", "a PFM file in colours, which no map is"),
    (b"P5", "a PGM file whose header is cut or malformed"),
];

/// What is met in a map's place, but for what is met in a picture's too.
const NO_MAPS: &[(&[u8], &str)] = &[(b"Pf", "a PFM file whose header is cut or malformed"), (b"P5", "a PGM picture")];

fn conversion(command: &str, file: &str) -> String {
    format!("{} > NEW.pgm converts it (Netpbm)", command.replace("FILE", file))
}

/// What a file is that was refused as no PGM picture (41).
fn not_pgm(bytes: &[u8], file: &str) -> String {
    if bytes.is_empty() {
        return String::from("the file is empty");
    }
    if let Some(met) = PICTURES.iter().find(|met| bytes.starts_with(met.begins)) {
        return format!("it is {}: {}", met.name, conversion(met.converted_by, file));
    }
    match NO_PICTURES.iter().find(|(begins, _)| bytes.starts_with(begins)) {
        Some((_, name)) => format!("it is {name}"),
        None => String::from("it is no picture of a format that is known here"),
    }
}

/// What a file is that was refused as no PFM map (41).
fn not_pfm(bytes: &[u8]) -> String {
    if bytes.is_empty() {
        return String::from("the file is empty");
    }
    let pictures = PICTURES.iter().map(|met| (met.begins, met.name));
    let mut known = NO_MAPS.iter().copied().chain(pictures).chain(NO_PICTURES.iter().copied());
    match known.find(|(begins, _)| bytes.starts_with(begins)) {
        Some((_, name)) => format!("it is {name}"),
        None => String::from("it is no map of a format that is known here"),
    }
}

/// The numbers and the length of a header: words between white space, in PGM with comments to the end of a line. The header was read by
/// the library already, so this only finds its figures again.
struct Header {
    numbers: Vec<String>,
    length: usize,
}

fn header(bytes: &[u8], words: usize) -> Header {
    let (mut numbers, mut word, mut at, mut comment) = (Vec::new(), String::new(), 2, false);
    while at < bytes.len() && numbers.len() < words {
        let byte = bytes[at];
        comment = if comment { byte != b'\n' } else { byte == b'#' };
        let ends = byte.is_ascii_whitespace() || comment;
        if !ends {
            word.push(byte as char);
        } else if !word.is_empty() {
            numbers.push(std::mem::take(&mut word));
        }
        at += 1;
    }
    Header { numbers, length: at }
}

/// By how many bytes the data of a file are cut or too long (44): cells of so many bytes, behind a header of three words.
fn data_off(bytes: &[u8], cell: usize) -> Option<String> {
    let header = header(bytes, 3);
    let side = |at: usize| header.numbers.get(at)?.parse::<usize>().ok();
    let needed = side(0)?.checked_mul(side(1)?)?.checked_mul(cell)?;
    let there = bytes.len().checked_sub(header.length)?;
    let off = |count: usize| if count == 1 { String::from("1 byte is") } else { format!("{count} bytes are") };
    Some(match there.checked_sub(needed) {
        None => format!("the data are cut: {} missing of {needed}", off(needed - there)),
        Some(over) => format!("{} left over behind the {needed} of the data", off(over)),
    })
}

/// The figures of a header that was refused for them (42, 43).
fn figures(bytes: &[u8]) -> String {
    header(bytes, 3).numbers.join(" ")
}

/// What more there is to say of a picture file that was refused.
pub fn of_picture(refusal: Refusal, bytes: &[u8], file: &str) -> Option<String> {
    match refusal {
        Refusal::FileHeader => Some(not_pgm(bytes, file)),
        Refusal::FileMaximum => {
            let deep = header(bytes, 3).numbers.get(2).and_then(|number| number.parse::<u64>().ok()).is_some_and(|most| most > 255);
            let name = if deep { "it is a 16-bit PGM picture" } else { "its levels do not go to 255" };
            Some(format!("{name}: {}", conversion(TO_255, file)))
        }
        Refusal::FileSize => Some(format!("the header says {}", figures(bytes))),
        Refusal::FileData => data_off(bytes, 1),
        _ => None,
    }
}

/// What more there is to say of a map file that was refused.
pub fn of_map(refusal: Refusal, bytes: &[u8]) -> Option<String> {
    match refusal {
        Refusal::FileHeader => Some(not_pfm(bytes)),
        Refusal::FileSize => Some(format!("the header says {}", figures(bytes))),
        Refusal::FileData => data_off(bytes, 4),
        _ => None,
    }
}
