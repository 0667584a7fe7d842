//! What the library reads and writes, as words that can be compared with those of other programs; peers.sh runs it.
//!
//! `peers levels FILE..` prints each PGM file as plain PGM, one word a line, as `pnmtoplainpnm` does but for its blank space.
//! `peers cells FILE..` prints each PFM file as its width and height, and then the bits of its cells, the top row first.
//! `peers write MAP FILE` writes a map that is given as `cells` prints it.
//! `peers write-levels PLAIN FILE` writes the map of a plain PGM file, each level divided by the maximum.
//! `peers longest-side` prints the longest side of a file.
//!
//! A file that is refused is printed as the word `refused` and the number.
use plombrisa::{Error, Map, OwnedMap, OwnedPicture, read_pfm, read_pgm, write_pfm};
use runs::limits::SIDE_MOST;
use std::fs;

fn print_picture(picture: &OwnedPicture) {
    println!("P2\n{}\n{}\n255", picture.width, picture.height);
    let levels: Vec<String> = picture.bytes.iter().map(|level| level.to_string()).collect();
    println!("{}", levels.join("\n"));
}

fn print_map(map: &OwnedMap) {
    println!("{} {}", map.width, map.height);
    for row in map.cells.chunks(map.width) {
        let bits: Vec<String> = row.iter().map(|cell| format!("{:08X}", cell.to_bits())).collect();
        println!("{}", bits.join(" "));
    }
}

fn words_of(file: &str) -> Vec<String> {
    fs::read_to_string(file).expect("a text").split_whitespace().map(String::from).collect()
}

/// A map as `cells` prints it.
fn map_of_bits(file: &str) -> OwnedMap {
    let words = words_of(file);
    let side = |i: usize| words[i].parse().expect("a side");
    let cells = words[2..].iter().map(|bits| f32::from_bits(u32::from_str_radix(bits, 16).expect("bits"))).collect();
    OwnedMap { cells, width: side(0), height: side(1) }
}

/// The map of a plain PGM file.
fn map_of_levels(file: &str) -> OwnedMap {
    let words = words_of(file);
    assert_eq!(words[0], "P2");
    let number = |word: &String| word.parse().expect("a number");
    let [width, height, maximum] = [1, 2, 3].map(|i| number(&words[i]));
    let cells = words[4..].iter().map(|level| number(level) as f32 / maximum as f32).collect();
    OwnedMap { cells, width, height }
}

/// A refusal as a word and its number; a want of memory in its sentence, which no other program's words are.
fn print_error(error: Error) {
    match error {
        Error::Refused(refusal) => println!("refused {}", refusal.number()),
        Error::Memory { .. } => println!("{error}"),
    }
}

fn write(map: Map, file: &str) {
    match write_pfm(map) {
        Ok(bytes) => fs::write(file, bytes).expect("the file can be written"),
        Err(error) => print_error(error),
    }
}

fn main() {
    let words: Vec<String> = std::env::args().skip(1).collect();
    let words: Vec<&str> = words.iter().map(String::as_str).collect();
    let bytes = |file: &str| fs::read(file).expect("a file");
    match words.as_slice() {
        ["levels", files @ ..] => {
            for file in files {
                read_pgm(&bytes(file)).map_or_else(print_error, |picture| print_picture(&picture));
            }
        }
        ["cells", files @ ..] => {
            for file in files {
                read_pfm(&bytes(file)).map_or_else(print_error, |map| print_map(&map));
            }
        }
        ["write", map, file] => write(map_of_bits(map).map(), file),
        ["write-levels", plain, file] => write(map_of_levels(plain).map(), file),
        ["longest-side"] => println!("{SIDE_MOST}"),
        _ => panic!("peers levels FILE.. | cells FILE.. | write MAP FILE | write-levels PLAIN FILE | longest-side"),
    }
}
