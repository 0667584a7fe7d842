//! Files of other programs, kept in samples/ with what those programs say they hold (samples/samples.sh says how), read by the
//! library.
use netpbm_run::format;
use plombrisa::{Map, read_pfm, read_pgm, write_pfm};
use runs::same::same_cells;
use std::fs;
use std::path::{Path, PathBuf};

/// The samples with an ending, without it; there must be some.
fn samples(ending: &str) -> Vec<PathBuf> {
    let folder = Path::new(env!("CARGO_MANIFEST_DIR")).join("samples");
    let files = fs::read_dir(folder).expect("the samples").map(|entry| entry.expect("an entry").path());
    let with_it = files.filter(|file| file.extension().is_some_and(|its| its == ending));
    let found: Vec<PathBuf> = with_it.map(|file| file.with_extension("")).collect();
    assert!(!found.is_empty(), "no sample ends in {ending}");
    found
}

fn bytes_of(sample: &Path, ending: &str) -> Vec<u8> {
    fs::read(sample.with_extension(ending)).expect("a sample's file")
}

fn words_of(sample: &Path) -> Vec<String> {
    String::from_utf8(bytes_of(sample, "txt")).expect("a text").split_whitespace().map(String::from).collect()
}

/// The width, the height, the maximum and the levels of plain PGM.
fn plain(words: &[String]) -> (usize, usize, u32, Vec<u32>) {
    let number = |word: &String| word.parse().expect("a number");
    (number(&words[1]) as usize, number(&words[2]) as usize, number(&words[3]), words[4..].iter().map(number).collect())
}

/// The size of the scale in a PFM file's third line.
fn scale_of(file: &[u8]) -> f32 {
    let line = file.split(|&byte| byte == b'\n').nth(2).expect("three lines");
    str::from_utf8(line).expect("a text").parse::<f32>().expect("a scale").abs()
}

/// The width, the height and the cells that a PFM file was made from.
fn made_from(sample: &Path) -> (usize, usize, Vec<f32>) {
    let words = words_of(sample);
    if words[0] == "P2" {
        let (width, height, maximum, levels) = plain(&words);
        let scale = scale_of(&bytes_of(sample, "pfm"));
        let cells = levels.iter().map(|&level| level as f32 / maximum as f32 * scale).collect();
        return (width, height, cells);
    }
    let side = |word: &String| word.parse().expect("a side");
    let cell = |word: &String| f32::from_bits(u32::from_str_radix(word, 16).expect("bits"));
    (side(&words[0]), side(&words[1]), words[2..].iter().map(cell).collect())
}

fn blanked(cells: &[f32]) -> Vec<f32> {
    cells.iter().map(|&cell| if cell.is_finite() { cell } else { f32::NAN }).collect()
}

#[test]
fn pgm_files_have_their_levels() {
    for sample in samples("pgm") {
        let (width, height, maximum, levels) = plain(&words_of(&sample));
        let picture = read_pgm(&bytes_of(&sample, "pgm")).unwrap_or_else(|refusal| panic!("{sample:?}: {refusal}"));
        assert_eq!((picture.width, picture.height, 255), (width, height, maximum), "{sample:?}");
        assert!(picture.bytes.iter().map(|&level| u32::from(level)).eq(levels), "{sample:?}");
    }
}

#[test]
fn pfm_files_have_their_cells() {
    for sample in samples("pfm") {
        let (width, height, cells) = made_from(&sample);
        let map = read_pfm(&bytes_of(&sample, "pfm")).unwrap_or_else(|refusal| panic!("{sample:?}: {refusal}"));
        assert_eq!((map.width, map.height), (width, height), "{sample:?}");
        same_cells("cells", &map.cells, &blanked(&cells)).unwrap_or_else(|why| panic!("{sample:?}: {why}"));
    }
}

/// OpenCV writes the scale -1 and NaNs as they are; otherwise the library's file is OpenCV's.
#[test]
fn what_the_library_writes_is_what_opencv_writes() {
    let mut seen = 0;
    for sample in samples("pfm").iter().filter(|sample| sample.to_string_lossy().contains("opencv")) {
        let (width, height, cells) = made_from(sample);
        let as_written: Vec<f32> = cells.iter().map(|&cell| if cell.is_nan() { f32::INFINITY } else { cell }).collect();
        let theirs = bytes_of(sample, "pfm");
        let header = format!("Pf\n{width} {height}\n-1\n");
        let data = theirs.strip_prefix(header.as_bytes()).expect("OpenCV's header");
        let mut expected = format!("Pf\n{width} {height}\n-1.0\n").into_bytes();
        for (four, (cell, written)) in data.chunks_exact(4).zip(bottom_first(&cells, width).zip(bottom_first(&as_written, width))) {
            assert_eq!(four, cell.to_le_bytes(), "{sample:?}");
            expected.extend(written.to_le_bytes());
        }
        assert!(write_pfm(Map { cells: &cells, width, height }).expect("a map") == expected, "{sample:?}");
        seen += 1;
    }
    assert_eq!(seen, 3);
}

/// The cells by rows, the bottom row first.
fn bottom_first(cells: &[f32], width: usize) -> impl Iterator<Item = f32> {
    cells.chunks(width).rev().flatten().copied()
}

/// The plain Rust reads the samples as the other programs do, without which the run over made inputs would say nothing of them.
#[test]
fn the_plain_rust_reads_them_too() {
    for sample in samples("pgm") {
        let (width, height, _, levels) = plain(&words_of(&sample));
        let mut found = Vec::new();
        assert_eq!(format::read_pgm(&bytes_of(&sample, "pgm"), &mut found), Ok(format::Size { width, height }), "{sample:?}");
        assert!(found.iter().map(|&level| u32::from(level)).eq(levels), "{sample:?}");
    }
    for sample in samples("pfm") {
        let (width, height, cells) = made_from(&sample);
        let mut found = Vec::new();
        assert_eq!(format::read_pfm(&bytes_of(&sample, "pfm"), &mut found), Ok(format::Size { width, height }), "{sample:?}");
        same_cells("cells", &found, &blanked(&cells)).unwrap_or_else(|why| panic!("{sample:?}: {why}"));
    }
}
