//! OpenCV's maps as a vendor's, checked by the library and by the plain Rust; opencv.sh runs it.
//!
//! `opencv_table pairs FOLDER` writes each pair as the PGM files NAME-left.pgm and NAME-right.pgm, and prints a line for it: its name,
//! the first disparity, their count, and the block's side.
//! `opencv_table table FOLDER` reads these again with the maps NAME-bm.pfm and NAME-sgbm.pfm, and prints a table of what is wrong with
//! them, with the library's own block map beside them. The status is 1 where the two sides do not agree, or that map does not pass.
use heap::scene::Scene;
use plombrisa::{Map, Options, OwnedPicture, Verdict, check_vendor, match_block, read_pfm, read_pgm};
use runs::pictures::textured_pair;
use runs::rng::Rng;
use std::fs;
use std::process::exit;
use vendor_run::judge::{Asked, Fault, Grid, Judged, Search, judge};

/// A pair, and how it is searched: OpenCV takes counts that are multiples of 16, and blocks from 5 on.
struct Tried {
    name: &'static str,
    scene: fn() -> Scene,
    min_disparity: i32,
    num_disparities: i32,
    block_size: usize,
}

/// The pair of the README, the same heap drawn larger, and a textured pair with a little noise; the first in two searches.
const TRIED: [Tried; 4] = [
    Tried { name: "heap", scene: Scene::example, min_disparity: 0, num_disparities: 32, block_size: 7 },
    Tried { name: "heap-near", scene: Scene::example, min_disparity: 4, num_disparities: 16, block_size: 9 },
    Tried { name: "heap-large", scene: || Scene::new(400, 300), min_disparity: 0, num_disparities: 32, block_size: 11 },
    Tried { name: "textured", scene: textured, min_disparity: 0, num_disparities: 16, block_size: 7 },
];

/// The maps of each pair, by the name that the file has and in words.
const MATCHERS: [(&str, &str); 2] = [("bm", "OpenCV StereoBM"), ("sgbm", "OpenCV StereoSGBM")];

fn textured() -> Scene {
    let (width, height) = (320, 240);
    let [left, right] = textured_pair(&mut Rng::new(1), width, height);
    Scene { width, height, left, right }
}

fn write_pairs(folder: &str) {
    for Tried { name, scene, min_disparity, num_disparities, block_size } in TRIED {
        for (side, bytes) in ["left", "right"].iter().zip(scene().pgm_files()) {
            fs::write(format!("{folder}/{name}-{side}.pgm"), bytes).expect("the file can be written");
        }
        println!("{name} {min_disparity} {num_disparities} {block_size}");
    }
}

fn bytes_of(file: &str) -> Vec<u8> {
    fs::read(file).unwrap_or_else(|error| panic!("{file}: {error}"))
}

/// A pair that was read, and the options that its maps are checked with.
struct Pair {
    left: OwnedPicture,
    right: OwnedPicture,
    options: Options,
}

impl Pair {
    fn read(folder: &str, tried: &Tried) -> Self {
        let picture = |side: &str| read_pgm(&bytes_of(&format!("{folder}/{}-{side}.pgm", tried.name))).expect("a PGM file");
        let Tried { min_disparity, num_disparities, block_size, .. } = *tried;
        let options = Options { min_disparity, num_disparities, block_size, subpixel: false, ..Options::default() };
        Self { left: picture("left"), right: picture("right"), options }
    }

    fn sized<'a>(&self, cells: &'a [f32]) -> Map<'a> {
        Map { cells, width: self.left.width, height: self.left.height }
    }

    /// A map judged by the plain Rust, with this least correlation; the library's verdict must be the same.
    fn judged(&self, cells: &[f32], min_correlation: f32) -> Judged {
        let options = Options { min_correlation, ..self.options };
        let Options { min_disparity, num_disparities, block_size, .. } = options;
        let (width, height) = (self.left.width, self.left.height);
        let asked = Asked {
            left: Grid { cells: &self.left.bytes, width, height },
            right: Grid { cells: &self.right.bytes, width, height },
            search: Search { min_disparity, num_disparities, block_size, min_correlation },
            map: Grid { cells, width, height },
        };
        let judged = judge(&asked, usize::MAX).expect("accepted");
        let should = judged.first_bad().map_or(Verdict::Yes, |(x, y)| Verdict::No { x, y });
        let verdict = check_vendor(self.left.picture(), self.right.picture(), &options, self.sized(cells)).expect("accepted");
        if verdict != should {
            println!("DIFFERENT: the library answers {verdict:?}, the plain Rust {should:?}");
            exit(1);
        }
        judged
    }
}

/// A part of a whole in words, with its share.
fn share(part: usize, whole: usize) -> String {
    format!("{part} ({:.1} %)", 100.0 * part as f64 / whole.max(1) as f64)
}

/// A row of the table, and whether the map passes.
fn row(name: &str, pair: &Pair, matcher: &str, cells: &[f32]) -> bool {
    let Options { min_disparity, num_disparities, block_size, min_correlation, .. } = pair.options;
    let judged = pair.judged(cells, min_correlation);
    let any_correlation = pair.judged(cells, -1.0);
    let bad = |judged: &Judged| judged.faults.iter().flatten().count();
    let with = |fault: Fault| judged.faults.iter().flatten().filter(|one| **one == fault).count();
    let valid = cells.iter().filter(|cell| cell.is_finite()).count();
    let verdict = judged.first_bad().map_or(String::from("yes"), |(x, y)| format!("no, ({x}, {y})"));
    println!(
        "| {name}, {}x{} | {min_disparity}, {num_disparities}, {block_size} | {matcher} | {valid} | {verdict} | {} | {} | {} | {} | {} | \
         {} |",
        pair.left.width, pair.left.height, share(bad(&judged), valid), with(Fault::NotSearched), with(Fault::Blank),
        with(Fault::BelowMinimum), with(Fault::Beaten), share(bad(&any_correlation), valid),
    );
    judged.first_bad().is_none()
}

/// The map in a file, which must be of the pair's size.
fn map_of(file: &str, pair: &Pair) -> Vec<f32> {
    let map = read_pfm(&bytes_of(file)).expect("a PFM file");
    assert_eq!((map.width, map.height), (pair.left.width, pair.left.height), "{file}");
    map.cells
}

fn print_table(folder: &str) {
    println!(
        "| pair | first, count, block | map | valid cells | verdict, first bad cell | bad cells | not searched | raw cost blank | \
         raw cost below {} | raw cost beaten | bad cells with min_correlation -1 |",
        Options::default().min_correlation,
    );
    println!("|---|---|---|---|---|---|---|---|---|---|---|");
    for tried in &TRIED {
        let pair = Pair::read(folder, tried);
        for (matcher, words) in MATCHERS {
            row(tried.name, &pair, words, &map_of(&format!("{folder}/{}-{matcher}.pfm", tried.name), &pair));
        }
        let own = match_block(pair.left.picture(), pair.right.picture(), &pair.options).expect("accepted");
        if !row(tried.name, &pair, "our own block map", &own) {
            println!("DIFFERENT: our own block map must pass");
            exit(1);
        }
    }
    println!("the library and the plain Rust agree on all {} verdicts", 2 * (MATCHERS.len() + 1) * TRIED.len());
}

fn main() {
    let words: Vec<String> = std::env::args().skip(1).collect();
    let words: Vec<&str> = words.iter().map(String::as_str).collect();
    match words.as_slice() {
        ["pairs", folder] => write_pairs(folder),
        ["table", folder] => print_table(folder),
        _ => panic!("opencv_table pairs FOLDER | table FOLDER"),
    }
}
