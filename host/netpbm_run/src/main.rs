//! Holds the library's PGM and PFM to another reading of the request: the same inputs on both sides, every answer, every byte and
//! every cell, lent or beside what was lent.
//!
//! `netpbm_run [SEED] [COUNT]`; the same seed gives the same inputs in the same order, after some that are always there. The
//! status is 1 after a difference, with the input, and where some refusal was never answered, for then the inputs were too few to
//! say anything of it.
mod check;
mod files;
mod maps;

use check::Both;
use files::{Format, Reading};
use runs::maps::MadeMap;
use runs::program::seed_and_count;
use runs::recipes::follow_one;
use runs::rng::Rng;
use runs::sizes::SQUARE_MOST;
use runs::tally::Tally;

/// The kinds of call, with the refusals that each answers.
const PGM: (&str, &[u32]) = ("reading PGM", &[41, 42, 43, 44, 45]);
const PFM: (&str, &[u32]) = ("reading PFM", &[41, 43, 44, 45]);
const WRITING: (&str, &[u32]) = ("writing PFM", &[23, 45]);

struct Run {
    both: Both,
    tally: Tally,
}

impl Run {
    fn read(&mut self, recipe: &'static str, input: &Reading) {
        match input.format {
            Format::Pgm => self.tally.count(PGM.0, recipe, input, self.both.check_pgm(input)),
            Format::Pfm => self.tally.count(PFM.0, recipe, input, self.both.check_pfm(input)),
        }
    }

    fn write(&mut self, recipe: &'static str, input: &MadeMap) {
        self.tally.count(WRITING.0, recipe, input, self.both.check_writing(input));
    }
}

/// Small files of which every byte is replaced by every other, and which are cut everywhere.
const SMALL: [(Format, &[u8], usize); 6] = [
    (Format::Pgm, b"P5\n2 1\n255\nab", 2),
    (Format::Pgm, b"P5#c\n2#\r1 #\n255 ab", 2),
    (Format::Pgm, b"P5 10 1 255 0123456789", 10),
    (Format::Pfm, b"Pf\n1 2\n-1.0\n\x01\x02\x03\x04\x05\x06\x07\x08", 2),
    (Format::Pfm, b"Pf\n2 1\n+1\n\x01\x02\x03\x04\x05\x06\x07\x08", 2),
    (Format::Pfm, b"Pf\n1 1\n0.01\n\x01\x02\x03\x04", 1),
];

/// Every byte at every place of some small files, and every cut of them.
fn every_byte(run: &mut Run, reading: &mut Reading) {
    for (format, file, cells) in SMALL {
        for at in 0..file.len() {
            reading.set(format, &file[..at], cells);
            run.read("small files, cut everywhere", reading);
            for byte in 0..=255 {
                let mut other = file.to_vec();
                other[at] = byte;
                reading.set(format, &other, cells);
                run.read("small files with every byte at every place", reading);
                other = file.to_vec();
                other.insert(at, byte);
                reading.set(format, &other, cells);
                run.read("small files with every byte put in at every place", reading);
            }
        }
    }
}

/// The ends of every exponent.
fn every_exponent(run: &mut Run, reading: &mut Reading, writing: &mut MadeMap) {
    for exponent in 0..1u32 << 9 {
        for rest in [0, 1, 0x3F_FFFF, 0x40_0000, 0x7F_FFFF] {
            let cell = f32::from_bits(exponent << 23 | rest);
            for (scale, bytes) in [(&b"-1"[..], cell.to_le_bytes()), (b"1", cell.to_be_bytes())] {
                reading.set(Format::Pfm, &[b"Pf\n1 1\n", scale, b"\n", &bytes].concat(), 1);
                run.read("PFM of one cell, every exponent in both byte orders", reading);
            }
            writing.one_cell(cell);
            run.write("maps of one cell, every exponent", writing);
        }
    }
}

/// Large files and maps.
fn large(run: &mut Run, rng: &mut Rng, reading: &mut Reading, writing: &mut MadeMap) {
    for (width, height) in [(SQUARE_MOST, SQUARE_MOST), (640, 480)] {
        for format in [Format::Pgm, Format::Pfm, Format::Pfm] {
            reading.good_file(rng, format, width, height);
            run.read("large files", reading);
        }
        writing.good_of(rng, width, height);
        run.write("large maps", writing);
    }
    let (size, cells) = (format!("Pf\n{SQUARE_MOST} {SQUARE_MOST}\n"), SQUARE_MOST * SQUARE_MOST);
    for scale in [&b"-1.0"[..], b"1.0"] {
        let data: Vec<u8> = (0..4 * cells).map(|_| rng.next() as u8).collect();
        reading.set(Format::Pfm, &[size.as_bytes(), scale, b"\n", &data].concat(), cells);
        run.read("large files", reading);
    }
}

/// What needs no seed, or is too large to be drawn often.
fn fixed(run: &mut Run, seed: u64, reading: &mut Reading, writing: &mut MadeMap) {
    every_byte(run, reading);
    every_exponent(run, reading, writing);
    large(run, &mut Rng::new(!seed), reading, writing);
}

fn main() {
    let (seed, count) = seed_and_count();
    let mut rng = Rng::new(seed);
    let mut run = Run { both: Both::new(), tally: Tally::new(seed, &[PGM, PFM, WRITING]) };
    let (mut reading, mut writing) = (Reading::new(), MadeMap::new(maps::number));
    fixed(&mut run, seed, &mut reading, &mut writing);
    for _ in 0..count {
        if rng.below(4) < 3 {
            let recipe = reading.next(&mut rng);
            run.read(recipe, &reading);
        } else {
            let recipe = follow_one(&maps::RECIPES, &mut writing, &mut rng);
            run.write(recipe, &writing);
        }
    }
    run.tally.report();
}
