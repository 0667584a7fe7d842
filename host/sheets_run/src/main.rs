//! Holds the library's sheets to another reading of the request: the same inputs on both sides, every answer, every byte and every
//! cell, lent or beside what was lent.
//!
//! `sheets_run [SEED] [COUNT]`; the same seed gives the same inputs in the same order, after some that are always there. The
//! status is 1 after a difference, with the input, and where some refusal was never answered, for then the inputs were too few to
//! say anything of it.
mod check;
mod maps;
mod sheets;

use check::Both;
use maps::Writing;
use runs::program::seed_and_count;
use runs::recipes::follow_one;
use runs::rng::Rng;
use runs::tally::Tally;
use sheets::{NO_WHOLE, Reading};
use sheets_run::format::WHOLE_MOST;

/// The two kinds of call, with the refusals that each answers.
const READING: (&str, &[u32]) = ("reading", &[11, 34, 35, 36, 37, 38]);
const WRITING: (&str, &[u32]) = ("writing", &[23, 31, 32, 33, 35]);

struct Run {
    both: Both,
    tally: Tally,
}

impl Run {
    fn read(&mut self, recipe: &'static str, input: &Reading) {
        self.tally.count(READING.0, recipe, input, self.both.check_reading(input));
    }

    fn write(&mut self, recipe: &'static str, input: &Writing) {
        self.tally.count(WRITING.0, recipe, input, self.both.check_writing(input));
    }
}

/// What needs no seed, or is too large to be drawn often: every number of kind 0 and some past the last, every whole cell and
/// every half between, the ends of every exponent of kind 1, and the largest map that a sheet has in each kind.
fn fixed(run: &mut Run, seed: u64, reading: &mut Reading, writing: &mut Writing) {
    for number in 0..NO_WHOLE + 600 {
        reading.one_cell(0, number);
        run.read("sheets of one cell, every number of kind 0", reading);
    }
    let halves_most = 2 * WHOLE_MOST + 600;
    for halves in -halves_most..=halves_most {
        writing.one_cell(0, halves as f32 / 2.0);
        run.write("maps of one cell, every whole number and half", writing);
    }
    for exponent in 0..1u32 << 9 {
        for rest in [0, 1, 0x3F_FFFF, 0x40_0000, 0x7F_FFFF] {
            let bits = exponent << 23 | rest;
            reading.one_cell(1, 1 + u64::from(bits));
            run.read("sheets of one cell, every exponent", reading);
            for kind in [0, 1] {
                writing.one_cell(kind, f32::from_bits(bits));
                run.write("maps of one cell, every exponent", writing);
            }
        }
    }
    for kind in [0, 1] {
        writing.largest(&mut Rng::new(!seed), kind);
        run.write("the largest map that a sheet has", writing);
    }
}

fn main() {
    let (seed, count) = seed_and_count();
    let mut rng = Rng::new(seed);
    let mut run = Run { both: Both::new(), tally: Tally::new(seed, &[READING, WRITING]) };
    let (mut reading, mut writing) = (Reading::new(), Writing::new());
    fixed(&mut run, seed, &mut reading, &mut writing);
    for _ in 0..count {
        if rng.below(5) < 3 {
            let recipe = follow_one(&Reading::RECIPES, &mut reading, &mut rng);
            run.read(recipe, &reading);
        } else {
            let recipe = follow_one(&Writing::RECIPES, &mut writing, &mut rng);
            run.write(recipe, &writing);
        }
    }
    run.tally.report();
}
