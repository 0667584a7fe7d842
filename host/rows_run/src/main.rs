//! Holds the library's row index to another reading of the request: the same maps and edits on both sides, every answer, every cell
//! and every record, lent or beside what was lent; the index worked out afresh after each edit; and the rows' counts beside the map's.
//!
//! `rows_run [SEED] [COUNT]`; the same seed gives the same inputs in the same order, after some that are always there. The status is
//! 1 after a difference, with the input, and where some recipe, some kind of edit or some refusal never came, for then the inputs
//! were too few to say anything of it.
mod cases;
mod check;
mod lent;

use cases::{Edit, Made, ODD};
use check::Both;
use runs::limits::SIDE_MOST;
use runs::program::seed_and_count;
use runs::recipes::follow_one;
use runs::rng::Rng;
use runs::sizes::SQUARE_MOST;
use runs::tally::Tally;

/// The calls, with the refusals that they answer.
const FRESH: (&str, &[u32]) = ("fresh index", &[23, 28]);
const EDIT: (&str, &[u32]) = ("edit", &[23, 26, 28]);

struct Run {
    both: Both,
    tally: Tally,
}

impl Run {
    /// The fresh index of a map, and then its edits.
    fn follow(&mut self, recipe: &'static str, input: &Made) {
        self.tally.count(FRESH.0, recipe, input, self.both.fresh(input));
        for edit in &input.edits {
            self.tally.count(EDIT.0, edit.kind, input, self.both.edit(input, edit));
        }
    }
}

/// Every row of three cells that are odd or blank, and each cell of it edited to each of them, one after the other.
fn every_odd_row(run: &mut Run, made: &mut Made, rng: &mut Rng) {
    let odd: Vec<f32> = ODD.into_iter().chain([f32::NAN]).collect();
    let n = odd.len();
    for cells in (0..n * n * n).map(|i| [odd[i % n], odd[i / n % n], odd[i / n / n]]) {
        made.good_of(rng, 3, 1);
        made.map.lent_mut().copy_from_slice(&cells);
        let kind = "edit: each cell of every row of three odd ones";
        let edit = |x, value| Edit { kind, x, y: 0, value: Some(value) };
        // each cell to each number, and back
        made.edits.extend((0..3 * n).flat_map(|i| [edit(i % 3, odd[i / 3]), edit(i % 3, cells[i % 3])]));
        run.follow("every row of three odd cells", made);
    }
}

/// Six cells as a map of many sizes, beside indexes of many lengths, edited at many pixels: every combination.
fn every_fault(run: &mut Run, made: &mut Made, rng: &mut Rng) {
    let sides = [0, 1, 2, 3, 6, SIDE_MOST, SIDE_MOST + 1, 1 << 63, usize::MAX];
    let pixels = [0, 1, 2, 3, 6, 1 << 32, usize::MAX];
    let kind = "edit: every pixel, beside every index and every size";
    for (width, height) in sides.iter().flat_map(|&width| sides.map(|height| (width, height))) {
        for records in [0, 1, 2, 3, 6, 7] {
            made.good_of(rng, 6, 1);
            (made.map.width, made.map.height, made.records) = (width, height, records);
            let edit = |x, y| Edit { kind, x, y, value: Some(0.5) };
            made.edits.extend(pixels.iter().flat_map(|&x| pixels.map(|y| edit(x, y))));
            run.follow("six cells of every size, beside every index", made);
        }
    }
}

/// A side that is too long by one, with cells and records that fit it, the longest sides, and the largest square.
fn largest(run: &mut Run, made: &mut Made, rng: &mut Rng) {
    let long = SIDE_MOST + 1;
    for (width, height) in [(long, 1), (1, long), (SIDE_MOST, 1), (1, SIDE_MOST), (SQUARE_MOST, SQUARE_MOST)] {
        made.good_of(rng, width, height);
        let kind = "edit: a corner of the largest maps";
        for (x, y) in [(0, 0), (width - 1, height - 1)] {
            made.edits.push(Edit { kind, x, y, value: Some(-f32::MAX) });
        }
        run.follow("the longest sides, and sides that are longer by one", made);
    }
}

/// What needs no seed, or is too large to be drawn often.
fn fixed(run: &mut Run, seed: u64, made: &mut Made) {
    let mut rng = Rng::new(!seed);
    every_odd_row(run, made, &mut rng);
    every_fault(run, made, &mut rng);
    largest(run, made, &mut rng);
}

fn main() {
    let (seed, count) = seed_and_count();
    let mut rng = Rng::new(seed);
    let mut run = Run { both: Both::default(), tally: Tally::new(seed, &[FRESH, EDIT]) };
    run.tally.expect(Made::RECIPES.iter().map(|(recipe, _)| *recipe).chain(Made::kinds()));
    let mut made = Made::new();
    fixed(&mut run, seed, &mut made);
    for _ in 0..count {
        let recipe = follow_one(&Made::RECIPES, &mut made, &mut rng);
        run.follow(recipe, &made);
    }
    run.tally.report();
}
