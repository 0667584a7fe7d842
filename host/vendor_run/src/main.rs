//! Holds the library's check of a vendor's map to another reading of the request: the same pairs, options and maps on both sides, every
//! answer, every lent number, and every cell that was lent or stands beside one; the library's own block maps, with sub-pixel off,
//! must all pass.
//!
//! `vendor_run [SEED] [COUNT]`; the same seed gives the same inputs in the same order, after some that are always there. The status is
//! 1 after a difference, with the input, and where some recipe, some kind of yes or no or some refusal never came, for then the inputs
//! were too few to say anything of it.
mod cases;
mod check;

use cases::{Made, Must};
use check::Both;
use plombrisa::Options;
use runs::limits::{BLOCK_MOST, COUNT_MOST, FIRST_MOST, SIDE_MOST};
use runs::pictures::textured_pair;
use runs::program::seed_and_count;
use runs::recipes::follow_one;
use runs::rng::Rng;
use runs::tally::Tally;

/// The call, with the refusals that it answers, in the order in which they are tested.
const CHECK: (&str, &[u32]) = ("check", &[1, 2, 3, 4, 5, 6, 7, 8, 9, 23, 12]);

struct Run {
    both: Both,
    tally: Tally,
}

impl Run {
    fn follow(&mut self, recipe: &'static str, input: &Made) {
        let checked = self.both.check(input);
        for kind in checked.iter().flat_map(|(_, kinds)| kinds) {
            self.tally.came(kind);
        }
        self.tally.count(CHECK.0, recipe, input, checked.map(|(number, _)| number));
    }
}

/// A textured pair of this size.
fn textured(made: &mut Made, rng: &mut Rng, width: usize, height: usize, options: Options) {
    let [left, right] = textured_pair(rng, width, height);
    made.pair(rng, left, right, width, height, options);
}

/// Each cell of a map that passes is made each of many numbers that are disparities, hardly any, or none.
fn every_odd_cell(run: &mut Run, made: &mut Made, rng: &mut Rng) {
    let odd = [
        0.0, 1e-45, 0.5, 0.99999994, 1.0, 1.0000001, 1.5, 2.0, 3.0, 4.0, 5.0, 6.0, FIRST_MOST as f32, 65_536.0, 4_294_967_296.0,
        f32::MAX, f32::INFINITY, f32::NAN,
    ];
    let options = Options { min_disparity: -2, num_disparities: 6, block_size: 3, min_correlation: 0.0, ..Options::default() };
    textured(made, rng, 9, 5, options);
    made.best(rng);
    let cells = made.map.lent().to_vec();
    made.must = Must::Anything;
    for (at, number) in (0..cells.len()).flat_map(|at| odd.map(|number| (at, number))) {
        for signed in [number, -number] {
            made.map.lent_mut().copy_from_slice(&cells);
            made.map.lent_mut()[at] = signed;
            run.follow("each cell of a map that passes made each odd number", made);
        }
    }
}

/// A map that passes with every raw cost of its pair as the least correlation, and the numbers beside it.
fn every_least_correlation(run: &mut Run, made: &mut Made, rng: &mut Rng) {
    let options = Options { min_disparity: -1, num_disparities: 4, block_size: 3, min_correlation: -1.0, ..Options::default() };
    textured(made, rng, 8, 6, options);
    made.best(rng);
    made.must = Must::Anything;
    let costs = made.costs();
    for cost in (0..8 * 6).flat_map(|pixel| costs.there(pixel)).map(|(_, cost)| cost) {
        for least in [cost.next_down(), cost, cost.next_up()] {
            made.options.min_correlation = least;
            run.follow("each raw cost of a pair as min_correlation", made);
        }
    }
}

/// Every fault and every two: the one that is tested first is answered.
fn every_two_faults(run: &mut Run, made: &mut Made, rng: &mut Rng) {
    for (i, (number, first)) in Made::FAULTS.iter().enumerate() {
        // alone, and with each that is tested later, which is made before it, for made after it could mend it
        let later = Made::FAULTS[i + 1..].iter().map(|(_, second)| Some(second));
        for second in later.chain([None]) {
            for _ in 0..40 {
                made.good(rng);
                made.own(rng);
                second.inspect(|spoil| spoil(made, rng));
                first(made, rng);
                made.must = Must::Refuse(*number);
                run.follow("every fault, alone and with each that is tested later", made);
            }
        }
    }
}

/// The longest sides, the largest block and the most disparities, and the first disparities at both ends of their range: the library's
/// own block map, and the same with the last cell changed.
fn largest(run: &mut Run, made: &mut Made, rng: &mut Rng) {
    let (long, block, most) = (SIDE_MOST, BLOCK_MOST, COUNT_MOST);
    let searches = [(-most / 2, most), (0, most), (-FIRST_MOST, most), (FIRST_MOST, 1), (0, 1), (-4, 24)];
    let sizes = [
        (long, 1, 1), (1, long, 1), (long, 3, 3), (3, long, 3), (block, block, block), (90, block + 2, block), (long, block, block),
        (300, 200, 7),
    ];
    for (width, height, block_size) in sizes {
        for (min_disparity, num_disparities) in searches {
            // the plain Rust holds all the raw costs at once
            if width * height * num_disparities as usize > 4_000_000 {
                continue;
            }
            let options = Options { min_disparity, num_disparities, block_size, min_correlation: -1.0, ..Options::default() };
            textured(made, rng, width, height, options);
            made.own(rng);
            run.follow("the largest sides, blocks and searches", made);
            *made.map.lent_mut().last_mut().expect("a cell") = min_disparity as f32;
            made.must = Must::Anything;
            run.follow("the largest sides, blocks and searches", made);
        }
    }
}

/// What needs no seed, or is too large to be drawn often.
fn fixed(run: &mut Run, seed: u64, made: &mut Made) {
    let mut rng = Rng::new(!seed);
    every_odd_cell(run, made, &mut rng);
    every_least_correlation(run, made, &mut rng);
    every_two_faults(run, made, &mut rng);
    largest(run, made, &mut rng);
}

fn main() {
    let (seed, count) = seed_and_count();
    let mut rng = Rng::new(seed);
    let mut run = Run { both: Both::new(), tally: Tally::new(seed, &[CHECK]) };
    run.tally.expect(Made::RECIPES.iter().map(|(recipe, _)| *recipe).chain(check::ANSWERS));
    let mut made = Made::new();
    fixed(&mut run, seed, &mut made);
    for _ in 0..count {
        let recipe = follow_one(&Made::RECIPES, &mut made, &mut rng);
        run.follow(recipe, &made);
    }
    run.tally.report();
}
