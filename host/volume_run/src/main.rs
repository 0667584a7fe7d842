//! Holds the library's volume of a heap to another reading of the request: the same points and sites on both sides, every answer,
//! every height and every figure, lent or beside what was lent, and the same points again in other orders.
//!
//! `volume_run [SEED] [COUNT]`; the same seed gives the same inputs in the same order, after some that are always there. The
//! status is 1 after a difference, with the input, and where some refusal was never answered, for then the inputs were too few to
//! say anything of it.
mod cases;
mod check;

use cases::{FAR, LONGEST, Made, SQUARE, metres, stepped};
use check::Both;
use runs::program::seed_and_count;
use runs::recipes::follow_one;
use runs::rng::Rng;
use runs::tally::Tally;
use volume_run::measure::{CELL_LEAST, CELL_MOST, CELLS_MOST, FARTHEST, Ground};

/// The call, with the refusals that it answers.
const MEASURING: (&str, &[u32]) = ("measuring", &[51, 52, 53, 54, 55]);

struct Run {
    both: Both,
    tally: Tally,
}

impl Run {
    fn measure(&mut self, recipe: &'static str, input: &Made) {
        self.tally.count(MEASURING.0, recipe, input, self.both.check(input));
    }
}

/// Each depth alone in a cell of its own, so that every rounding is seen: as many cells as there may be, and heights to twice the farthest.
fn depths(run: &mut Run, made: &mut Made, recipe: &'static str, depths: &[f64]) {
    let side = (SQUARE * CELL_LEAST) as i64;
    made.ground = Ground { left: 0, right: side, top: -side, bottom: 0, cell: CELL_LEAST, floor: FARTHEST };
    let place = |low: i64, i: usize| (low + (i * CELL_LEAST) as i64) as f64 / 1000.0;
    for some in depths.chunks(SQUARE * SQUARE) {
        made.set_points(some.iter().enumerate().map(|(i, &z)| [place(0, i % SQUARE), place(-side, i / SQUARE), z]));
        run.measure(recipe, made);
    }
}

/// Every half of a millimetre from end to end; where a rounding changes, with the numbers beside it.
fn every_half(run: &mut Run, made: &mut Made) {
    let mut all = Vec::new();
    for halves in -2 * FARTHEST..=2 * FARTHEST {
        let at = metres(halves, 0);
        if halves % 2 == 0 { all.push(at) } else { all.extend([stepped(at, -1), at, stepped(at, 1)]) }
    }
    depths(run, made, "every half of a millimetre from end to end, and the numbers beside it", &all);
}

/// Numbers that are no coordinates, or hardly, at each place of each list.
fn odd_coordinates(run: &mut Run, made: &mut Made) {
    let far = [FAR, FAR + 0.0004, FAR + 0.0005, FAR + 0.001];
    let beside = far.iter().flat_map(|&number| (-3..=3).map(move |steps| stepped(number, steps)));
    let others = [0.0, 5e-324, 1e-310, f64::MIN_POSITIVE, 1e18, 9223372036854775.8, 1.7e305, 1e306, f64::MAX, f64::INFINITY, f64::NAN];
    let sizes: Vec<f64> = beside.chain(others).collect();
    made.ground = Ground { left: -FARTHEST, right: FARTHEST, top: -FARTHEST, bottom: FARTHEST, cell: CELL_MOST, floor: FARTHEST };
    for odd in sizes.iter().flat_map(|&size| [size, -size]) {
        for (point, coordinate) in (0..9).map(|i| (i / 3, i % 3)) {
            let mut points = [[1.0, 2.0, 3.0], [4.0, 5.0, 6.0], [-7.0, -8.0, -9.0]];
            points[point][coordinate] = odd;
            made.set_points(points);
            run.measure("an odd coordinate at each place", made);
        }
    }
}

/// Every cell side, and some that are none.
fn every_cell_side(run: &mut Run, made: &mut Made, rng: &mut Rng) {
    for cell in 0..=CELL_MOST + 20 {
        made.ground_of(rng, cell.max(1), 3, 2);
        made.points(rng, 3);
        made.ground.cell = cell;
        run.measure("every cell side", made);
    }
}

/// Each number of a site about as far as it may be.
fn far_sites(run: &mut Run, made: &mut Made) {
    let (cell, side, floor) = (CELL_MOST, CELL_MOST as i64, 0);
    let far = [FARTHEST - side, FARTHEST - 1, FARTHEST, FARTHEST + 1, FARTHEST + side, i64::MAX];
    let ends: Vec<i64> = far.iter().flat_map(|&size| [size, -size]).chain([i64::MIN]).collect();
    for ends in ends.iter().flat_map(|&one| ends.iter().map(move |&other| [one, other])) {
        let [one, other] = ends;
        let grounds = [
            Ground { left: one, right: other, top: 0, bottom: side, cell, floor },
            Ground { left: 0, right: side, top: one, bottom: other, cell, floor },
            Ground { left: 0, right: one, top: 0, bottom: side, cell, floor: other },
        ];
        for ground in grounds {
            made.ground = ground;
            made.set_points([[0.0, 0.0, -1.0], [FAR - 0.001, 0.0, 1.0], [-FAR, 0.0, 1.0]]);
            run.measure("sites as far as they may be, and beyond", made);
        }
    }
}

/// The largest heaps: from end to end in each direction, and as many cells as there may be.
fn largest(run: &mut Run, made: &mut Made, rng: &mut Rng) {
    let fewest = 2 * FARTHEST as usize / CELL_MOST;
    let heaps = [
        (CELL_MOST, fewest, fewest), (2 * FARTHEST as usize / SQUARE, SQUARE, SQUARE), (CELL_LEAST, CELLS_MOST / 4, 4),
        (CELL_LEAST, 4, CELLS_MOST / 4), (CELL_LEAST, LONGEST, CELLS_MOST / LONGEST), (CELL_LEAST, 1, LONGEST),
    ];
    for (cell, columns, rows) in heaps {
        made.ground_of(rng, cell, columns, rows);
        made.ground.floor = FARTHEST;
        let Ground { left, top, .. } = made.ground;
        let place = |low: i64, i: usize| (low + (i * cell) as i64) as f64 / 1000.0;
        made.set_points((0..columns * rows).map(|i| [place(left, i % columns), place(top, i / columns), -FAR]));
        run.measure("a point as high as can be in every cell", made);
        made.points(rng, 100_000);
        run.measure("100,000 points", made);
    }
}

/// What needs no seed, or is too large to be drawn often.
fn fixed(run: &mut Run, seed: u64, made: &mut Made) {
    let mut rng = Rng::new(!seed);
    every_half(run, made);
    odd_coordinates(run, made);
    every_cell_side(run, made, &mut rng);
    far_sites(run, made);
    largest(run, made, &mut rng);
}

fn main() {
    let (seed, count) = seed_and_count();
    let mut rng = Rng::new(seed);
    let mut run = Run { both: Both::new(seed), tally: Tally::new(seed, &[MEASURING]) };
    let mut made = Made::new();
    fixed(&mut run, seed, &mut made);
    for _ in 0..count {
        let recipe = follow_one(&Made::RECIPES, &mut made, &mut rng);
        run.measure(recipe, &made);
    }
    run.tally.report();
}
