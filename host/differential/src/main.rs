//! Holds the proved library to the Rust: the same inputs on both sides, every cell bit for bit, every refusal, both rooms.
//!
//! `differential [SEED] [SECONDS] [LEAST]`; the seed is printed, and the same seed gives the same cases in the same order. The run fails
//! where fewer than LEAST pairs were matched, for then it says little.
mod case;
mod compare;
mod covers;
mod fixed;
mod maps;
mod numbers;
mod pictures;
mod points;
mod shrink;

use case::Case;
use plombrisa::Options;
use runs::limits::{BLOCK_MOST, COUNT_MOST};
use runs::program::words_or;
use runs::rng::Rng;
use std::fmt::Debug;
use std::process::exit;
use std::time::{Duration, Instant};

struct Run {
    seed: u64,
    tallies: Vec<(&'static str, usize)>,
    refusals: [usize; 27],
    /// How many pairs were accepted, and so matched on both sides.
    matched: usize,
}

/// How many times SECONDS the run may take until LEAST pairs are matched: under an emulator, which is some ten times slower than the
/// processor itself, the time alone may not be enough.
const LONGEST: u64 = 5;

impl Run {
    /// One case on both sides; a difference ends the run.
    fn try_case(&mut self, kind: &'static str, case: &Case) {
        if let Err(why) = compare::check(case) {
            let small = shrink::shrink(case);
            println!("seed {}: {kind}: {why}", self.seed);
            println!("smaller: {}\n{small:?}", compare::check(&small).unwrap_err());
            exit(1);
        }
        let number = case.refusal(false);
        self.count(kind, number);
        self.matched += usize::from(number == 0);
    }

    /// One case of another call on both sides, whose check gives its number; a difference ends the run.
    fn try_other<C: Debug>(&mut self, kind: &'static str, case: &C, check: fn(&C) -> Result<u32, String>) {
        match check(case) {
            Ok(number) => self.count(kind, number),
            Err(why) => {
                println!("seed {}: {kind}: {why}\n{case:?}", self.seed);
                exit(1);
            }
        }
    }

    fn count(&mut self, kind: &'static str, number: u32) {
        self.refusals[number as usize] += 1;
        match self.tallies.iter_mut().find(|(name, _)| *name == kind) {
            Some((_, n)) => *n += 1,
            None => self.tallies.push((kind, 1)),
        }
    }

    fn report(&self) {
        for (kind, n) in &self.tallies {
            println!("{n:>9} {kind}");
        }
        let given: Vec<String> = (1..14).chain(21..27).map(|n| format!("{n}: {}", self.refusals[n])).collect();
        println!("{:>9} accepted; refusals {}", self.refusals[0], given.join(", "));
        println!("{:>9} pairs matched", self.matched);
    }
}

/// How many semi-global calls with p2 below p1 are made.
const WRONG_WAY_ROUND: usize = 10_000;

/// Penalties the wrong way round; whatever else is wrong after them, the answer is 13.
fn wrong_way_round(run: &mut Run, rng: &mut Rng) {
    for _ in 0..WRONG_WAY_ROUND {
        run.try_other("penalties the wrong way round", &case::wrong_way_round(rng), compare::check_number);
    }
}

/// Every pair of two-level pictures of up to four pixels, and of three by three, each with options taken in turn.
fn exhaustive(run: &mut Run, rng: &mut Rng, until: Instant) {
    for (w, h) in [(1, 1), (2, 1), (1, 2), (3, 1), (1, 3), (2, 2), (4, 1), (3, 2), (3, 3)] {
        let pixels = w * h;
        let step = if pixels > 6 { 7 } else { 1 };
        for pattern in (0..1u32 << (2 * pixels)).step_by(step) {
            if Instant::now() > until {
                return;
            }
            let bytes = |from: usize| (0..pixels).map(|i| (pattern >> (from + i) & 1) as u8 * 200).collect::<Vec<_>>();
            let block = if w >= 3 && h >= 3 { 3 } else { 1 };
            let options = case::options(rng, &[block], 4);
            run.try_case("exhaustive two-level pairs of up to nine pixels", &Case::of(w, h, bytes(0), bytes(pixels), options));
        }
    }
}

/// The examples that document 01 names and does not mark to be proved.
fn named(run: &mut Run) {
    let flat = vec![7u8; 40 * 40];
    for semi_global in [false, true] {
        for lr_consistency in [false, true] {
            for block_size in [1, BLOCK_MOST, BLOCK_MOST + 1, BLOCK_MOST + 2] {
                let options = Options { block_size, num_disparities: 8, semi_global, lr_consistency, ..Options::default() };
                run.try_case("document 01's examples", &Case::of(40, 40, flat.clone(), flat.clone(), options));
            }
            for num_disparities in [COUNT_MOST, COUNT_MOST + 1] {
                let options = Options { num_disparities, block_size: 3, semi_global, lr_consistency, ..Options::default() };
                run.try_case("document 01's examples", &Case::of(40, 40, flat.clone(), flat.clone(), options));
            }
        }
    }
}

/// The calls that read one picture or one map, each in turn.
fn others(run: &mut Run, rng: &mut Rng, until: Instant) {
    while Instant::now() < until {
        let reading = pictures::reading(rng);
        run.try_other("pixels", &reading, pictures::check_pixel);
        run.try_other("bilinear readings", &reading, pictures::check_bilinear);
        run.try_other("maps' figures", &maps::map(rng), maps::check);
        run.try_other("maps' covers", &covers::covered(rng), covers::check);
        let formula = points::formula(rng);
        run.try_other(formula.kind(), &formula, points::check_formula);
        run.try_other("lists of points", &points::listing(rng), points::check_list);
    }
}

/// Pairs as a site would send them, some of a fixed size and then of any.
fn textured(run: &mut Run, rng: &mut Rng, until: Instant) {
    for (w, h) in [(64, 48), (160, 120), (320, 240), (640, 480)] {
        run.try_case("textured pairs", &case::textured(rng, w, h));
    }
    while Instant::now() < until {
        let (w, h) = (40 + rng.below(120), 30 + rng.below(90));
        run.try_case("textured pairs", &case::textured(rng, w, h));
    }
}

fn main() {
    let [seed, seconds, least] = words_or([1, 30, 0]);
    let least = least as usize;
    println!("seed {seed}, {seconds} seconds");
    let start = Instant::now();
    let share = |part: u64| start + Duration::from_millis(seconds * 10 * part);
    let mut rng = Rng::new(seed);
    let mut run = Run { seed, tallies: Vec::new(), refusals: [0; 27], matched: 0 };

    named(&mut run);
    fixed::cases().iter().for_each(|(kind, case)| run.try_case(kind, case));
    wrong_way_round(&mut run, &mut Rng::new(seed.rotate_left(32)));
    exhaustive(&mut run, &mut rng, share(15));
    others(&mut run, &mut Rng::new(!seed), share(35));
    while Instant::now() < share(75) {
        run.try_case("small pairs at a boundary", &case::small(&mut rng));
        run.try_case("small pairs, unfit", &case::unfit(&mut rng));
    }
    textured(&mut run, &mut rng, share(100));
    while run.matched < least && Instant::now() < share(100 * LONGEST) {
        run.try_case("small pairs at a boundary", &case::small(&mut rng));
    }
    run.report();
    if run.matched < least {
        println!("no difference, but {least} pairs were to be matched");
        exit(1);
    }
    println!("no difference");
}
