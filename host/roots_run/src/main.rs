//! Holds the proved root to the processor's: both have the same bits for every number that is tried, and the proved one answers 0
//! outside 1 to 2^53.
//!
//! `roots_run [SEED] [RANDOM] [SQUARES]`: RANDOM numbers by the seed and the squares of all numbers below SQUARES, after some numbers
//! that are always there. The status is 1 after a difference, with the number.
use runs::program::words_or;
use runs::rng::Rng;
use std::ops::RangeInclusive;
use std::process::exit;

/// The greatest number that has a root here; it and all below are exact as f64.
const MOST: u64 = 1 << 53;

unsafe extern "C" {
    /// Of crates/roots: the bits of the root of any number from 1 to 2^53, and 0 for any other.
    safe fn root_pattern(n: u64) -> u64;
}

/// What the processor has.
fn expected(n: u64) -> u64 {
    if (1..=MOST).contains(&n) { (n as f64).sqrt().to_bits() } else { 0 }
}

/// Compares each of some numbers, and says how many they were. A difference ends the run.
fn compare(what: &str, numbers: impl Iterator<Item = u64>) {
    let mut compared = 0u64;
    for n in numbers {
        let (library, processor) = (root_pattern(n), expected(n));
        if library != processor {
            println!("{what}: the root of {n} is {library:016X}, and the processor's {processor:016X}");
            exit(1);
        }
        compared += 1;
    }
    println!("{compared:>9} {what}");
}

/// A number, which is not 0, and the two beside it.
fn around(n: u64) -> RangeInclusive<u64> {
    n - 1..=n + 1
}

/// A number is first moved up to the top of 64 binary digits, by an even count of them. All counts that occur: 10 for 2^53, 62 for 1.
fn shifts() -> impl Iterator<Item = u32> {
    (5..32).map(|half| 2 * half)
}

/// The table is asked for the first ten digits of what was moved up: the least and the greatest number that has each ten, where it has
/// ten at all.
fn ends_of_entries() -> impl Iterator<Item = u64> {
    let of_entry = |first: u64, free: u32| [first << free, ((first + 1) << free) - 1];
    let of_shift = move |free: u32| (256..1024).flat_map(move |first| of_entry(first, free));
    shifts().filter(|&shift| shift <= 54).flat_map(move |shift| of_shift(54 - shift)).flat_map(around)
}

/// From the square of an eight-digit root on the root begins with more than the table has, if the square is no multiple of 64: all of
/// these squares, moved down again, where they then are whole.
fn carries() -> impl Iterator<Item = u64> {
    let tops = || (128..256u64).map(|root| (root * root) << 48);
    let whole = move |shift: u32| tops().filter(move |top| top.trailing_zeros() >= shift).map(move |top| top >> shift);
    shifts().flat_map(whole).flat_map(around)
}

/// Any number, or one of any count of digits: of any numbers only one in a thousand has less than 44.
fn random(rng: &mut Rng) -> u64 {
    if rng.one_in(2) {
        return 1 + rng.next() % MOST;
    }
    let top = 1u64 << rng.below(53);
    top + rng.next() % top
}

fn main() {
    let [seed, count, squares] = words_or([1, 1_000_000, 65_536]);
    println!("seed {seed}, {count} random numbers, squares of the numbers below {squares}");
    compare("numbers outside, and the greatest inside", [0, MOST, MOST + 1, u64::MAX].into_iter());
    compare("numbers below 2^12", 0..1 << 12);
    compare("numbers at the ends of the table's entries, and beside them", ends_of_entries());
    compare("numbers where the first digits carry, and beside them", carries());
    compare("squares, and the numbers beside them", (1..squares).map(|k| k * k).flat_map(around));
    let mut rng = Rng::new(seed);
    compare("random numbers", (0..count).map(|_| random(&mut rng)));
    println!("no difference");
}
