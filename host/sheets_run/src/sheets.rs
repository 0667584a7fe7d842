//! Bytes to be read: sheets, and sheets with one fault or more of every kind that a mail, a disk or an ill-wisher makes.
use crate::maps;
use runs::bytes::{Bytes, Spoilt};
use runs::maps::cells;
use runs::recipes::{Recipe, take_one};
use runs::rng::Rng;
use runs::sizes;
use sheets_run::format::{self, SHEET_SIDE_MOST, WHOLE_MOST};
use std::fmt;

/// Bytes to be read. A sheet is made here as numbers first, for one can then be made wrong before they become bytes.
pub struct Reading {
    pub bytes: Bytes,
    pub out_len: usize,
    numbers: Vec<Number>,
    cells: Vec<f32>,
}

/// A number of a sheet, and by how many groups it is too long.
#[derive(Clone, Copy)]
struct Number {
    value: u64,
    padding: usize,
}

impl fmt::Debug for Reading {
    fn fmt(&self, f: &mut fmt::Formatter) -> fmt::Result {
        write!(f, "read: cells lent {}, bytes {:02X?}", self.out_len, self.bytes.lent())
    }
}

/// The first number that no cell of kind 0 has: the last is 1 more than the largest disparity folded.
pub const NO_WHOLE: u64 = 2 * WHOLE_MOST as u64 + 2;

/// The first number that takes six groups.
const SIX_GROUPS: u64 = 1 << 35;

/// A number of five groups that 32 bits do not hold; without its high bits it is the one given.
fn over_32_bits(rng: &mut Rng, low: u64) -> u64 {
    low | (1 + rng.below(7) as u64) << 32
}

/// A number that no cell of the kind has: just past the last, of an infinity or a NaN, or any larger one.
fn no_cell(rng: &mut Rng, kind: u64) -> u64 {
    let far = [1 << 32, (1 << 32) + 1, SIX_GROUPS - 1];
    let low = rng.next() & 0xFFFF_FFFF;
    match (rng.below(4), kind) {
        (0, _) => rng.pick(&far),
        (1, _) => over_32_bits(rng, low),
        (2, 0) => rng.pick(&[NO_WHOLE, NO_WHOLE + 1, NO_WHOLE + 14, 4 * WHOLE_MOST as u64, 65_537, (1 << 31) + 1, u64::from(u32::MAX)]),
        (_, 0) => NO_WHOLE + low % 100_000,
        (2, _) => {
            let sign = rng.pick(&[0, 0x8000_0000]);
            1 + (sign | rng.pick(&[0x7F80_0000, 0x7F80_0001, 0x7FC0_0000, 0x7FFF_FFFF]))
        }
        _ => 1 + (low | 0x7F80_0000),
    }
}

impl Reading {
    pub fn new() -> Self {
        Self { bytes: Bytes::new(Vec::new()), out_len: 0, numbers: Vec::new(), cells: Vec::new() }
    }

    /// The numbers of a good sheet of this size, and an output that fits it.
    fn good_of(&mut self, rng: &mut Rng, width: usize, height: usize) {
        let kind = rng.below(2) as u64;
        cells(rng, maps::number(kind), width * height, &mut self.cells);
        self.numbers.clear();
        self.out_len = width * height;
        let head = [1, kind, width as u64, height as u64];
        let cells = self.cells.iter().map(|&cell| format::cell_number(kind, cell).expect("a good cell"));
        self.numbers.extend(head.into_iter().chain(cells).map(|value| Number { value, padding: 0 }));
    }

    fn good(&mut self, rng: &mut Rng) {
        let (width, height) = sizes::small(rng);
        self.good_of(rng, width, height);
    }

    /// A sheet of one cell, whose number may be any.
    pub fn one_cell(&mut self, kind: u64, number: u64) {
        let mut bytes = Vec::new();
        for number in [1, kind, 1, 1, number] {
            format::push_number(number, &mut bytes);
        }
        (self.bytes, self.out_len) = (Bytes::new(bytes), 1);
    }

    /// The bytes of the numbers, all of them lent.
    fn encode(&mut self, _: &mut Rng) {
        let mut bytes = Vec::new();
        for number in &self.numbers {
            format::push_number(number.value, &mut bytes);
            for _ in 0..number.padding {
                *bytes.last_mut().expect("a number has a group") |= 0x80;
                bytes.push(0);
            }
        }
        self.bytes = Bytes::new(bytes);
    }

    /// Where a number is to be made wrong: each of the head's as often as the cells together.
    fn place(&self, rng: &mut Rng) -> usize {
        let at = rng.below(5);
        if at < 4 { at } else { 4 + rng.below(self.numbers.len() - 4) }
    }

    fn spoil_form(&mut self, rng: &mut Rng) {
        let at = self.place(rng);
        self.numbers[at].padding = 1 + rng.below(6);
    }

    /// A number of more groups than its field takes: five, over 32 bits, or six and more.
    fn spoil_width(&mut self, rng: &mut Rng) {
        let at = self.place(rng);
        let value = self.numbers[at].value;
        self.numbers[at].value = match rng.below(3) {
            0 => over_32_bits(rng, value),
            1 => value | SIX_GROUPS,
            _ => value | 1 << (35 + rng.below(29)),
        };
    }

    fn spoil_version(&mut self, rng: &mut Rng) {
        self.numbers[0].value = rng.pick(&[0, 2, 3, 127, 128, 129, 256, 257, (1 << 32) + 1, SIX_GROUPS - 1]);
    }

    fn spoil_kind(&mut self, rng: &mut Rng) {
        self.numbers[1].value = maps::unknown_kind(rng) % SIX_GROUPS;
    }

    /// A size of no map, or one that is good and of another map.
    fn spoil_size(&mut self, rng: &mut Rng) {
        let at = 2 + rng.below(2);
        let side = self.numbers[at].value;
        let far = over_32_bits(rng, side);
        let beside = [side + 1, side.saturating_sub(1)];
        let most = SHEET_SIDE_MOST as u64;
        let sides = [0, 0, most + 1, most + 1, most, most + 2, 8 * most, 65_537, far, SIX_GROUPS - 1, beside[0], beside[1]];
        self.numbers[at].value = rng.pick(&sides);
    }

    fn spoil_cell(&mut self, rng: &mut Rng) {
        let at = 4 + rng.below(self.numbers.len() - 4);
        self.numbers[at].value = no_cell(rng, self.numbers[1].value);
    }

    /// Bytes that were never a sheet: any, ones that numbers turn on, and either behind a head.
    fn random(&mut self, rng: &mut Rng) {
        let mut bytes = Vec::new();
        let n = rng.below(24);
        self.out_len = 1 + rng.below(12);
        if rng.one_in(2) {
            let (kind, width, height) = (rng.below(2) as u8, 1 + rng.below(3) as u8, 1 + rng.below(3) as u8);
            bytes.extend([1, kind, width, height]);
            self.out_len = usize::from(width * height);
        }
        let any = rng.one_in(2);
        let turns = [0, 1, 1, 2, 3, 0x10, 0x7F, 0x80, 0x81, 0xFF];
        for _ in 0..n {
            bytes.push(if any { rng.next() as u8 } else { rng.pick(&turns) });
        }
        self.bytes = Bytes::new(bytes);
    }

    /// Sheets that say a large size: most with few cells behind it, a few with as many as they say.
    fn large(&mut self, rng: &mut Rng) {
        let long = rng.pick(&[127, 128, 1000, SHEET_SIDE_MOST - 1, SHEET_SIDE_MOST]);
        if rng.one_in(50) {
            let (width, height) = sizes::narrow(rng, long);
            self.good_of(rng, width, height);
            if rng.one_in(2) {
                self.spoil_cell(rng);
            }
            self.encode(rng);
            return self.spoil_length(rng);
        }
        self.good(rng);
        let other = rng.pick(&[1, 2, 3, 128, SHEET_SIDE_MOST - 1, SHEET_SIDE_MOST]);
        let (width, height) = rng.pick(&[(long, other), (other, long)]);
        (self.numbers[2].value, self.numbers[3].value) = (width as u64, height as u64);
        if rng.one_in(4) {
            self.spoil_cell(rng);
        }
        // as many cells as the sheet says where they are few enough for a run, else some: none of them may change
        self.out_len = if width * height <= 2 * SHEET_SIDE_MOST && rng.one_in(8) { width * height } else { rng.below(40) };
        self.encode(rng);
    }

    fn spoil_version_or_kind(&mut self, rng: &mut Rng) {
        if rng.one_in(2) { self.spoil_version(rng) } else { self.spoil_kind(rng) }
    }

    fn number_faults(&mut self, rng: &mut Rng) {
        let faults = [
            Self::spoil_form, Self::spoil_width, Self::spoil_version, Self::spoil_kind, Self::spoil_size, Self::spoil_cell,
        ];
        for _ in 0..1 + rng.below(2) {
            take_one(&faults, self, rng);
        }
    }

    /// Most make something wrong with a good sheet: before its numbers become bytes, or after.
    pub const RECIPES: [Recipe<Self>; 14] = [
        ("random bytes", &[Self::random]),
        ("sheets of a large size, most with few cells", &[Self::large]),
        ("sheets", &[Self::good, Self::encode]),
        ("sheets with a number that is not in its shortest form", &[Self::good, Self::spoil_form, Self::encode]),
        ("sheets with a number over 32 bits or over five groups", &[Self::good, Self::spoil_width, Self::encode]),
        ("sheets of another version or kind", &[Self::good, Self::spoil_version_or_kind, Self::encode]),
        ("sheets of another size", &[Self::good, Self::spoil_size, Self::encode]),
        ("sheets with a number that no cell has", &[Self::good, Self::spoil_cell, Self::encode]),
        ("sheets cut", &[Self::good, Self::encode, Self::cut]),
        ("sheets with bits flipped", &[Self::good, Self::encode, Self::flip]),
        ("sheets with a byte too many or too few", &[Self::good, Self::encode, Self::insert_or_remove]),
        ("sheets with bytes left over", &[Self::good, Self::encode, Self::left_over]),
        ("sheets with an output that does not fit", &[Self::good, Self::encode, Self::spoil_output]),
        ("sheets with two faults or three", &[Self::good, Self::number_faults, Self::encode, Self::byte_fault]),
    ];
}

impl Spoilt for Reading {
    const TURNS: &'static [u8] = &[0, 1, 0x7F, 0x80, 0xFF];
    const LEFT_OVER: &'static [usize] = &[1, 1, 1, 2, 5];

    fn bytes(&mut self) -> &mut Bytes {
        &mut self.bytes
    }

    fn spoil_output(&mut self, rng: &mut Rng) {
        let fits = self.out_len;
        self.out_len = rng.pick(&[fits + 1, fits.saturating_sub(1), 0, 2 * fits, self.bytes.lent().len()]);
    }
}
