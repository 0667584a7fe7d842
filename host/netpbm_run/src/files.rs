//! Bytes to be read: PGM and PFM files with every kind of header, and files with one fault or more of every kind that a mail, a
//! disk, another program or an ill-wisher makes.
use crate::maps::number;
use runs::bytes::{Bytes, Spoilt};
use runs::limits::SIDE_MOST;
use runs::maps::cells;
use runs::recipes::{Recipe, follow_one, take_one};
use runs::rng::Rng;
use runs::sizes;
use std::fmt;

#[derive(Debug, Clone, Copy, PartialEq, Eq)]
pub enum Format {
    Pgm,
    Pfm,
}

/// Bytes to be read. A file is made here as parts first, for a part can then be made wrong before they become bytes.
pub struct Reading {
    pub format: Format,
    pub bytes: Bytes,
    pub out_len: usize,
    parts: Parts,
}

/// The parts of a file. `gaps` are what stands before the width, before the height, before the maximum or scale, and behind it.
#[derive(Default)]
struct Parts {
    magic: Vec<u8>,
    gaps: [Vec<u8>; 4],
    width: Vec<u8>,
    height: Vec<u8>,
    /// The maximum of PGM, the scale of PFM.
    third: Vec<u8>,
    data: Vec<u8>,
}

impl fmt::Debug for Reading {
    fn fmt(&self, f: &mut fmt::Formatter) -> fmt::Result {
        // all the bytes of an input by a recipe; of the largest file the first of them, for the seed gives the others
        let lent = self.bytes.lent();
        let shown = &lent[..lent.len().min(20_000)];
        write!(f, "read {:?}: cells lent {}, bytes \"{}\"", self.format, self.out_len, shown.escape_ascii())
    }
}

const WHITE: [u8; 6] = [b' ', b'\t', b'\n', 0x0B, 0x0C, b'\r'];

/// Bytes that some readers take for white space or for a digit, and that are neither: those beside them, blanks of other sets.
const NEARLY: [u8; 14] = [0, 0x08, 0x0E, 0x1C, 0x1F, b'!', b'/', b':', b',', b'_', 0x7F, 0x85, 0xA0, 0xFF];

/// A comment with its line end, which holds anything else.
fn push_comment(rng: &mut Rng, into: &mut Vec<u8>) {
    into.push(b'#');
    let any = rng.one_in(2);
    for _ in 0..rng.pick(&[0, 0, 1, 3, 12]) {
        let byte = if any { rng.next() as u8 } else { rng.pick(b" 0125#P\t\x0B\x0C5x") };
        into.push(if byte == b'\r' || byte == b'\n' { b'#' } else { byte });
    }
    into.push(rng.pick(b"\r\n\n"));
}

/// A gap that PGM allows.
fn gap(rng: &mut Rng) -> Vec<u8> {
    let mut gap = Vec::new();
    for _ in 0..rng.pick(&[1, 1, 1, 2, 3, 6]) {
        if rng.one_in(3) { push_comment(rng, &mut gap) } else { gap.push(rng.pick(&WHITE)) }
    }
    gap
}

/// A number's digits, with leading zeros at times.
fn digits(rng: &mut Rng, number: usize) -> Vec<u8> {
    let zeros = rng.pick(&[0, 0, 0, 0, 0, 1, 2, 19, 40]);
    format!("{}{number}", "0".repeat(zeros)).into_bytes()
}

/// A run of digits that are any.
fn any_digits(rng: &mut Rng) -> Vec<u8> {
    let from = if rng.one_in(3) { "0" } else { "0123456789" };
    (0..rng.pick(&[1, 1, 2, 3, 9, 30])).map(|_| rng.pick(from.as_bytes())).collect()
}

/// A scale: nearly always a good one.
fn scale(rng: &mut Rng) -> Vec<u8> {
    let known = [&b"-1.0"[..], b"1.0", b"-1", b"1", b"+1", b"-0.5", b"+0.001", b"-1.000000", b"255", b"-00000000000000000000.01"];
    if rng.one_in(2) {
        return rng.pick(&known).to_vec();
    }
    let mut scale = rng.pick(&[&b"-"[..], b"+", b""]).to_vec();
    scale.extend(any_digits(rng));
    if rng.one_in(2) {
        scale.push(b'.');
        scale.extend(any_digits(rng));
    }
    scale
}

/// A scale that is none, or might be one.
fn odd_scale(rng: &mut Rng) -> Vec<u8> {
    let known = [
        &b""[..], b"-", b"+", b".", b"-.", b"-.5", b"+.5", b".5", b"1.", b"-1.", b"0", b"-0", b"+0", b"00.00", b"-0.0", b"0.",
        b"1e3", b"-1.0e0", b"1E1", b"--1", b"+-1", b"-+1", b"- 1", b" 1", b"1 ", b"1.0.0", b"1..0", b"1,0", b"0x1", b"inf", b"-inf",
        b"nan", b"1.0\r", b"1.0#", b"1.-0", b"1-", b"1.0-", b"1_0", b"1.0f",
    ];
    if rng.one_in(2) {
        return rng.pick(&known).to_vec();
    }
    (0..rng.below(7)).map(|_| rng.pick(b"+-..0001259e \x2C\x2F")).collect()
}

/// A number that some reader takes for the one given and that is another: digits behind it or before it, or what is left of it when
/// 8, 16, 32 or 64 bits overflow; and some that are only far too long.
fn other_number(rng: &mut Rng, number: usize) -> Vec<u8> {
    let round = (number as u128) + (1u128 << rng.pick(&[8, 16, 31, 32, 63, 64, 64, 96]));
    let long = "9".repeat(rng.pick(&[19, 20, 21, 30, 80]));
    let ten_times = format!("{number}0");
    let one_before = format!("1{number}");
    let others = [round.to_string(), long, ten_times, one_before, (number + 1).to_string(), number.saturating_sub(1).to_string()];
    others[rng.below(others.len())].clone().into_bytes()
}

/// Something that is no number, made of one that is.
fn no_number(rng: &mut Rng, digits: &[u8]) -> Vec<u8> {
    let at = rng.below(digits.len() + 1);
    let stray = match rng.below(4) {
        0 => rng.pick(&NEARLY),
        1 => rng.pick(b"+-.exaA"),
        2 => rng.next() as u8,
        _ => return rng.pick(&[&b""[..], b"-1", b"+1", b"1.0", b"x", b"0x10", b"1e2"]).to_vec(),
    };
    [&digits[..at], &[stray], &digits[at..]].concat()
}

impl Reading {
    pub fn new() -> Self {
        Self { format: Format::Pgm, bytes: Bytes::new(Vec::new()), out_len: 0, parts: Parts::default() }
    }

    /// These bytes, and this many cells for them.
    pub fn set(&mut self, format: Format, bytes: &[u8], out_len: usize) {
        self.format = format;
        self.bytes = Bytes::new(bytes.to_vec());
        self.out_len = out_len;
    }

    /// The parts of a good file of this size, but for a scale of zero now and then, and an output that fits it.
    fn good_of(&mut self, rng: &mut Rng, width: usize, height: usize) {
        let pgm = self.format == Format::Pgm;
        self.out_len = width * height;
        let data = if pgm {
            (0..self.out_len).map(|_| if rng.one_in(3) { Self::stray_byte(rng) } else { rng.next() as u8 }).collect()
        } else {
            let mut numbers = Vec::new();
            cells(rng, number, self.out_len, &mut numbers);
            numbers.iter().flat_map(|cell| cell.to_le_bytes()).collect()
        };
        self.parts = Parts {
            magic: if pgm { b"P5".to_vec() } else { b"Pf".to_vec() },
            gaps: if pgm {
                [gap(rng), gap(rng), gap(rng), vec![rng.pick(&WHITE)]]
            } else {
                [b"\n".to_vec(), b" ".to_vec(), b"\n".to_vec(), b"\n".to_vec()]
            },
            width: digits(rng, width),
            height: digits(rng, height),
            third: if pgm { digits(rng, 255) } else { scale(rng) },
            data,
        };
    }

    fn good(&mut self, rng: &mut Rng) {
        let (width, height) = sizes::small(rng);
        self.good_of(rng, width, height);
    }

    /// A good file of this size and format, all of it lent.
    pub fn good_file(&mut self, rng: &mut Rng, format: Format, width: usize, height: usize) {
        self.format = format;
        self.good_of(rng, width, height);
        self.encode(rng);
    }

    /// The bytes of the parts, all of them lent.
    fn encode(&mut self, _: &mut Rng) {
        let Parts { magic, gaps, width, height, third, data } = &self.parts;
        let parts = [magic, &gaps[0], width, &gaps[1], height, &gaps[2], third, &gaps[3], data];
        self.bytes = Bytes::new(parts.map(Vec::as_slice).concat());
    }

    fn spoil_magic(&mut self, rng: &mut Rng) {
        let any = [rng.next() as u8, rng.next() as u8];
        let magics = [
            &b"P5"[..], b"Pf", b"P2", b"P4", b"P6", b"P7", b"PF", b"p5", b"pf", b"P", b"", b"5P", b" P5", b"P55",
            b"\xEF\xBB\xBFP5", &any,
        ];
        self.parts.magic = rng.pick(&magics).to_vec();
    }

    /// A gap that is none, or that only the other format allows.
    fn spoil_gap(&mut self, rng: &mut Rng) {
        let at = rng.below(4);
        let mut comment = Vec::new();
        push_comment(rng, &mut comment);
        let gap = &mut self.parts.gaps[at];
        match rng.below(8) {
            0 => gap.clear(),
            1 => gap.insert(rng.below(gap.len() + 1), rng.pick(&NEARLY)),
            2 => *gap = vec![rng.pick(&NEARLY)],
            // without its line end a comment runs on through what follows
            3 => *gap = comment[..comment.len() - 1].to_vec(),
            4 => *gap = comment,
            5 => *gap = b"\r\n".to_vec(),
            6 => gap.push(rng.pick(&WHITE)),
            _ => *gap = vec![rng.pick(&WHITE)],
        }
    }

    /// The width's or the height's digits, and what they say.
    fn spoil_side(&mut self, rng: &mut Rng, spoilt: impl Fn(&mut Rng, &[u8]) -> Vec<u8>) {
        let side = if rng.one_in(2) { &mut self.parts.width } else { &mut self.parts.height };
        *side = spoilt(rng, side);
    }

    /// No number in place of one.
    fn spoil_number(&mut self, rng: &mut Rng) {
        if rng.one_in(3) {
            self.parts.third = no_number(rng, &self.parts.third);
        } else {
            self.spoil_side(rng, no_number);
        }
    }

    /// A size of no file, or one that is good and of another file.
    fn spoil_size(&mut self, rng: &mut Rng) {
        let sides = [0, 0, SIDE_MOST + 1, SIDE_MOST + 1, SIDE_MOST, SIDE_MOST + 2, 2 * SIDE_MOST, 65_536];
        self.spoil_side(rng, |rng, side| {
            let number = str::from_utf8(side).ok().and_then(|text| text.parse().ok()).unwrap_or(1);
            let side = rng.pick(&sides);
            if rng.one_in(2) { other_number(rng, number) } else { digits(rng, side) }
        });
    }

    /// Another maximum; another scale.
    fn spoil_third(&mut self, rng: &mut Rng) {
        self.parts.third = match self.format {
            Format::Pgm if rng.one_in(2) => other_number(rng, 255),
            Format::Pgm => rng.pick(&[&b"0"[..], b"1", b"254", b"256", b"25", b"2555", b"65535", b"65536", b"0254"]).to_vec(),
            Format::Pfm => odd_scale(rng),
        };
    }

    /// Bytes that were never a file: any, ones that readers turn on, and either behind a magic number.
    fn random(&mut self, rng: &mut Rng) {
        let any = rng.one_in(3);
        let mut bytes = rng.pick(&[&b""[..], b"P5", b"P5 ", b"P5 1 1 255", b"Pf\n", b"Pf\n1 1\n"]).to_vec();
        for _ in 0..rng.below(24) {
            bytes.push(if any { rng.next() as u8 } else { Self::stray_byte(rng) });
        }
        let out_len = rng.below(12);
        self.set(self.format, &bytes, out_len);
    }

    /// Files that say a large size: most with few cells behind it, a few with as many as they say.
    fn large(&mut self, rng: &mut Rng) {
        let long = rng.pick(&[9, 10, 99, 100, 1000, SIDE_MOST - 1, SIDE_MOST]);
        let (width, height) = sizes::narrow(rng, long);
        if rng.one_in(20) {
            self.good_of(rng, width, height);
            self.encode(rng);
            return self.spoil_length(rng);
        }
        self.good(rng);
        (self.parts.width, self.parts.height) = (digits(rng, width), digits(rng, height));
        self.encode(rng);
    }

    fn part_faults(&mut self, rng: &mut Rng) {
        let faults = [Self::spoil_magic, Self::spoil_gap, Self::spoil_number, Self::spoil_size, Self::spoil_third];
        for _ in 0..1 + rng.below(2) {
            take_one(&faults, self, rng);
        }
    }

    /// The next input by a recipe, and the recipe's name.
    pub fn next(&mut self, rng: &mut Rng) -> &'static str {
        self.format = rng.pick(&[Format::Pgm, Format::Pfm]);
        follow_one(&Self::RECIPES, self, rng)
    }

    /// Most make something wrong with a good file: before its parts become bytes, or after.
    const RECIPES: [Recipe<Self>; 15] = [
        ("random bytes", &[Self::random]),
        ("files of a large size, most with few cells", &[Self::large]),
        ("files", &[Self::good, Self::encode]),
        ("files with another magic number", &[Self::good, Self::spoil_magic, Self::encode]),
        ("files with an odd gap", &[Self::good, Self::spoil_gap, Self::encode]),
        ("files with no number in place of one", &[Self::good, Self::spoil_number, Self::encode]),
        ("files of another size", &[Self::good, Self::spoil_size, Self::encode]),
        ("files with another maximum or an odd scale", &[Self::good, Self::spoil_third, Self::encode]),
        (
            "files with an odd gap, an output that does not fit",
            &[Self::good, Self::spoil_gap, Self::encode, Self::spoil_output],
        ),
        ("files cut", &[Self::good, Self::encode, Self::cut]),
        ("files with bits flipped", &[Self::good, Self::encode, Self::flip]),
        ("files with a byte too many or too few", &[Self::good, Self::encode, Self::insert_or_remove]),
        ("files with bytes left over", &[Self::good, Self::encode, Self::left_over]),
        ("files with an output that does not fit", &[Self::good, Self::encode, Self::spoil_output]),
        ("files with two faults or three", &[Self::good, Self::part_faults, Self::encode, Self::byte_fault]),
    ];
}

impl Spoilt for Reading {
    const TURNS: &'static [u8] = b" \n\r#0159P.-+\0";
    const LEFT_OVER: &'static [usize] = &[1, 1, 1, 2, 4, 5];

    fn bytes(&mut self) -> &mut Bytes {
        &mut self.bytes
    }

    /// The header as often as all.
    fn reach(rng: &mut Rng, len: usize) -> usize {
        rng.pick(&[len, len.min(14)])
    }

    fn spoil_output(&mut self, rng: &mut Rng) {
        let fits = self.out_len;
        self.out_len = rng.pick(&[fits + 1, fits.saturating_sub(1), 0, 2 * fits, 4 * fits, self.bytes.lent().len()]);
    }
}
