//! Maps to be written: good ones with cells at every boundary, and unfit ones of every kind.
use runs::limits::SIDE_MOST;
use runs::maps::{MadeMap, Number};
use runs::recipes::{Recipe, take_one};
use runs::rng::Rng;
use runs::sizes;
use sheets_run::format::{SHEET_SIDE_MOST, WHOLE_MOST};

/// A map to be written, and the kind of its sheet.
#[derive(Debug)]
pub struct Writing {
    pub kind: u64,
    pub map: MadeMap,
}

/// A whole disparity of kind 0, most of them where the number of groups changes or the range ends.
fn whole(rng: &mut Rng) -> f32 {
    let (sign, most) = (rng.pick(&[1, -1]), i64::from(WHOLE_MOST));
    (match rng.below(4) {
        0 => sign * rng.pick(&[0, 1, 2, 62, 63, 64, 65, most - 2, most - 1, most]),
        1 => sign * rng.within(0, most),
        _ => rng.within(-70, 70),
    }) as f32
}

/// A finite f32, most of them where the number of groups changes or a class of numbers ends.
fn exact(rng: &mut Rng) -> f32 {
    let sign = rng.pick(&[0, 0x8000_0000]);
    let bits = match rng.below(5) {
        0 => sign | rng.pick(&[0, 1, 2, 0x007F_FFFF, 0x0080_0000, 0x0080_0001, 0x3F7F_FFFF, 0x3F80_0000, 0x7F7F_FFFE, 0x7F7F_FFFF]),
        1 => ((1 << rng.pick(&[7, 14, 21, 28])) - 3) + rng.below(5) as u32,
        2 => sign | rng.below(0x7F80_0000) as u32,
        3 => whole(rng).to_bits(),
        _ => (rng.within(-200, 1000) as f32 / 8.0).to_bits(),
    };
    f32::from_bits(bits)
}

/// A cell that no sheet of the kind holds, unless it is a good one of kind 1.
fn unfit(rng: &mut Rng) -> f32 {
    let (sign, most) = (rng.pick(&[1.0, -1.0]), WHOLE_MOST as f32);
    match rng.below(4) {
        0 => sign * f32::INFINITY,
        1 => -0.0,
        2 => sign * rng.pick(&[0.5, 1e-45, f32::MIN_POSITIVE, 1.5, 1f32.next_up(), 1f32.next_down(), most - 0.5, most.next_down()]),
        // the powers of two are those at which a conversion to an integer goes round or stops
        _ => sign * rng.pick(&[most + 1.0, most.next_up(), 2.0 * most, 65536.0, 2f32.powi(31), 2f32.powi(32), 2f32.powi(63), f32::MAX]),
    }
}

pub fn unknown_kind(rng: &mut Rng) -> u64 {
    let any = 2 + rng.next() / 2;
    rng.pick(&[2, 3, 127, 128, 256, 1 << 32, (1 << 32) + 1, u64::MAX, any])
}

/// What draws a good cell of a kind that is not blank.
pub fn number(kind: u64) -> Number {
    if kind == 0 { whole } else { exact }
}

impl Writing {
    pub fn new() -> Self {
        Self { kind: 0, map: MadeMap::new(number(0)) }
    }

    fn set_kind(&mut self, kind: u64) {
        (self.kind, self.map.number) = (kind, number(kind));
    }

    /// A good map of this size, and an output that holds its sheet.
    fn good_of(&mut self, rng: &mut Rng, width: usize, height: usize) {
        self.set_kind(rng.below(2) as u64);
        self.map.good_of(rng, width, height);
    }

    fn good(&mut self, rng: &mut Rng) {
        let (width, height) = sizes::small(rng);
        self.good_of(rng, width, height);
    }

    /// A map of one cell, good or not.
    pub fn one_cell(&mut self, kind: u64, cell: f32) {
        self.set_kind(kind);
        self.map.one_cell(cell);
    }

    /// A good map of the largest size that a sheet has.
    pub fn largest(&mut self, rng: &mut Rng, kind: u64) {
        self.set_kind(kind);
        self.map.exact_of(rng, SHEET_SIDE_MOST, SHEET_SIDE_MOST);
    }

    /// Good maps with the longest sides and near them; few, for they are long.
    fn wide(&mut self, rng: &mut Rng) {
        if !rng.one_in(50) {
            return self.good(rng);
        }
        let long = rng.pick(&[127, 128, SIDE_MOST - 1, SIDE_MOST]);
        let (width, height) = sizes::narrow(rng, long);
        self.good_of(rng, width, height);
    }

    fn spoil_size(&mut self, rng: &mut Rng) {
        self.map.spoil_size(rng);
    }

    fn spoil_kind(&mut self, rng: &mut Rng) {
        self.set_kind(unknown_kind(rng));
    }

    fn spoil_cell(&mut self, rng: &mut Rng) {
        let cells = self.map.lent_mut();
        if !cells.is_empty() {
            let at = rng.below(cells.len());
            cells[at] = unfit(rng);
        }
    }

    fn spoil_cells(&mut self, rng: &mut Rng) {
        for _ in 0..1 + rng.below(3) {
            self.spoil_cell(rng);
        }
    }

    fn spoil_output(&mut self, rng: &mut Rng) {
        self.map.shorten_output(rng, &[1, 1, 2, 3, 4, 5, 9]);
    }

    fn fault(&mut self, rng: &mut Rng) {
        take_one(&[Self::spoil_size, Self::spoil_kind, Self::spoil_cell, Self::spoil_output], self, rng);
    }

    pub const RECIPES: [Recipe<Self>; 8] = [
        ("maps that have a sheet", &[Self::good]),
        ("maps that have a sheet", &[Self::good]),
        ("maps that have a sheet, some with the longest side", &[Self::wide]),
        ("maps whose size or length is unfit", &[Self::good, Self::spoil_size]),
        ("maps of a kind that is none", &[Self::good, Self::spoil_kind]),
        ("maps with cells that are not the kind's", &[Self::good, Self::spoil_cells]),
        ("maps with too little room for the sheet", &[Self::good, Self::spoil_output]),
        ("maps with two faults", &[Self::good, Self::fault, Self::fault]),
    ];
}
