//! One map on both sides: the library's answer and all that it was lent, held to `judge`.
use crate::cases::{Made, Must};
use plombrisa::{Error, Map, Picture, Verdict, check_vendor, check_vendor_in, whole_cells};
use runs::held::Held;
use runs::room::Room;
use runs::same::equal;
use vendor_run::judge::{Fault, Judged, index_of, judge};

/// What the lent numbers hold before a call, and the numbers beside them throughout: none that is answered.
const WAS: u64 = 0xA5A5_0000_1111_2222;
const PASSED_WAS: u32 = 0xA5A5_3333;

/// What the library is lent, kept from input to input.
pub struct Both {
    left: Held<u8>,
    right: Held<u8>,
    map: Held<f32>,
    room: Room<u64>,
}

/// The answers that have to come, and what of a map brings them about.
pub const YES: &str = "answer: yes";
pub const YES_TIED: &str = "answer: yes, with a cell whose raw cost another index has too";
pub const YES_LEAST: &str = "answer: yes, with a cell whose raw cost is min_correlation itself";
pub const YES_MINUS_ZERO: &str = "answer: yes, with a minus zero";
pub const YES_INFINITE: &str = "answer: yes, with an infinite cell";
pub const YES_NONE_VALID: &str = "answer: yes, without a valid cell";
pub const NO_NOT_SEARCHED: &str = "answer: no, for a number that is no searched disparity";
pub const NO_BLANK: &str = "answer: no, for a raw cost that is blank";
pub const NO_BELOW: &str = "answer: no, for a raw cost below min_correlation";
pub const NO_BEATEN: &str = "answer: no, for a raw cost that is beaten";
pub const NO_MORE: &str = "answer: no, and there are bad cells behind the first";
pub const ANSWERS: [&str; 11] = [
    YES, YES_TIED, YES_LEAST, YES_MINUS_ZERO, YES_INFINITE, YES_NONE_VALID, NO_NOT_SEARCHED, NO_BLANK, NO_BELOW, NO_BEATEN, NO_MORE,
];

/// The number of an answer, 0 where the call was accepted. A run's inputs are small, so memory is not what it may lack.
fn number_of<T>(answer: &Result<T, impl Copy + Into<Error>>) -> u32 {
    answer.as_ref().map_or_else(|&why| why.into().refusal().expect("memory").number(), |_| 0)
}

fn verdict_of(judged: &Judged) -> Verdict {
    judged.first_bad().map_or(Verdict::Yes, |(x, y)| Verdict::No { x, y })
}

/// What a map that passes has.
fn kinds_of_yes(input: &Made, judged: &Judged) -> Vec<&'static str> {
    let search = input.search();
    let cells = input.map.lent();
    let cost = |pixel: usize| judged.costs.at(pixel, index_of(&search, cells[pixel])?);
    let tied = |pixel: usize| cost(pixel).is_some_and(|own| judged.costs.there(pixel).filter(|(_, other)| *other == own).count() > 1);
    let has = |kind, there: bool| there.then_some(kind);
    let kinds = [
        Some(YES),
        has(YES_TIED, (0..cells.len()).any(tied)),
        has(YES_LEAST, (0..cells.len()).any(|pixel| cost(pixel) == Some(search.min_correlation))),
        has(YES_MINUS_ZERO, cells.iter().any(|cell| cell.to_bits() == (-0.0f32).to_bits())),
        has(YES_INFINITE, cells.iter().any(|cell| cell.is_infinite())),
        has(YES_NONE_VALID, !cells.iter().any(|cell| cell.is_finite())),
    ];
    kinds.into_iter().flatten().collect()
}

/// Which answers a map brought about.
fn kinds(input: &Made, judged: &Judged) -> Vec<&'static str> {
    let mut bad = judged.faults.iter().flatten();
    let Some(first) = bad.next() else { return kinds_of_yes(input, judged) };
    let first = match first {
        Fault::NotSearched => NO_NOT_SEARCHED,
        Fault::Blank => NO_BLANK,
        Fault::BelowMinimum => NO_BELOW,
        Fault::Beaten => NO_BEATEN,
    };
    [first].into_iter().chain(bad.next().map(|_| NO_MORE)).collect()
}

impl Both {
    pub fn new() -> Self {
        Self { left: Held::default(), right: Held::default(), map: Held::default(), room: Room::new() }
    }

    /// The call that takes the room: its answer, the three numbers, and every cell that it was lent or that stands beside one.
    fn check_lent(&mut self, input: &Made, should: Result<&Judged, u32>) -> Result<(), String> {
        self.left.hold(&input.left.bytes);
        self.right.hold(&input.right.bytes);
        self.map.hold(input.map.lent());
        let left = Picture { bytes: self.left.lent(), width: input.left.width, height: input.left.height };
        let right = Picture { bytes: self.right.lent(), width: input.right.width, height: input.right.height };
        let map = Map { cells: self.map.lent(), width: input.map.width, height: input.map.height };
        let (mut passed, mut places) = ([PASSED_WAS; 3], [WAS; 5]);
        let [_, x, _, y, _] = &mut places;
        let room = self.room.lend(input.room_length());
        let answer = check_vendor_in(left, right, &input.options, map, room, &mut passed[1], x, y);

        equal("answer", number_of(&answer), should.as_ref().err().copied().unwrap_or(0))?;
        let (now, place) = match should {
            Ok(judged) => match judged.first_bad() {
                None => (1, [WAS; 2]),
                Some((x, y)) => (0, [x as u64, y as u64]),
            },
            Err(_) => (PASSED_WAS, [WAS; 2]),
        };
        equal("passed", passed, [PASSED_WAS, now, PASSED_WAS])?;
        equal("place", places, [WAS, place[0], WAS, place[1], WAS])?;
        self.left.unchanged("byte of the left picture")?;
        self.right.unchanged("byte of the right picture")?;
        self.map.unchanged("cell of the map")?;
        let used = should.map_or(0, |_| whole_cells(input.left.width, input.left.height));
        if let Some(at) = self.room.lent()[..used].iter().position(|&cell| cell != 0) {
            return Err(format!("cell {at} of the {used} that the room needs is not zero"));
        }
        self.room.unchanged_but(used).map_err(|why| format!("room: {why}"))
    }

    /// The call that lends its own room.
    fn check_owned(&self, input: &Made) -> Result<(), String> {
        let picture = |bytes, width, height| Picture { bytes, width, height };
        let left = picture(self.left.lent(), input.left.width, input.left.height);
        let right = picture(self.right.lent(), input.right.width, input.right.height);
        let map = Map { cells: self.map.lent(), width: input.map.width, height: input.map.height };
        let answer = check_vendor(left, right, &input.options, map);
        let is = answer.map_err(|_| number_of(&answer));
        let should = judge(&input.asked(), usize::MAX).map(|judged| verdict_of(&judged));
        equal("answer of the call that lends its own room", is, should)
    }

    /// A map to be checked. The answer's number, and the answers that are counted.
    pub fn check(&mut self, input: &Made) -> Result<(u32, Vec<&'static str>), String> {
        let judged = judge(&input.asked(), input.room_length());
        let should = judged.as_ref().map_err(|refusal| *refusal);
        self.check_lent(input, should)?;
        self.check_owned(input)?;
        match (input.must, should) {
            (Must::Yes, Ok(judged)) => equal("verdict on a map that must pass", verdict_of(judged), Verdict::Yes)?,
            (Must::No { x, y }, Ok(judged)) => equal("verdict on a map with one bad cell", verdict_of(judged), Verdict::No { x, y })?,
            (Must::Refuse(number), _) => equal("refusal of these faults", should.err(), Some(number))?,
            _ => {}
        }
        Ok(should.map_or_else(|number| (number, Vec::new()), |judged| (0, kinds(input, judged))))
    }
}
