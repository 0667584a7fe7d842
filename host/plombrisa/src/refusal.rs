//! Why a call is refused: the one table of names, numbers and sentences. A sentence is its words and, by their names, the limits of
//! `limits`; what is printed and what is documented are made of the same row.
use crate::grouped::Grouped;
use crate::limits;
use std::fmt;

/// A part of a sentence as it is printed: words as they are, a limit as its number.
macro_rules! printed {
    ($f:ident, $words:literal) => {
        $f.write_str($words)?
    };
    ($f:ident, $limit:ident) => {
        write!($f, "{}", Grouped(limits::$limit as u64))?
    };
}

/// A part of a sentence as it is documented: words as they are, a limit as a link to it.
macro_rules! documented {
    ($words:literal) => {
        $words
    };
    ($limit:ident) => {
        concat!("[`", stringify!($limit), "`](crate::limits::", stringify!($limit), ")")
    };
}

/// Makes the enum of a table of refusals, the list of them all, and what is said of each.
macro_rules! refusals {
    ($($name:ident = $number:literal: [$($part:tt),+],)*) => {
        /// Why the library refused a call: a row of its table, with its number.
        ///
        /// Of the rows that a call tests the first that applies is answered, and then nothing that the call was lent has changed. What is
        /// printed of a refusal is its sentence, with the number in place of each limit.
        ///
        /// ```
        /// use plombrisa::{Map, Refusal, valid_count};
        ///
        /// let refusal = valid_count(Map { cells: &[], width: 1, height: 2049 }).unwrap_err();
        /// assert_eq!((refusal, refusal.number()), (Refusal::MapSize, 23));
        /// assert!(refusal.to_string().starts_with("the map's width or height is outside 1 to 2,048"));
        /// ```
        #[derive(Debug, Clone, Copy, PartialEq, Eq)]
        #[repr(u32)]
        pub enum Refusal {
            $(
                #[doc = concat!("Number ", $number, ": ", $(documented!($part),)+ ".")]
                $name = $number,
            )*
        }

        impl Refusal {
            const ALL: &[Self] = &[$(Self::$name,)*];
        }

        impl fmt::Display for Refusal {
            fn fmt(&self, f: &mut fmt::Formatter) -> fmt::Result {
                match self {
                    $(Self::$name => {
                        $(printed!(f, $part);)+
                    })*
                }
                Ok(())
            }
        }
    };
}

refusals! {
    SizeOutOfRange = 1: ["a picture's width or height is outside 1 to ", SIDE_MOST],
    ByteCount = 2: ["a picture's byte count is not its width times its height"],
    SizesDiffer = 3: ["the two pictures are not of one size"],
    BlockEven = 4: ["the block's side is zero or even"],
    BlockTooLarge = 5: ["the block's side is over ", BLOCK_MOST],
    CountNotPositive = 6: ["the number of disparities is zero or negative"],
    CountTooLarge = 7: ["the number of disparities is over ", COUNT_MOST],
    PictureSmallerThanBlock = 8: ["the pictures are narrower or lower than the block"],
    FirstOutOfRange = 9: ["the first disparity is outside -", FIRST_MOST, " to ", FIRST_MOST],
    PenaltyOutOfRange = 10: ["a penalty is not finite or outside 0 to ", PENALTY_MOST],
    PenaltiesReversed = 13: ["the penalty sgm_p2 is below sgm_p1"],
    OutputLength = 11: ["the output's length does not fit"],
    RoomTooShort = 12: ["a room is too short"],
    CameraOutOfRange = 21: ["fx or fy is not finite and positive, or cx or cy is not finite"],
    BaselineOutOfRange = 22: ["the baseline is not finite or not over 1e-12"],
    MapSize = 23: ["the map's width or height is outside 1 to ", SIDE_MOST, " or not the pictures', or its length does not fit them"],
    ListTooShort = 24: ["the list is shorter than the points to write"],
    CoordinateNan = 25: ["a coordinate is NaN"],
    PixelOutside = 26: ["the pixel is outside the picture or the map"],
    IndexLength = 28: ["the index's length is not the number of rows"],
    CellInfinite = 31: ["a cell is infinite"],
    CellNotWhole = 32: ["a cell is minus zero, a fraction, or outside -", WHOLE_MOST, " to ", WHOLE_MOST],
    OutputTooShort = 33: ["the output is too short for the sheet"],
    NumberUnfit = 34: ["a number of the sheet is cut, not in its shortest form, or has more than five groups"],
    VersionOrKindUnknown = 35: ["the sheet's version or kind is unknown"],
    SheetSize = 36: ["the sheet's width or height is outside 1 to ", SHEET_SIDE_MOST],
    CellNumber = 37: ["the sheet has a number that no cell has"],
    BytesLeftOver = 38: ["the sheet has bytes left over"],
    FileHeader = 41: ["the file's header is not one of its format"],
    FileMaximum = 42: ["the file's maximum is not 255"],
    FileSize = 43: ["the file's width or height is outside 1 to ", SIDE_MOST],
    FileData = 44: ["the file's data are cut, or bytes are left over"],
    FileOutput = 45: ["the output's length does not fit the file"],
    CellSide = 51: ["the cell's side is outside ", CELL_LEAST, " to ", CELL_MOST, " mm"],
    DistanceOutOfRange = 52: [
        "a coordinate is not finite, or it, an edge or the floor's depth is over ", FARTHEST, " mm in size, ",
        "or the coordinates' lists are not of one length"
    ],
    RectangleSides = 53: ["the rectangle's sides are not positive whole multiples of the cell's"],
    TooManyCells = 54: ["the rectangle has more than ", CELLS_MOST, " cells"],
    GridLength = 55: ["the grid's length is not the number of cells"],
}

impl Refusal {
    /// The row's number, which the library answers and the header for C has too.
    pub fn number(self) -> u32 {
        self as u32
    }

    /// The refusal with this number; `None` where no row of the table has it.
    pub fn of_number(number: u32) -> Option<Self> {
        Self::ALL.iter().copied().find(|refusal| refusal.number() == number)
    }

    /// The row's sentence, for a person who is told the number.
    pub fn reason(self) -> String {
        self.to_string()
    }
}

impl std::error::Error for Refusal {}

/// What the library answered: 0, or the number of a refusal.
pub(crate) fn answer(number: u32) -> Result<(), Refusal> {
    match number {
        0 => Ok(()),
        n => Err(Refusal::of_number(n).expect("the library answers numbers of the table")),
    }
}

#[cfg(test)]
mod tests {
    use super::*;

    #[test]
    fn a_number_finds_its_refusal() {
        for refusal in Refusal::ALL {
            assert_eq!(Refusal::of_number(refusal.number()), Some(*refusal));
        }
        assert_eq!([0, 14, 27, 56].map(Refusal::of_number), [None; 4]);
    }
}
