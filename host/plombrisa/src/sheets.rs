//! Sheets: a map stored as bytes, written and read back. What a refused call was lent is left as it was.
use crate::memory::zeros;
use crate::refusal::answer;
use crate::{Error, Map, Refusal, raw};

/// What the cells of a sheet are.
#[derive(Debug, Clone, Copy, PartialEq, Eq)]
#[repr(u64)]
pub enum Kind {
    /// Whole disparities, to [`WHOLE_MOST`](crate::limits::WHOLE_MOST) either way, stored in one to three bytes each.
    Whole = 0,
    /// Any finite disparities, each stored with its bits, in up to five bytes.
    Exact = 1,
}

impl Kind {
    /// The number that a sheet has for the kind: 0 or 1.
    pub fn number(self) -> u64 {
        self as u64
    }

    /// The kind that a sheet has this number for; `None` where there is none.
    pub fn of_number(number: u64) -> Option<Self> {
        [Kind::Whole, Kind::Exact].into_iter().find(|kind| kind.number() == number)
    }
}

/// What was read of a sheet: its kind and its map.
#[derive(Debug, Clone)]
pub struct Sheet {
    /// What the cells are.
    pub kind: Kind,
    /// How many cells a row has.
    pub width: usize,
    /// How many rows there are.
    pub height: usize,
    /// The disparities in pixels by rows, the top row first, a NaN for each blank cell: pixel (x, y) in cell y·width + x.
    pub cells: Vec<f32>,
}

impl Sheet {
    /// The sheet's map as the calls take it, without a copy.
    pub fn map(&self) -> Map<'_> {
        Map { cells: &self.cells, width: self.width, height: self.height }
    }
}

/// How many bytes the sheet of a map takes, into the caller's own number. The kind is a number as the format has it: one that the library
/// does not know is refused by the library.
pub fn sheet_length_in(map: Map, kind: u64, count: &mut u64) -> Result<(), Refusal> {
    let Map { cells, width, height } = map;
    // Safety: the pointer comes with the length of its slice, and the lent number is apart from it.
    answer(unsafe { raw::plombrisa_sheet_length(cells.as_ptr(), cells.len(), width, height, kind, count) })
}

/// [`write_sheet`] into the caller's own bytes, with how many were written; bytes beyond them are left as they were. The kind is a number
/// as the format has it.
pub fn write_sheet_in(map: Map, kind: u64, out: &mut [u8], count: &mut u64) -> Result<(), Refusal> {
    let Map { cells, width, height } = map;
    // Safety: each pointer comes with the length of its slice, and what is lent is apart.
    answer(unsafe {
        raw::plombrisa_write_sheet(cells.as_ptr(), cells.len(), width, height, kind, out.as_mut_ptr(), out.len(), count)
    })
}

/// The kind, the width and the height of a sheet into the caller's own numbers. All of the sheet is judged as if it were read.
pub fn sheet_size_in(sheet: &[u8], kind: &mut u64, width: &mut u64, height: &mut u64) -> Result<(), Refusal> {
    // Safety: the pointer comes with the length of its slice, and the lent numbers are apart from it and from each other.
    answer(unsafe { raw::plombrisa_sheet_size(sheet.as_ptr(), sheet.len(), kind, width, height) })
}

/// [`read_sheet`] into the caller's own cells, one for each pixel, with the sheet's kind, width and height.
pub fn read_sheet_in(
    sheet: &[u8], out: &mut [f32], kind: &mut u64, width: &mut u64, height: &mut u64,
) -> Result<(), Refusal> {
    // Safety: each pointer comes with the length of its slice, and what is lent is apart.
    answer(unsafe {
        raw::plombrisa_read_sheet(sheet.as_ptr(), sheet.len(), out.as_mut_ptr(), out.len(), kind, width, height)
    })
}

/// The sheet of a map: the bytes of version, kind, width, height and each cell by rows, as numbers in LEB128. A NaN is stored as the mark of
/// a blank cell; every other cell comes back with its bits.
///
/// ```
/// use plombrisa::{Kind, Map, read_sheet, write_sheet};
///
/// let map = Map { cells: &[f32::NAN, 4.0, -1.0, 0.0], width: 2, height: 2 };
/// let bytes = write_sheet(map, Kind::Whole).unwrap();
/// assert_eq!(bytes, [1, 0, 2, 2, 0, 9, 2, 1]);
///
/// let sheet = read_sheet(&bytes).unwrap();
/// assert_eq!((sheet.kind, sheet.width, sheet.height), (Kind::Whole, 2, 2));
/// assert!(sheet.cells[0].is_nan());
/// assert_eq!(sheet.cells[1..], [4.0, -1.0, 0.0]);
/// ```
pub fn write_sheet(map: Map, kind: Kind) -> Result<Vec<u8>, Error> {
    let mut count = 0;
    sheet_length_in(map, kind.number(), &mut count)?;
    let mut sheet = zeros(count as usize)?;
    write_sheet_in(map, kind.number(), &mut sheet, &mut count)?;
    Ok(sheet)
}

/// The map of a sheet, and of which kind the sheet is. A sheet that says it is larger than its bytes is refused before any memory is asked
/// for.
pub fn read_sheet(sheet: &[u8]) -> Result<Sheet, Error> {
    let (mut kind, mut width, mut height) = (0, 0, 0);
    sheet_size_in(sheet, &mut kind, &mut width, &mut height)?;
    let mut cells = zeros(width as usize * height as usize)?;
    read_sheet_in(sheet, &mut cells, &mut kind, &mut width, &mut height)?;
    let kind = Kind::of_number(kind).expect("the library reads sheets of the two kinds");
    Ok(Sheet { kind, width: width as usize, height: height as usize, cells })
}
