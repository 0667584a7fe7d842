//! One input on both sides: the library's answer and every lent cell, held to `format`.
use crate::maps::Writing;
use crate::sheets::Reading;
use plombrisa::{
    Error, Kind, Map, read_sheet, read_sheet_in, sheet_length_in, sheet_size_in, write_sheet, write_sheet_in,
};
use runs::room::Room;
use runs::same::{equal, same_bytes, same_cells};
use sheets_run::format::{self, Head};

/// What a lent number holds before a call: no count, no kind and no side.
const WAS: [u64; 3] = [0xA5A5_0000_1111_2222, 0xA5A5_0000_3333_4444, 0xA5A5_0000_5555_6666];

/// What both sides need to answer, kept from input to input.
pub struct Both {
    cells: Vec<f32>,
    sheet: Vec<u8>,
    cells_room: Room<f32>,
    bytes_room: Room<u8>,
}

/// The number of an answer, 0 where the call was accepted. A run's inputs are small, so memory is not what it may lack.
fn number_of<T>(answer: &Result<T, impl Copy + Into<Error>>) -> u32 {
    answer.as_ref().map_or_else(|&why| why.into().refusal().expect("memory").number(), |_| 0)
}

/// The numbers that a reading lends: the head's where it was accepted, else as they were.
fn head_after(what: &str, is: [u64; 3], should: Result<Head, u32>) -> Result<(), String> {
    equal(what, is, should.map_or(WAS, |head| [head.kind, head.width as u64, head.height as u64]))
}

impl Both {
    pub fn new() -> Self {
        Self { cells: Vec::new(), sheet: Vec::new(), cells_room: Room::new(), bytes_room: Room::new() }
    }

    /// Bytes to be read; and what was read is written as the same bytes. The answer's number.
    pub fn check_reading(&mut self, input: &Reading) -> Result<u32, String> {
        let bytes = input.bytes.lent();
        let found = format::read(bytes, &mut self.cells);
        let [mut kind, mut width, mut height] = WAS;
        let answer = sheet_size_in(bytes, &mut kind, &mut width, &mut height);
        equal("size's answer", number_of(&answer), found.err().unwrap_or(0))?;
        head_after("size's numbers", [kind, width, height], found)?;

        let should = match found {
            Ok(head) if head.area() != input.out_len => Err(11),
            other => other,
        };
        [kind, width, height] = WAS;
        let out = self.cells_room.lend(input.out_len);
        let answer = read_sheet_in(bytes, out, &mut kind, &mut width, &mut height);
        equal("reading's answer", number_of(&answer), should.err().unwrap_or(0))?;
        head_after("reading's numbers", [kind, width, height], should)?;
        match should {
            Err(_) => self.cells_room.unchanged_but(0)?,
            Ok(head) => {
                same_cells("cells read", self.cells_room.lent(), &self.cells)?;
                self.cells_room.unchanged_but(head.area())?;
                let map = Map { cells: self.cells_room.lent(), width: head.width, height: head.height };
                let mut count = WAS[0];
                let answer = write_sheet_in(map, head.kind, self.bytes_room.lend(bytes.len()), &mut count);
                equal("answer of writing what was read", number_of(&answer), 0)?;
                equal("bytes of what was read", count, bytes.len() as u64)?;
                same_bytes("what was read, written", self.bytes_room.lent(), bytes)?;
                self.bytes_room.unchanged_but(bytes.len())?;
            }
        }

        let sheet = read_sheet(bytes);
        equal("answer of the reading that lends its own", number_of(&sheet), found.err().unwrap_or(0))?;
        if let (Ok(sheet), Ok(head)) = (sheet, found) {
            let its = Head { kind: sheet.kind.number(), width: sheet.width, height: sheet.height };
            equal("head of the reading that lends its own", its, head)?;
            same_cells("cells of the reading that lends its own", &sheet.cells, &self.cells)?;
        }
        Ok(should.err().unwrap_or(0))
    }

    /// A map to be written; and what was written reads back. The answer's number.
    pub fn check_writing(&mut self, input: &Writing) -> Result<u32, String> {
        let map = Map { cells: input.map.lent(), width: input.map.width, height: input.map.height };
        let made = format::write(map.cells, map.width, map.height, input.kind, &mut self.sheet);
        // a map that has no sheet is lent as much as any of its length could take
        let length = if made.is_ok() { self.sheet.len() } else { 20 + 5 * map.cells.len() };
        let counted = made.map_or(WAS[0], |()| length as u64);
        let mut count = WAS[0];
        let answer = sheet_length_in(map, input.kind, &mut count);
        equal("length's answer", number_of(&answer), made.err().unwrap_or(0))?;
        equal("length", count, counted)?;

        let out_len = input.map.output.length(length);
        let should = if made.is_ok() && out_len < length { Err(33) } else { made };
        count = WAS[0];
        let answer = write_sheet_in(map, input.kind, self.bytes_room.lend(out_len), &mut count);
        equal("writing's answer", number_of(&answer), should.err().unwrap_or(0))?;
        if should.is_err() {
            equal("count of a refused writing", count, WAS[0])?;
            self.bytes_room.unchanged_but(0)?;
        } else {
            equal("count", count, counted)?;
            let written = &self.bytes_room.lent()[..length];
            same_bytes("bytes written", written, &self.sheet)?;
            self.bytes_room.unchanged_but(length)?;
            let [mut kind, mut width, mut height] = WAS;
            let out = self.cells_room.lend(map.cells.len());
            let answer = read_sheet_in(written, out, &mut kind, &mut width, &mut height);
            equal("answer of reading what was written", number_of(&answer), 0)?;
            let head = Head { kind: input.kind, width: map.width, height: map.height };
            head_after("numbers of what was written", [kind, width, height], Ok(head))?;
            same_cells("what was written, read", self.cells_room.lent(), map.cells)?;
            self.cells_room.unchanged_but(map.cells.len())?;
        }

        if let Some(kind) = Kind::of_number(input.kind) {
            let sheet = write_sheet(map, kind);
            equal("answer of the writing that lends its own", number_of(&sheet), made.err().unwrap_or(0))?;
            if let Ok(sheet) = sheet {
                same_bytes("bytes of the writing that lends its own", &sheet, &self.sheet)?;
            }
        }
        Ok(should.err().unwrap_or(0))
    }
}
