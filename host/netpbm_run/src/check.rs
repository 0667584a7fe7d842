//! One input on both sides: the library's answer and every lent cell, held to `format`.
use crate::files::Reading;
use netpbm_run::format::{self, Size};
use plombrisa::{
    Error, Map, Refusal, pfm_length_in, pfm_size_in, pgm_size_in, read_pfm, read_pfm_in, read_pgm, read_pgm_in, write_pfm, write_pfm_in,
};
use runs::maps::MadeMap;
use runs::room::{Cell, Room};
use runs::same::{equal, same_bytes, same_cells};

/// What a lent number holds before a call: no count and no side.
const WAS: [u64; 2] = [0xA5A5_0000_1111_2222, 0xA5A5_0000_3333_4444];

/// What both sides need to answer, kept from input to input.
pub struct Both {
    levels: Vec<u8>,
    cells: Vec<f32>,
    file: Vec<u8>,
    cells_room: Room<f32>,
    bytes_room: Room<u8>,
}

/// The number of an answer, 0 where the call was accepted. A run's inputs are small, so memory is not what it may lack.
fn number_of<T>(answer: &Result<T, impl Copy + Into<Error>>) -> u32 {
    answer.as_ref().map_or_else(|&why| why.into().refusal().expect("memory").number(), |_| 0)
}

/// An answer and the numbers that were lent: the size's where it was accepted, else as they were.
fn answered(what: &str, answer: &Result<(), Refusal>, is: [u64; 2], should: Result<Size, u32>) -> Result<(), String> {
    equal(&format!("{what}'s answer"), number_of(answer), should.err().unwrap_or(0))?;
    equal(&format!("{what}'s numbers"), is, should.map_or(WAS, |size| [size.width as u64, size.height as u64]))
}

/// What reading should answer for an output of this length.
fn with_output(found: Result<Size, u32>, out_len: usize) -> Result<Size, u32> {
    match found {
        Ok(size) if size.area() != out_len => Err(45),
        other => other,
    }
}

/// The cell as PFM brings it back: a NaN for one that is not finite.
fn blanked(cell: f32) -> f32 {
    if cell.is_finite() { cell } else { f32::NAN }
}

/// The calls that read one of the formats, and how its cells are compared.
struct Calls<T> {
    size_in: fn(&[u8], &mut u64, &mut u64) -> Result<(), Refusal>,
    read_in: fn(&[u8], &mut [T], &mut u64, &mut u64) -> Result<(), Refusal>,
    same: fn(&str, &[T], &[T]) -> Result<(), String>,
}

const PGM: Calls<u8> = Calls { size_in: pgm_size_in, read_in: read_pgm_in, same: same_bytes };
const PFM: Calls<f32> = Calls { size_in: pfm_size_in, read_in: read_pfm_in, same: same_cells };

impl<T: Cell> Calls<T> {
    /// A file's size, and the file read into what is lent, beside what was found in it. What reading should answer.
    fn check(
        &self, input: &Reading, found: Result<Size, u32>, cells: &[T], room: &mut Room<T>,
    ) -> Result<Result<Size, u32>, String> {
        let file = input.bytes.lent();
        let [mut width, mut height] = WAS;
        let answer = (self.size_in)(file, &mut width, &mut height);
        answered("size", &answer, [width, height], found)?;

        let should = with_output(found, input.out_len);
        [width, height] = WAS;
        let answer = (self.read_in)(file, room.lend(input.out_len), &mut width, &mut height);
        answered("reading", &answer, [width, height], should)?;
        if should.is_ok() {
            (self.same)("what was read", room.lent(), cells)?;
        }
        room.unchanged_but(should.map_or(0, |size| size.area()))?;
        Ok(should)
    }
}

impl Both {
    pub fn new() -> Self {
        Self { levels: Vec::new(), cells: Vec::new(), file: Vec::new(), cells_room: Room::new(), bytes_room: Room::new() }
    }

    /// Bytes to be read as PGM. The answer's number.
    pub fn check_pgm(&mut self, input: &Reading) -> Result<u32, String> {
        let file = input.bytes.lent();
        let found = format::read_pgm(file, &mut self.levels);
        let should = PGM.check(input, found, &self.levels, &mut self.bytes_room)?;
        let owned = read_pgm(file);
        equal("answer of the reading that lends its own", number_of(&owned), found.err().unwrap_or(0))?;
        if let (Ok(picture), Ok(size)) = (owned, found) {
            let its = Size { width: picture.width, height: picture.height };
            equal("size of the reading that lends its own", its, size)?;
            same_bytes("levels of the reading that lends its own", &picture.bytes, &self.levels)?;
        }
        Ok(should.err().unwrap_or(0))
    }

    /// Bytes to be read as PFM; and what was read, written and read again, is the same map. The answer's number.
    pub fn check_pfm(&mut self, input: &Reading) -> Result<u32, String> {
        let file = input.bytes.lent();
        let found = format::read_pfm(file, &mut self.cells);
        let should = PFM.check(input, found, &self.cells, &mut self.cells_room)?;
        let owned = read_pfm(file);
        equal("answer of the reading that lends its own", number_of(&owned), found.err().unwrap_or(0))?;
        if let (Ok(map), Ok(size)) = (owned, found) {
            let its = Size { width: map.width, height: map.height };
            equal("size of the reading that lends its own", its, size)?;
            same_cells("cells of the reading that lends its own", &map.cells, &self.cells)?;
            let again = write_pfm(map.map()).and_then(|file| read_pfm(&file));
            equal("answer of what was read, out and in", number_of(&again), 0)?;
            if let Ok(again) = again {
                equal("size of what was read, out and in", Size { width: again.width, height: again.height }, size)?;
                same_cells("what was read, out and in", &again.cells, &self.cells)?;
            }
        }
        Ok(should.err().unwrap_or(0))
    }

    /// A map to be written; and what was written reads back. The answer's number.
    pub fn check_writing(&mut self, input: &MadeMap) -> Result<u32, String> {
        let map = Map { cells: input.lent(), width: input.width, height: input.height };
        let made = format::write_pfm(map.cells, map.width, map.height, &mut self.file);
        // a map that has no file is lent as much as any of its length could take
        let length = if made.is_ok() { self.file.len() } else { 20 + 4 * map.cells.len() };
        let mut count = WAS[0];
        let answer = pfm_length_in(map, &mut count);
        equal("length's answer", number_of(&answer), made.err().unwrap_or(0))?;
        equal("length", count, made.map_or(WAS[0], |()| length as u64))?;

        let out_len = input.output.length(length);
        let should = if made.is_ok() && out_len < length { Err(45) } else { made };
        count = WAS[0];
        let answer = write_pfm_in(map, self.bytes_room.lend(out_len), &mut count);
        equal("writing's answer", number_of(&answer), should.err().unwrap_or(0))?;
        equal("writing's count", count, should.map_or(WAS[0], |()| length as u64))?;
        self.bytes_room.unchanged_but(should.map_or(0, |()| length))?;
        if should.is_ok() {
            let written = &self.bytes_room.lent()[..length];
            same_bytes("bytes written", written, &self.file)?;
            let [mut width, mut height] = WAS;
            let answer = read_pfm_in(written, self.cells_room.lend(map.cells.len()), &mut width, &mut height);
            let size = Size { width: map.width, height: map.height };
            answered("reading what was written", &answer, [width, height], Ok(size))?;
            self.cells.clear();
            self.cells.extend(map.cells.iter().copied().map(blanked));
            same_cells("what was written, read", self.cells_room.lent(), &self.cells)?;
            self.cells_room.unchanged_but(map.cells.len())?;
        }

        let owned = write_pfm(map);
        equal("answer of the writing that lends its own", number_of(&owned), made.err().unwrap_or(0))?;
        if let Ok(file) = owned {
            same_bytes("bytes of the writing that lends its own", &file, &self.file)?;
        }
        Ok(should.err().unwrap_or(0))
    }
}
