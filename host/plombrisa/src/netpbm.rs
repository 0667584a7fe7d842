//! Pictures and maps as files of other programs. What a refused call was lent is left as it was.
use crate::memory::zeros;
use crate::refusal::answer;
use crate::{Error, Map, OwnedMap, OwnedPicture, Refusal, raw};

/// The width and the height of a PGM file into the caller's own numbers. All of the file is judged as if it were read.
pub fn pgm_size_in(file: &[u8], width: &mut u64, height: &mut u64) -> Result<(), Refusal> {
    // Safety: the pointer comes with the length of its slice, and the lent numbers are apart from it and from each other.
    answer(unsafe { raw::plombrisa_pgm_size(file.as_ptr(), file.len(), width, height) })
}

/// [`read_pgm`] into the caller's own bytes, one for each pixel, with the picture's width and height.
pub fn read_pgm_in(file: &[u8], out: &mut [u8], width: &mut u64, height: &mut u64) -> Result<(), Refusal> {
    // Safety: each pointer comes with the length of its slice, and what is lent is apart.
    answer(unsafe { raw::plombrisa_read_pgm(file.as_ptr(), file.len(), out.as_mut_ptr(), out.len(), width, height) })
}

/// How many bytes the PFM file of a map takes, into the caller's own number.
pub fn pfm_length_in(map: Map, count: &mut u64) -> Result<(), Refusal> {
    let Map { cells, width, height } = map;
    // Safety: the pointer comes with the length of its slice, and the lent number is apart from it.
    answer(unsafe { raw::plombrisa_pfm_length(cells.as_ptr(), cells.len(), width, height, count) })
}

/// [`write_pfm`] into the caller's own bytes, with how many were written; bytes beyond them are left as they were.
pub fn write_pfm_in(map: Map, out: &mut [u8], count: &mut u64) -> Result<(), Refusal> {
    let Map { cells, width, height } = map;
    // Safety: each pointer comes with the length of its slice, and what is lent is apart.
    answer(unsafe {
        raw::plombrisa_write_pfm(cells.as_ptr(), cells.len(), width, height, out.as_mut_ptr(), out.len(), count)
    })
}

/// The width and the height of a PFM file into the caller's own numbers. All of the file is judged as if it were read.
pub fn pfm_size_in(file: &[u8], width: &mut u64, height: &mut u64) -> Result<(), Refusal> {
    // Safety: the pointer comes with the length of its slice, and the lent numbers are apart from it and from each other.
    answer(unsafe { raw::plombrisa_pfm_size(file.as_ptr(), file.len(), width, height) })
}

/// [`read_pfm`] into the caller's own cells, one for each pixel, with the map's width and height.
pub fn read_pfm_in(file: &[u8], out: &mut [f32], width: &mut u64, height: &mut u64) -> Result<(), Refusal> {
    // Safety: each pointer comes with the length of its slice, and what is lent is apart.
    answer(unsafe { raw::plombrisa_read_pfm(file.as_ptr(), file.len(), out.as_mut_ptr(), out.len(), width, height) })
}

/// The picture of a PGM file: Netpbm's P5, the binary form, with a maximum of 255. A file that says it is larger than its bytes is refused
/// before any memory is asked for.
///
/// ```
/// use plombrisa::read_pgm;
///
/// let picture = read_pgm(b"P5 # from the left camera\n2 1 255\n\x07\xFF").unwrap();
/// assert_eq!((picture.width, picture.height), (2, 1));
/// assert_eq!(picture.bytes, [7, 255]);
/// ```
pub fn read_pgm(file: &[u8]) -> Result<OwnedPicture, Error> {
    let (mut width, mut height) = (0, 0);
    pgm_size_in(file, &mut width, &mut height)?;
    let mut bytes = zeros(width as usize * height as usize)?;
    read_pgm_in(file, &mut bytes, &mut width, &mut height)?;
    Ok(OwnedPicture { bytes, width: width as usize, height: height as usize })
}

/// The PFM file of a map, little-endian, with the bottom row first as PFM has it. A NaN is written as plus infinity, as other programs mark
/// a blank cell; every other cell is written with its bits.
///
/// ```
/// use plombrisa::{Map, read_pfm, write_pfm};
///
/// let file = write_pfm(Map { cells: &[f32::NAN, 4.0], width: 2, height: 1 }).unwrap();
/// assert_eq!(file, b"Pf\n2 1\n-1.0\n\x00\x00\x80\x7F\x00\x00\x80\x40");
/// let map = read_pfm(&file).unwrap();
/// assert_eq!((map.width, map.height), (2, 1));
/// assert!(map.cells[0].is_nan());
/// assert_eq!(map.cells[1], 4.0);
/// ```
pub fn write_pfm(map: Map) -> Result<Vec<u8>, Error> {
    let mut count = 0;
    pfm_length_in(map, &mut count)?;
    let mut file = zeros(count as usize)?;
    write_pfm_in(map, &mut file, &mut count)?;
    Ok(file)
}

/// The map of a PFM file of either byte order. A cell that is not finite is read as a NaN; every other comes with its bits, whatever the
/// file's scale. A file that says it is larger than its bytes is refused before any memory is asked for.
pub fn read_pfm(file: &[u8]) -> Result<OwnedMap, Error> {
    let (mut width, mut height) = (0, 0);
    pfm_size_in(file, &mut width, &mut height)?;
    let mut cells = zeros(width as usize * height as usize)?;
    read_pfm_in(file, &mut cells, &mut width, &mut height)?;
    Ok(OwnedMap { cells, width: width as usize, height: height as usize })
}
