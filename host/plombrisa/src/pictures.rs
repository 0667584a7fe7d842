//! Grey pictures, and what is read of them. What a refused call was lent is left as it was.
use crate::refusal::answer;
use crate::{Refusal, raw};

/// A grey picture that stands elsewhere: one byte for each pixel, 0 black and 255 white, and the size that the caller says it has.
#[derive(Debug, Clone, Copy)]
pub struct Picture<'a> {
    /// The levels by rows, the top row first: pixel (x, y) in byte y·width + x.
    pub bytes: &'a [u8],
    /// How many pixels a row has, from 1 to [`SIDE_MOST`](crate::limits::SIDE_MOST).
    pub width: usize,
    /// How many rows there are, from 1 to [`SIDE_MOST`](crate::limits::SIDE_MOST).
    pub height: usize,
}

/// A grey picture that holds its own bytes, as [`read_pgm`](crate::read_pgm) gives it.
#[derive(Debug, Clone, PartialEq, Eq)]
pub struct OwnedPicture {
    /// The levels by rows, the top row first: pixel (x, y) in byte y·width + x.
    pub bytes: Vec<u8>,
    /// How many pixels a row has.
    pub width: usize,
    /// How many rows there are.
    pub height: usize,
}

impl OwnedPicture {
    /// The same picture as the calls take it, without a copy.
    pub fn picture(&self) -> Picture<'_> {
        Picture { bytes: &self.bytes, width: self.width, height: self.height }
    }
}

/// [`pixel`] into the caller's own number.
pub fn pixel_in(picture: Picture, x: usize, y: usize, level: &mut u8) -> Result<(), Refusal> {
    let Picture { bytes, width, height } = picture;
    // Safety: the pointer comes with the length of its slice, and the lent number is apart from it.
    answer(unsafe { raw::plombrisa_pixel(bytes.as_ptr(), bytes.len(), width, height, x, y, level) })
}

/// The level of one pixel, x columns from the left edge and y rows from the top, both counted from 0.
///
/// ```
/// use plombrisa::{Picture, Refusal, pixel};
///
/// let picture = Picture { bytes: &[10, 20, 30, 40, 50, 60], width: 3, height: 2 };
/// assert_eq!(pixel(picture, 2, 0), Ok(30));
/// assert_eq!(pixel(picture, 3, 0), Err(Refusal::PixelOutside));
/// ```
pub fn pixel(picture: Picture, x: usize, y: usize) -> Result<u8, Refusal> {
    let mut level = 0;
    pixel_in(picture, x, y, &mut level)?;
    Ok(level)
}

/// [`bilinear`] into the caller's own number.
pub fn bilinear_in(picture: Picture, x: f64, y: f64, value: &mut f64) -> Result<(), Refusal> {
    let Picture { bytes, width, height } = picture;
    // Safety: the pointer comes with the length of its slice, and the lent number is apart from it.
    answer(unsafe { raw::plombrisa_bilinear(bytes.as_ptr(), bytes.len(), width, height, x, y, value) })
}

/// The level of a place between pixels, mixed from the four around it; a place outside the picture has the level of the nearest place on
/// its border. Coordinates are in pixels, and a pixel's own place is its centre.
///
/// ```
/// use plombrisa::{Picture, bilinear};
///
/// let picture = Picture { bytes: &[10, 20, 30, 40], width: 2, height: 2 };
/// assert_eq!(bilinear(picture, 0.5, 0.5), Ok(25.0));
/// assert_eq!(bilinear(picture, 7.0, f64::NEG_INFINITY), Ok(20.0));
/// ```
pub fn bilinear(picture: Picture, x: f64, y: f64) -> Result<f64, Refusal> {
    let mut value = 0.0;
    bilinear_in(picture, x, y, &mut value)?;
    Ok(value)
}
