//! One picture read at a pixel and between pixels, on both sides.
use crate::numbers::{beside, size, unfit_side, wide};
use oracle::dense::GrayImage;
use plombrisa::{Picture, bilinear, bilinear_in, pixel, pixel_in};
use runs::refusals::LentPicture;
use runs::rng::Rng;

#[derive(Debug)]
pub struct Reading {
    pub bytes: Vec<u8>,
    pub width: usize,
    pub height: usize,
    /// The pixel to read.
    pub pixel: (usize, usize),
    /// The place to read between pixels.
    pub place: (f64, f64),
}

/// A coordinate along a side of n pixels: inside, at a border, far outside, or none.
fn coordinate(rng: &mut Rng, n: usize) -> f64 {
    let last = (n - 1) as f64;
    let whole = rng.within(-1, n as i64) as f64;
    match rng.below(10) {
        0..4 => rng.next() as f64 / 2f64.powi(64) * last,
        4 => whole,
        5 => beside(rng, whole),
        6 => rng.within(-4, 4 * n as i64 + 4) as f64 / 4.0,
        7 => rng.pick(&[-0.0, 0.0, 5e-324, -5e-324, last, last + 0.5, f64::INFINITY, f64::NEG_INFINITY]),
        8 => wide(rng),
        _ => rng.pick(&[whole, f64::NAN, -f64::NAN, f64::from_bits(0x7FF0_0000_0000_0001), 1e300, -1e300]),
    }
}

/// A picture, a pixel and a place; one in five with something wrong with the picture.
pub fn reading(rng: &mut Rng) -> Reading {
    let (width, height) = size(rng);
    let levels = rng.pick(&[2, 256]);
    let bytes = (0..width * height).map(|_| (rng.below(levels) * (255 / (levels - 1))) as u8).collect();
    let pixel = (rng.below(width + 2), rng.below(height + 2));
    let place = (coordinate(rng, width), coordinate(rng, height));
    let mut case = Reading { bytes, width, height, pixel, place };
    match rng.below(25) {
        0 => case.width = unfit_side(rng),
        1 => case.height = unfit_side(rng),
        2 => case.bytes.push(7),
        3 => drop(case.bytes.pop()),
        4 => case.pixel = rng.pick(&[(usize::MAX, 0), (0, usize::MAX), (1 << 63, 2), (width, 0), (0, height)]),
        _ => {}
    }
    case
}

impl Reading {
    fn picture(&self) -> Picture<'_> {
        Picture { bytes: &self.bytes, width: self.width, height: self.height }
    }

    fn image(&self) -> GrayImage {
        GrayImage::new(self.width, self.height, self.bytes.clone())
    }

    /// Document 01's number for the picture's shape, 0 for none.
    fn shape(&self) -> u32 {
        LentPicture { width: self.width, height: self.height, bytes: self.bytes.len() }.refusal()
    }
}

/// The level of a pixel: the answer and the lent number.
pub fn check_pixel(case: &Reading) -> Result<u32, String> {
    let (x, y) = case.pixel;
    let outside = if x >= case.width || y >= case.height { 26 } else { 0 };
    let should = if case.shape() != 0 { case.shape() } else { outside };
    let mut level = 0xA5;
    let number = pixel_in(case.picture(), x, y, &mut level).map_or_else(|r| r.number(), |()| 0);
    if number != should {
        return Err(format!("pixel: answered {number}, document 01 has {should}"));
    }
    let rust = if number == 0 { case.image().get(x, y) } else { 0xA5 };
    if level != rust || pixel(case.picture(), x, y).is_ok_and(|v| v != rust) {
        return Err(format!("pixel: {level}, not {rust}"));
    }
    Ok(number)
}

/// A reading between pixels: the answer and every bit of the lent number.
pub fn check_bilinear(case: &Reading) -> Result<u32, String> {
    let (x, y) = case.place;
    let nan = if x.is_nan() || y.is_nan() { 25 } else { 0 };
    let should = if case.shape() != 0 { case.shape() } else { nan };
    let was = -123.456;
    let mut value = was;
    let number = bilinear_in(case.picture(), x, y, &mut value).map_or_else(|r| r.number(), |()| 0);
    if number != should {
        return Err(format!("bilinear: answered {number}, document 01 has {should}"));
    }
    let rust = if number == 0 { case.image().bilinear(x, y) } else { was };
    if value.to_bits() != rust.to_bits() || bilinear(case.picture(), x, y).is_ok_and(|v| v.to_bits() != rust.to_bits()) {
        return Err(format!("bilinear: {:016X} ({value}), not {:016X} ({rust})", value.to_bits(), rust.to_bits()));
    }
    Ok(number)
}
