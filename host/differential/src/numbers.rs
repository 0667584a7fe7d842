//! Numbers of every kind, for the calls that take any.
use runs::limits::SIDE_MOST;
use runs::rng::Rng;

/// Any f64: any bits, one at a boundary, one of any magnitude, or a plain one.
pub fn wide(rng: &mut Rng) -> f64 {
    let sign = rng.pick(&[1.0, -1.0]);
    match rng.below(8) {
        0 => f64::from_bits(rng.next()),
        1 => {
            let all = [0.0, 5e-324, f64::MIN_POSITIVE, 1e-300, 1e-12, 1.0, 1e154, 1e300, f64::MAX, f64::INFINITY, f64::NAN];
            sign * rng.pick(&all)
        }
        2 => sign * 2f64.powi(rng.within(-1074, 1023) as i32) * (1.0 + rng.below(1 << 20) as f64 / (1 << 20) as f64),
        _ => rng.within(-32_000, 32_000) as f64 / 8.0,
    }
}

/// Any f32, likewise.
pub fn narrow(rng: &mut Rng) -> f32 {
    let sign = rng.pick(&[1.0, -1.0]);
    match rng.below(6) {
        0 => f32::from_bits(rng.next() as u32),
        1 => sign * rng.pick(&[0.0, 1e-45, f32::MIN_POSITIVE, 1.0, f32::MAX, f32::INFINITY, f32::NAN]),
        2 => sign * 2f32.powi(rng.within(-149, 127) as i32) * (1.0 + rng.below(1 << 10) as f32 / 1024.0),
        _ => rng.within(-200, 1000) as f32 / 8.0,
    }
}

/// The number beside x, above or below it.
pub fn beside(rng: &mut Rng, x: f64) -> f64 {
    if rng.one_in(2) { x.next_up() } else { x.next_down() }
}

/// A width and a height: mostly small, sometimes the largest.
pub fn size(rng: &mut Rng) -> (usize, usize) {
    let mut side = |most: usize| if rng.one_in(40) { SIDE_MOST } else { 1 + rng.below(most) };
    let width = side(14);
    (width, if width == SIDE_MOST { 2 } else { side(9) })
}

/// A side outside its range.
pub fn unfit_side(rng: &mut Rng) -> usize {
    rng.pick(&[0, SIDE_MOST + 1, 1 << 32, 1 << 63, usize::MAX])
}

/// The same number, any NaN being any other.
pub fn same(a: f64, b: f64) -> bool {
    a.to_bits() == b.to_bits() || (a.is_nan() && b.is_nan())
}
