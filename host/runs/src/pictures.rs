//! Pairs of pictures: by several recipes, and as a site would send them.
use crate::rng::Rng;

/// A picture by one of several recipes.
pub fn picture(rng: &mut Rng, w: usize, h: usize) -> Vec<u8> {
    let levels = rng.pick(&[1, 2, 3, 16, 256]);
    let base = rng.below(257 - levels);
    let mut bytes: Vec<u8> = (0..w * h).map(|_| (base + rng.below(levels)) as u8).collect();
    if rng.one_in(3) {
        // a band of one level
        let (top, level) = (rng.below(h), rng.below(256) as u8);
        let rows = rng.below(h - top) + 1;
        bytes[top * w..(top + rows) * w].fill(level);
    }
    bytes
}

/// The right picture: the left one moved by a few columns, with some pixels changed, or one of its own.
pub fn other_picture(rng: &mut Rng, left: &[u8], w: usize, h: usize) -> Vec<u8> {
    if rng.one_in(3) {
        return picture(rng, w, h);
    }
    let shift = rng.within(-4, 6);
    let noise = rng.pick(&[0, 0, 8, 3]);
    (0..w * h)
        .map(|i| {
            let x = ((i % w) as i64 + shift).rem_euclid(w as i64) as usize;
            if noise != 0 && rng.one_in(noise) { rng.below(256) as u8 } else { left[i / w * w + x] }
        })
        .collect()
}

/// A textured pair, mostly like what a site would send: moved by 3 to 12 columns, more towards the bottom, with a little noise.
pub fn textured_pair(rng: &mut Rng, w: usize, h: usize) -> [Vec<u8>; 2] {
    let coarse: Vec<u8> = (0..(w / 3 + 2) * (h / 3 + 2)).map(|_| rng.below(256) as u8).collect();
    let at = |x: usize, y: usize, fine: u8| (coarse[y / 3 * (w / 3 + 2) + x / 3] / 2).saturating_add(fine % 64);
    let left: Vec<u8> = (0..w * h).map(|i| at(i % w, i / w, rng.next() as u8)).collect();
    let right: Vec<u8> = (0..w * h)
        .map(|i| {
            let (x, y) = (i % w, i / w);
            left[y * w + (x + 3 + y * 9 / h).min(w - 1)].saturating_add((rng.below(4)) as u8)
        })
        .collect();
    [left, right]
}
