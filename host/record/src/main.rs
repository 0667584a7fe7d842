//! Writes a sample of the Rust's answers as a file that crates/replay replays without any Rust at hand.
//!
//! `record FILE`; the cases come from a fixed seed, so the same command writes the same file. Its form, little-endian, case
//! after case with nothing between and nothing after: width, height, count and block (one byte each), the first disparity
//! (i16), a byte of flags (1 semi-global, 2 left-right, 4 sub-pixel), a zero byte, the patterns of min_correlation,
//! uniqueness_ratio, lr_max_diff, sgm_p1 and sgm_p2 (f32), the left and the right picture row by row, and the patterns of the
//! map's cells row by row, 7FC00000 for the mark.
use oracle::dense::{BlockMatchOptions, GrayImage, match_block};
use runs::limits::{FIRST_MOST, PENALTY_MOST};

const MOST_BYTES: usize = 60_000;

struct Rng(u64);

impl Rng {
    fn next(&mut self) -> u64 {
        self.0 ^= self.0 << 13;
        self.0 ^= self.0 >> 7;
        self.0 ^= self.0 << 17;
        self.0
    }

    fn below(&mut self, n: usize) -> usize {
        ((self.next() >> 16) % n as u64) as usize
    }

    fn pick<T: Copy>(&mut self, from: &[T]) -> T {
        from[self.below(from.len())]
    }
}

/// Two penalties, the second not below the first: otherwise the library refuses what the Rust answers.
fn penalties(rng: &mut Rng) -> (f32, f32) {
    let most = PENALTY_MOST;
    rng.pick(&[(0.1, 1.5), (0.1, 1.5), (0.1, most), (0.0, 0.05), (-0.0, 0.0), (0.0, -0.0), (2.5, 2.5), (most, most)])
}

fn options(rng: &mut Rng, block: usize) -> BlockMatchOptions {
    let (sgm_p1, sgm_p2) = penalties(rng);
    BlockMatchOptions {
        min_disparity: rng.pick(&[0, 0, 0, -2, 1, -FIRST_MOST, FIRST_MOST]),
        num_disparities: 1 + rng.below(8) as i32,
        block_size: block,
        min_correlation: rng.pick(&[0.5, 0.5, 0.0, -1.0, 0.9, f32::NEG_INFINITY, f32::INFINITY]),
        uniqueness_ratio: rng.pick(&[0.03, 0.03, 0.0, 0.3, -1.0]),
        lr_consistency: rng.below(2) == 0,
        lr_max_diff: rng.pick(&[1.0, 1.0, 0.0, 0.5, f32::INFINITY]),
        subpixel: rng.below(2) == 0,
        semi_global: rng.below(2) == 0,
        sgm_p1,
        sgm_p2,
    }
}

fn pictures(rng: &mut Rng, w: usize, h: usize) -> (Vec<u8>, Vec<u8>) {
    let levels = rng.pick(&[2, 4, 256, 256]);
    let mut left: Vec<u8> = (0..w * h).map(|_| rng.below(levels) as u8).collect();
    if rng.below(4) == 0 {
        let row = rng.below(h);
        left[row * w..].fill(9);
    }
    let shift = rng.below(4);
    let right = (0..w * h)
        .map(|i| if rng.below(12) == 0 { rng.below(256) as u8 } else { left[i / w * w + (i % w + shift).min(w - 1)] })
        .collect();
    (left, right)
}

fn case(rng: &mut Rng) -> Vec<u8> {
    let block = rng.pick(&[1, 3, 3, 3, 5]);
    let (w, h) = (block + rng.below(24 - block), block + rng.below(10 - block));
    let (left, right) = pictures(rng, w, h);
    let o = options(rng, block);
    let image = |bytes: &[u8]| GrayImage::new(w, h, bytes.to_vec());
    let map = match_block(&image(&left), &image(&right), &o).expect("the case is accepted");
    let flags = o.semi_global as u8 | (o.lr_consistency as u8) << 1 | (o.subpixel as u8) << 2;
    let mut out = vec![w as u8, h as u8, o.num_disparities as u8, block as u8];
    out.extend((o.min_disparity as i16).to_le_bytes());
    out.extend([flags, 0]);
    for number in [o.min_correlation, o.uniqueness_ratio, o.lr_max_diff, o.sgm_p1, o.sgm_p2] {
        out.extend(number.to_bits().to_le_bytes());
    }
    out.extend(&left);
    out.extend(&right);
    for cell in &map.data {
        let bits = if cell.is_nan() { 0x7FC0_0000 } else { cell.to_bits() };
        out.extend(bits.to_le_bytes());
    }
    out
}

fn main() {
    let file = std::env::args().nth(1).expect("record FILE");
    let mut rng = Rng(0x9E37_79B9_7F4A_7C15);
    let (mut bytes, mut cases) = (Vec::new(), 0);
    loop {
        let next = case(&mut rng);
        if bytes.len() + next.len() > MOST_BYTES {
            break;
        }
        bytes.extend(next);
        cases += 1;
    }
    std::fs::write(&file, &bytes).expect("the file can be written");
    println!("{file}: {cases} cases, {} bytes", bytes.len());
}
