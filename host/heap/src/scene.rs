//! A heap of sand seen from above by two cameras: a cone on level ground, with a wet patch that shows one level.

pub struct Scene {
    pub width: usize,
    pub height: usize,
    pub left: Vec<u8>,
    pub right: Vec<u8>,
}

/// A grain of sand's brightness at a place of the surface.
fn texture(x: i64, y: i64) -> u8 {
    let mut z = (x.wrapping_mul(0x1F1F_1F1F) ^ y.wrapping_mul(0x5851_F42D)) as u64;
    z = (z ^ (z >> 15)).wrapping_mul(0xD6E8_FEB8_6659_FD93);
    z ^= z >> 32;
    (70 + (z % 120)) as u8
}

impl Scene {
    pub fn new(width: usize, height: usize) -> Self {
        let (cx, cy, radius) = (width as f64 * 0.5, height as f64 * 0.52, height as f64 * 0.42);
        // disparity in columns: the ground at 5, the top of the heap at 18
        let disparity = |x: usize, y: usize| {
            let far = ((x as f64 - cx).powi(2) + (y as f64 - cy).powi(2)).sqrt() / radius;
            5 + (13.0 * (1.0 - far).max(0.0)).round() as usize
        };
        let wet = |x: usize, y: usize| (x as f64 - cx * 1.25).powi(2) + (y as f64 - cy * 0.8).powi(2) < (radius * 0.28).powi(2);
        let mut left = vec![0; width * height];
        let mut right = vec![0; width * height];
        let mut nearest = vec![0; width * height];
        for y in 0..height {
            for x in 0..width {
                let d = disparity(x, y);
                let level = if wet(x, y) { 60 } else { texture(x as i64, y as i64) };
                left[y * width + x] = level;
                if x >= d && nearest[y * width + x - d] < d {
                    nearest[y * width + x - d] = d;
                    right[y * width + x - d] = level;
                }
            }
            for x in 0..width {
                if nearest[y * width + x] == 0 {
                    // hidden from the left camera: sand of its own
                    right[y * width + x] = texture(x as i64 + 1000, y as i64 - 1000);
                }
            }
        }
        Self { width, height, left, right }
    }

    /// The scene that the README shows and that the example of the repository's root is of.
    pub fn example() -> Self {
        Self::new(200, 150)
    }

    /// The left and the right picture as PGM files.
    pub fn pgm_files(&self) -> [Vec<u8>; 2] {
        let header = format!("P5\n{} {}\n255\n", self.width, self.height);
        [&self.left, &self.right].map(|levels| [header.as_bytes(), levels].concat())
    }
}
