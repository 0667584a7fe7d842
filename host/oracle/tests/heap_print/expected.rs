//! What document 01's text has the print program answer.
use oracle::dense::{BlockMatchOptions, DisparityMap, GrayImage, match_block};
use runs::refusals::{LentPicture, Pair};

/// The line's eight fields.
struct Line {
    width: usize,
    height: usize,
    first: i32,
    count: i32,
    block: usize,
    semi_global: bool,
    left_right: bool,
    subpixel: bool,
}

/// A field of one to four digits.
fn number(field: &[u8]) -> Option<usize> {
    let digits = (1..=4).contains(&field.len()) && field.iter().all(u8::is_ascii_digit);
    digits.then(|| field.iter().fold(0, |n, digit| n * 10 + usize::from(digit - b'0')))
}

/// The one field that may have a minus before its digits.
fn signed(field: &[u8]) -> Option<i32> {
    match field {
        [b'-', digits @ ..] => number(digits).map(|n| -(n as i32)),
        digits => number(digits).map(|n| n as i32),
    }
}

fn flag(field: &[u8]) -> Option<bool> {
    match field {
        b"0" => Some(false),
        b"1" => Some(true),
        _ => None,
    }
}

/// The fields of a line, which stands without the byte that ended it.
fn line(bytes: &[u8]) -> Option<Line> {
    let fields: Vec<&[u8]> = bytes.split(|&byte| byte == b' ').collect();
    let [width, height, first, count, block, semi_global, left_right, subpixel] = fields[..] else { return None };
    Some(Line {
        width: number(width)?,
        height: number(height)?,
        first: signed(first)?,
        count: number(count)? as i32,
        block: number(block)?,
        semi_global: flag(semi_global)?,
        left_right: flag(left_right)?,
        subpixel: flag(subpixel)?,
    })
}

impl Line {
    fn too_big(&self) -> bool {
        self.width > 24 || self.height > 16 || self.count > 8
    }

    /// The number of document 01's table, 0 for none: each picture has its bytes, and what the program lends fits.
    fn refusal(&self) -> u32 {
        let Self { width, height, block, count, first, .. } = *self;
        let picture = LentPicture { width, height, bytes: width * height };
        Pair { left: picture, right: picture, block, count, first }.refusal()
    }

    fn map(&self, left: &[u8], right: &[u8]) -> DisparityMap {
        let picture = |bytes: &[u8]| GrayImage::new(self.width, self.height, bytes.to_vec());
        let options = BlockMatchOptions {
            min_disparity: self.first,
            num_disparities: self.count,
            block_size: self.block,
            semi_global: self.semi_global,
            lr_consistency: self.left_right,
            subpixel: self.subpixel,
            ..Default::default()
        };
        match_block(&picture(left), &picture(right), &options).expect("no number of the table applies")
    }
}

/// A blank cell is printed with one pattern, whatever NaN the Rust has there.
fn cell(value: f32) -> String {
    let bits = if value.is_nan() { 0x7FC0_0000 } else { value.to_bits() };
    format!("{bits:08X}")
}

fn map_text(map: &DisparityMap) -> String {
    let row = |cells: &[f32]| cells.iter().map(|&value| cell(value)).collect::<Vec<_>>().join(" ") + "\n";
    let rows: String = map.data.chunks(map.width).map(row).collect();
    format!("MAP {} {} {}\n{rows}", map.width, map.height, map.valid_count())
}

/// What is printed for an input.
pub fn answer(input: &[u8]) -> String {
    let bad_input = String::from("BAD INPUT\n");
    let Some(end) = input.iter().position(|&byte| byte == b'\n') else { return bad_input };
    let Some(line) = line(&input[..end]) else { return bad_input };
    if line.too_big() {
        return String::from("TOO BIG\n");
    }
    let (pictures, pixels) = (&input[end + 1..], line.width * line.height);
    if pictures.len() != 2 * pixels {
        return bad_input;
    }
    match line.refusal() {
        0 => map_text(&line.map(&pictures[..pixels], &pictures[pixels..])),
        number => format!("REFUSED {number}\n"),
    }
}
