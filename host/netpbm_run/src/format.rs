//! PGM and PFM in plain Rust, written from the request's text and Netpbm's pages alone, so that the library is held to another
//! reading of them. Nothing here calls the library. A refusal is its number; the lengths of outputs (45) are left to the caller,
//! who lends them.
use runs::limits::is_side;

/// The only maximum that a PGM file may have.
const MAXIMUM: u64 = 255;

/// The width and the height that a file says it has.
#[derive(Debug, Clone, Copy, PartialEq, Eq)]
pub struct Size {
    pub width: usize,
    pub height: usize,
}

impl Size {
    /// The size with these sides, where both are in their range.
    fn of(width: u64, height: u64) -> Option<Self> {
        let side = |n: u64| usize::try_from(n).ok().filter(|&n| is_side(n));
        Some(Self { width: side(width)?, height: side(height)? })
    }

    pub fn area(&self) -> usize {
        self.width * self.height
    }
}

/// What Netpbm's page calls white space: blank, TAB, LF, VT, FF, CR.
fn is_white(byte: u8) -> bool {
    matches!(byte, b' ' | 0x09..=0x0D)
}

/// The bytes of a file that are not read yet.
struct Rest<'a>(&'a [u8]);

impl<'a> Rest<'a> {
    /// Takes these bytes, where they are next.
    fn take(&mut self, bytes: &[u8]) -> Option<()> {
        self.0 = self.0.strip_prefix(bytes)?;
        Some(())
    }

    /// Takes the bytes up to the first that is not of a kind; there may be none.
    fn take_while(&mut self, of_the_kind: impl Fn(u8) -> bool) -> &'a [u8] {
        let n = self.0.iter().position(|&byte| !of_the_kind(byte)).unwrap_or(self.0.len());
        let (taken, rest) = self.0.split_at(n);
        self.0 = rest;
        taken
    }

    /// Takes one byte of white space.
    fn take_white(&mut self) -> Option<()> {
        let (first, rest) = self.0.split_first()?;
        self.0 = rest;
        is_white(*first).then_some(())
    }

    /// Takes white space and comments in any order, one byte of white space or one comment at least. A comment's line end belongs
    /// to it, and a comment without one runs to the end of the file, where no number can follow.
    fn take_gap(&mut self) -> Option<()> {
        let before = self.0.len();
        loop {
            self.take_while(is_white);
            if self.0.first() != Some(&b'#') {
                break;
            }
            self.take_while(|byte| byte != b'\r' && byte != b'\n');
            self.take_white()?;
        }
        (self.0.len() < before).then_some(())
    }

    /// Takes a run of digits, one at least.
    fn take_digits(&mut self) -> Option<&'a [u8]> {
        let digits = self.take_while(|byte| byte.is_ascii_digit());
        (!digits.is_empty()).then_some(digits)
    }

    /// Takes a whole number of any length. One that 64 bits do not hold is answered as the largest that they do: either is neither
    /// a side nor a maximum.
    fn take_number(&mut self) -> Option<u64> {
        let digits = self.take_digits()?;
        let text = str::from_utf8(digits).expect("digits are ASCII");
        Some(text.parse().unwrap_or(u64::MAX))
    }

    /// Takes a scale, an optional sign, digits and perhaps a point with digits, which are not all zero: whether it is negative.
    fn take_scale(&mut self) -> Option<bool> {
        let negative = self.take(b"-").is_some();
        if !negative {
            self.take(b"+");
        }
        let whole = self.take_digits()?;
        let fraction = if self.take(b".").is_some() { self.take_digits()? } else { &[] };
        let zero = whole.iter().chain(fraction).all(|&digit| digit == b'0');
        (!zero).then_some(negative)
    }
}

/// The header of a PGM file: its width, height and maximum.
fn pgm_header(rest: &mut Rest) -> Option<[u64; 3]> {
    rest.take(b"P5")?;
    let mut numbers = [0; 3];
    for number in &mut numbers {
        rest.take_gap()?;
        *number = rest.take_number()?;
    }
    rest.take_white()?;
    Some(numbers)
}

/// The header of a PFM file: its width and height, and whether its cells are little-endian.
fn pfm_header(rest: &mut Rest) -> Option<(u64, u64, bool)> {
    rest.take(b"Pf\n")?;
    let width = rest.take_number()?;
    rest.take(b" ")?;
    let height = rest.take_number()?;
    rest.take(b"\n")?;
    let little = rest.take_scale()?;
    rest.take(b"\n")?;
    Some((width, height, little))
}

/// What a PGM file holds: its size, and its levels in place of what `levels` held.
pub fn read_pgm(file: &[u8], levels: &mut Vec<u8>) -> Result<Size, u32> {
    let mut rest = Rest(file);
    let [width, height, maximum] = pgm_header(&mut rest).ok_or(41u32)?;
    if maximum != MAXIMUM {
        return Err(42);
    }
    let size = Size::of(width, height).ok_or(43u32)?;
    if rest.0.len() != size.area() {
        return Err(44);
    }
    levels.clear();
    levels.extend_from_slice(rest.0);
    Ok(size)
}

/// The cell that four bytes of a PFM file are, the mark where they are no finite number.
fn cell_of_bytes(bytes: [u8; 4], little: bool) -> f32 {
    let cell = if little { f32::from_le_bytes(bytes) } else { f32::from_be_bytes(bytes) };
    if cell.is_finite() { cell } else { f32::from_bits(0x7FC0_0000) }
}

/// What a PFM file holds: its size, and its cells, the top row first, in place of what `cells` held.
pub fn read_pfm(file: &[u8], cells: &mut Vec<f32>) -> Result<Size, u32> {
    let mut rest = Rest(file);
    let (width, height, little) = pfm_header(&mut rest).ok_or(41u32)?;
    let size = Size::of(width, height).ok_or(43u32)?;
    if rest.0.len() != 4 * size.area() {
        return Err(44);
    }
    cells.clear();
    for row in rest.0.chunks_exact(4 * size.width).rev() {
        cells.extend(row.chunks_exact(4).map(|cell| cell_of_bytes(cell.try_into().expect("four bytes"), little)));
    }
    Ok(size)
}

/// The PFM file of a map, in place of what `file` held.
pub fn write_pfm(cells: &[f32], width: usize, height: usize, file: &mut Vec<u8>) -> Result<(), u32> {
    let size = Size::of(width as u64, height as u64).ok_or(23u32)?;
    if cells.len() != size.area() {
        return Err(23);
    }
    file.clear();
    file.extend_from_slice(format!("Pf\n{width} {height}\n-1.0\n").as_bytes());
    for row in cells.chunks_exact(width).rev() {
        for &cell in row {
            let written = if cell.is_nan() { f32::INFINITY } else { cell };
            file.extend_from_slice(&written.to_le_bytes());
        }
    }
    Ok(())
}

#[cfg(test)]
mod tests {
    use super::*;
    use runs::limits::SIDE_MOST;

    const MARK: u32 = 0x7FC0_0000;

    /// The size and the levels of a PGM file.
    fn picture(file: &[u8]) -> Result<(usize, usize, Vec<u8>), u32> {
        let mut levels = vec![9; 3];
        read_pgm(file, &mut levels).map(|size| (size.width, size.height, levels))
    }

    /// The size of a PFM file, and its cells as bits.
    fn map(file: &[u8]) -> Result<(usize, usize, Vec<u32>), u32> {
        let mut cells = vec![9.0; 3];
        read_pfm(file, &mut cells).map(|size| (size.width, size.height, cells.iter().map(|cell| cell.to_bits()).collect()))
    }

    fn written(cells: &[f32], width: usize, height: usize) -> Result<Vec<u8>, u32> {
        let mut file = vec![9; 3];
        write_pfm(cells, width, height, &mut file).map(|()| file)
    }

    #[test]
    fn headers_of_one_picture() {
        let hand_made: [&[u8]; 16] = [
            b"P5\n2 1\n255\nab",
            b"P5 2 1 255 ab",
            b"P5\t2\r1\x0B255\x0Cab",
            b"P5\r\n2\r\n1\r\n255\rab",
            b"P5 \t\n\x0B\x0C\r2 1 255\tab",
            b"P5\n# made by hand\n2 1\n255\nab",
            b"P5#touches\n2#touches\n1#touches\n255\nab",
            b"P5#\r2#\r1#\r255\rab",
            b"P5#\n#\n#\n2 1 255\nab",
            b"P5 #one\n #two\r\n\t#three\n2 1 255\nab",
            b"P5 # 7 7 255\n2 1 255\nab",
            b"P5 # a # in a comment\n2 1 255\nab",
            b"P5\n002 0001\n0000255\nab",
            b"P5 00000000000000000000000000000002 1 255 ab",
            b"P5 2 1 000000000000000000000000000000255 ab",
            b"P5 #\xFF\x00\x80\n2 1 255\nab",
        ];
        for file in hand_made {
            assert_eq!(picture(file), Ok((2, 1, b"ab".to_vec())), "{:?}", file.escape_ascii().to_string());
        }
        assert_eq!(picture(b"P5 2 1 255\n#\n"), Ok((2, 1, b"#\n".to_vec())));
        assert_eq!(picture(b"P5 2 1 255\r\na"), Ok((2, 1, b"\na".to_vec())));
        assert_eq!(picture(b"P5 2 2 255\nabcd"), Ok((2, 2, b"abcd".to_vec())));
    }

    #[test]
    fn refusals_of_pgm_in_their_order() {
        let hand_made: [(&[u8], u32); 39] = [
            (b"", 41),
            (b"P", 41),
            (b"P5", 41),
            (b"P2\n2 1\n255\nab", 41),
            (b"P6\n2 1\n255\nab", 41),
            (b"p5\n2 1\n255\nab", 41),
            (b" P5\n2 1\n255\nab", 41),
            (b"#\nP5\n2 1\n255\nab", 41),
            (b"P52 1\n255\nab", 41),
            (b"P5\n2 1 ", 41),
            (b"P5\n2 1 255", 41),
            (b"P5\n2 1 254", 41),
            (b"P5\n0 1 255", 41),
            (b"P5\n2 1 255#\nab", 41),
            (b"P5\n2 1 255 #\nab", 44),
            (b"P5\n2 1 255xab", 41),
            (b"P5\n2 1 255\0ab", 41),
            (b"P5\n-2 1 255\nab", 41),
            (b"P5\n+2 1 255\nab", 41),
            (b"P5\n2.0 1 255\nab", 41),
            (b"P5\n2,1 255\nab", 41),
            (b"P5\n2 x 255\nab", 41),
            (b"P5\n0x2 1 255\nab", 41),
            (b"P5\n2\0 1 255\nab", 41),
            (b"P5\n2\xA01 255\nab", 41),
            (b"P5\n2\x1C1 255\nab", 41),
            (b"P5\n2 1#255\nab", 41),
            (b"P5 # no end 2 1 255 ab", 41),
            (b"P5\n2 1 # no end", 41),
            (b"P5\n2 1 254\nab", 42),
            (b"P5\n0 1 0\n", 42),
            (b"P5\n2 1 511\n", 42),
            (b"P5\n2 1 18446744073709551871\nab", 42),
            (b"P5\n2 1 65535\na", 42),
            (b"P5\n0 1 255\n", 43),
            (b"P5\n1 0 255\n", 43),
            (b"P5\n18446744073709551618 1 255\nab", 43),
            (b"P5\n2 1 255\na", 44),
            (b"P5\n2 1 255\nabc", 44),
        ];
        for (file, refusal) in hand_made {
            assert_eq!(picture(file), Err(refusal), "{:?}", file.escape_ascii().to_string());
        }
        assert_eq!(picture(format!("P5\n{} 1 255\n", SIDE_MOST + 1).as_bytes()), Err(43));
        assert_eq!(picture(b"P5\n123456789012345678901234567890 1 255\n"), Err(43));
    }

    #[test]
    fn a_map_out_and_in() {
        let cells = [1.0, f32::NAN, -0.0, f32::from_bits(1), f32::MAX, f32::NEG_INFINITY];
        let file = [
            &b"Pf\n3 2\n-1.0\n"[..],
            &[1, 0, 0, 0, 0xFF, 0xFF, 0x7F, 0x7F, 0, 0, 0x80, 0xFF],
            &[0, 0, 0x80, 0x3F, 0, 0, 0x80, 0x7F, 0, 0, 0, 0x80],
        ]
        .concat();
        assert_eq!(written(&cells, 3, 2), Ok(file.clone()));
        assert_eq!(map(&file), Ok((3, 2, vec![0x3F80_0000, MARK, 0x8000_0000, 1, 0x7F7F_FFFF, MARK])));
    }

    #[test]
    fn scales_tell_the_byte_order() {
        let with = |scale: &str| map(&[b"Pf\n1 1\n", scale.as_bytes(), b"\n\x01\x02\x03\x04"].concat());
        for scale in ["-1.0", "-1", "-0.5", "-00.001", "-255", "-123456789012345678901234567890.5"] {
            assert_eq!(with(scale), Ok((1, 1, vec![0x0403_0201])), "{scale}");
        }
        for scale in ["1.0", "1", "+1", "+0.5", "0.01", "10", "00000000001", "1.000000"] {
            assert_eq!(with(scale), Ok((1, 1, vec![0x0102_0304])), "{scale}");
        }
        let none = [
            "", "-", "+", ".", "-.5", ".5", "1.", "-1.", "0", "-0", "+0.0", "00.00", "1e3", "-1.0e0", "--1", "+-1", "- 1", " 1",
            "1 ", "1.0.0", "1,0", "0x1", "inf", "nan", "1.0\r", "-1.0#", "1_0",
        ];
        for scale in none {
            assert_eq!(with(scale), Err(41), "{scale}");
        }
    }

    #[test]
    fn every_cell_that_is_not_finite_is_the_mark() {
        for bits in [0x7F80_0000, 0xFF80_0000, 0x7F80_0001, 0x7FC0_0000, 0xFFFF_FFFF, 0x7FFF_FFFF, 0xFFC0_0000u32] {
            assert_eq!(map(&[&b"Pf\n1 1\n1\n"[..], &bits.to_be_bytes()].concat()), Ok((1, 1, vec![MARK])));
            assert_eq!(map(&[&b"Pf\n1 1\n-1\n"[..], &bits.to_le_bytes()].concat()), Ok((1, 1, vec![MARK])));
        }
    }

    #[test]
    fn refusals_of_pfm_in_their_order() {
        let hand_made: [(&[u8], u32); 21] = [
            (b"", 41),
            (b"Pf", 41),
            (b"PF\n1 1\n1\nabcd", 41),
            (b"pf\n1 1\n1\nabcd", 41),
            (b"Pf \n1 1\n1\nabcd", 41),
            (b"Pf\r\n1 1\n1\nabcd", 41),
            (b"Pf\n 1 1\n1\nabcd", 41),
            (b"Pf\n1  1\n1\nabcd", 41),
            (b"Pf\n1\t1\n1\nabcd", 41),
            (b"Pf\n1 1 \n1\nabcd", 41),
            (b"Pf\n1 1\r\n1\nabcd", 41),
            (b"Pf\n1 1\n1\rabcd", 41),
            (b"Pf\n# a comment\n1 1\n1\nabcd", 41),
            (b"Pf\n-1 1\n1\nabcd", 41),
            (b"Pf\n1 1\n1", 41),
            (b"Pf\n0 1\n0\n", 41),
            (b"Pf\n0 1\n1\n", 43),
            (b"Pf\n1 18446744073709551617\n1\nabcd", 43),
            (b"Pf\n1 1\n1\n", 44),
            (b"Pf\n1 1\n1\nabc", 44),
            (b"Pf\n1 1\n1\nabcde", 44),
        ];
        for (file, refusal) in hand_made {
            assert_eq!(map(file), Err(refusal), "{:?}", file.escape_ascii().to_string());
        }
        assert_eq!(map(format!("Pf\n1 {}\n1\n", SIDE_MOST + 1).as_bytes()), Err(43));
        assert_eq!(map(b"Pf\n0001 01\n1\n\0\0\0\0"), Ok((1, 1, vec![0])));
    }

    #[test]
    fn refusals_of_writing() {
        let long = SIDE_MOST + 1;
        for (width, height) in [(0, 1), (1, 0), (long, 1), (1, long), (2, 1), (usize::MAX, usize::MAX), (1 << 32, 1 << 32)] {
            assert_eq!(written(&[1.0], width, height), Err(23));
        }
        assert_eq!(written(&[], 0, 0), Err(23));
        assert_eq!(written(&[], 1 << 32, 1 << 32), Err(23));
        assert_eq!(written(&vec![1.0; long], long, 1), Err(23));
    }

    #[test]
    fn the_largest_side_is_a_side() {
        let levels = vec![3; SIDE_MOST];
        let header = format!("P5 {SIDE_MOST} 1 255\n");
        assert_eq!(picture(&[header.as_bytes(), &levels].concat()), Ok((SIDE_MOST, 1, levels)));
        let file = written(&vec![0.0; SIDE_MOST], 1, SIDE_MOST).expect("a map");
        let header = format!("Pf\n1 {SIDE_MOST}\n-1.0\n");
        assert_eq!(file, [header.as_bytes(), &vec![0; 4 * SIDE_MOST]].concat());
        assert_eq!(map(&file), Ok((1, SIDE_MOST, vec![0; SIDE_MOST])));
    }
}
