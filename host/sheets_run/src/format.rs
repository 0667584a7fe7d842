//! Sheets in plain Rust, written from the request's text alone, so that the library is held to another reading of it. Nothing here
//! calls the library. A refusal is its number; lengths of outputs (33, 11) are left to the caller, who lends them.
use runs::limits::is_map;

/// The largest width and height that a sheet of version 1 says. It is the version's own, whatever a map may have.
pub const SHEET_SIDE_MOST: usize = 2048;

/// The largest disparity of kind 0; the least is its negative.
pub const WHOLE_MOST: i32 = 8192;

/// What a sheet says before its cells.
#[derive(Debug, Clone, Copy, PartialEq, Eq)]
pub struct Head {
    pub kind: u64,
    pub width: usize,
    pub height: usize,
}

impl Head {
    pub fn area(&self) -> usize {
        self.width * self.height
    }
}

/// A number in groups of seven bits, the low group first, the high bit on all but the last.
pub fn push_number(mut number: u64, sheet: &mut Vec<u8>) {
    while number > 0x7F {
        sheet.push(0x80 | (number & 0x7F) as u8);
        number >>= 7;
    }
    sheet.push(number as u8);
}

/// The number at `at`, which moves behind it; none where it is cut, not in its shortest form, or of more than five groups.
fn take_number(sheet: &[u8], at: &mut usize) -> Option<u64> {
    let mut number = 0;
    for group in 0..5 {
        let byte = *sheet.get(*at)?;
        *at += 1;
        number |= u64::from(byte & 0x7F) << (7 * group);
        if byte & 0x80 == 0 {
            // a last group of zero says nothing: the number has a shorter form, except 0 itself
            return (byte != 0 || group == 0).then_some(number);
        }
    }
    None
}

/// The number of a cell: 0 for the mark, else 1 more than the folded disparity or than the bits.
pub fn cell_number(kind: u64, cell: f32) -> Result<u64, u32> {
    if cell.is_nan() {
        return Ok(0);
    }
    if cell.is_infinite() {
        return Err(31);
    }
    if kind == 1 {
        return Ok(1 + u64::from(cell.to_bits()));
    }
    let minus_zero = cell == 0.0 && cell.is_sign_negative();
    if minus_zero || cell.fract() != 0.0 || cell.abs() > WHOLE_MOST as f32 {
        return Err(32);
    }
    let whole = cell as i64;
    let folded = if whole < 0 { -2 * whole - 1 } else { 2 * whole };
    Ok(1 + folded as u64)
}

/// The cell that has a number, a NaN for the mark; none where no cell has it.
fn cell_of_number(kind: u64, number: u64) -> Option<f32> {
    if number == 0 {
        return Some(f32::NAN);
    }
    let rest = number - 1;
    if kind == 1 {
        let cell = f32::from_bits(u32::try_from(rest).ok()?);
        return cell.is_finite().then_some(cell);
    }
    let whole = if rest % 2 == 1 { -(rest.div_ceil(2) as i64) } else { (rest / 2) as i64 };
    (whole.abs() <= i64::from(WHOLE_MOST)).then_some(whole as f32)
}

/// The sheet of a map, in place of what `sheet` held.
pub fn write(cells: &[f32], width: usize, height: usize, kind: u64, sheet: &mut Vec<u8>) -> Result<(), u32> {
    if !is_map(cells.len(), width, height) {
        return Err(23);
    }
    if kind > 1 {
        return Err(35);
    }
    sheet.clear();
    for number in [1, kind, width as u64, height as u64] {
        push_number(number, sheet);
    }
    for &cell in cells {
        push_number(cell_number(kind, cell)?, sheet);
    }
    Ok(())
}

/// What a sheet holds: its head, and its cells in place of what `cells` held.
pub fn read(sheet: &[u8], cells: &mut Vec<f32>) -> Result<Head, u32> {
    let mut at = 0;
    if take_number(sheet, &mut at).ok_or(34u32)? != 1 {
        return Err(35);
    }
    let kind = take_number(sheet, &mut at).ok_or(34u32)?;
    if kind > 1 {
        return Err(35);
    }
    let mut sides = [0; 2];
    for side in &mut sides {
        let number = take_number(sheet, &mut at).ok_or(34u32)?;
        if number < 1 || number > SHEET_SIDE_MOST as u64 {
            return Err(36);
        }
        *side = number as usize;
    }
    let head = Head { kind, width: sides[0], height: sides[1] };
    cells.clear();
    for _ in 0..head.area() {
        let number = take_number(sheet, &mut at).ok_or(34u32)?;
        cells.push(cell_of_number(kind, number).ok_or(37u32)?);
    }
    if at < sheet.len() { Err(38) } else { Ok(head) }
}

#[cfg(test)]
mod tests {
    use super::*;
    use runs::limits::SIDE_MOST;

    /// The largest disparity of kind 0 as a cell.
    const WHOLE: f32 = WHOLE_MOST as f32;

    fn number(value: u64) -> Vec<u8> {
        let mut bytes = Vec::new();
        push_number(value, &mut bytes);
        bytes
    }

    /// A number and how many bytes it took.
    fn taken(bytes: &[u8]) -> Option<(u64, usize)> {
        let mut at = 0;
        take_number(bytes, &mut at).map(|value| (value, at))
    }

    fn written(cells: &[f32], width: usize, height: usize, kind: u64) -> Result<Vec<u8>, u32> {
        let mut sheet = vec![9; 3];
        write(cells, width, height, kind, &mut sheet).map(|()| sheet)
    }

    /// The head, and the cells as bits, NaN for each mark as all ones.
    fn found(sheet: &[u8]) -> Result<(Head, Vec<u32>), u32> {
        let mut cells = vec![9.0; 3];
        let head = read(sheet, &mut cells)?;
        Ok((head, cells.iter().map(|c| if c.is_nan() { u32::MAX } else { c.to_bits() }).collect()))
    }

    #[test]
    fn numbers_in_groups() {
        let hand_made: [(u64, &[u8]); 10] = [
            (0, &[0]),
            (1, &[1]),
            (127, &[0x7F]),
            (128, &[0x80, 0x01]),
            (300, &[0xAC, 0x02]),
            (16_383, &[0xFF, 0x7F]),
            (16_384, &[0x80, 0x80, 0x01]),
            (0xFFFF_FFFF, &[0xFF, 0xFF, 0xFF, 0xFF, 0x0F]),
            (1 << 32, &[0x80, 0x80, 0x80, 0x80, 0x10]),
            ((1 << 35) - 1, &[0xFF, 0xFF, 0xFF, 0xFF, 0x7F]),
        ];
        for (value, bytes) in hand_made {
            assert_eq!(number(value), bytes);
            assert_eq!(taken(bytes), Some((value, bytes.len())));
            let longer = [bytes, &[0x55]].concat();
            assert_eq!(taken(&longer), Some((value, bytes.len())));
        }
    }

    #[test]
    fn numbers_that_are_none() {
        let cut: [&[u8]; 4] = [&[], &[0x80], &[0xFF, 0xFF], &[0x81, 0x82, 0x83, 0x84]];
        let not_shortest: [&[u8]; 4] = [&[0x80, 0x00], &[0xFF, 0x00], &[0x81, 0x80, 0x00], &[0xFF, 0xFF, 0xFF, 0xFF, 0x00]];
        let over_five: [&[u8]; 3] = [
            &[0x80, 0x80, 0x80, 0x80, 0x80, 0x01],
            &[0xFF, 0xFF, 0xFF, 0xFF, 0xFF, 0x01],
            &[0x81, 0x80, 0x80, 0x80, 0x80, 0x00],
        ];
        for bytes in cut.iter().chain(&not_shortest).chain(&over_five) {
            assert_eq!(taken(bytes), None, "{bytes:02X?}");
        }
    }

    #[test]
    fn a_whole_sheet() {
        let bytes = [1, 0, 2, 2, 0, 9, 2, 1];
        assert_eq!(written(&[f32::NAN, 4.0, -1.0, 0.0], 2, 2, 0), Ok(bytes.to_vec()));
        let bits = vec![u32::MAX, 0x4080_0000, 0xBF80_0000, 0];
        assert_eq!(found(&bytes), Ok((Head { kind: 0, width: 2, height: 2 }, bits)));
    }

    #[test]
    fn whole_disparities_to_both_ends() {
        let cells = [0.0, -1.0, 1.0, -2.0, 63.0, -64.0, WHOLE - 1.0, -WHOLE, WHOLE];
        let bytes = [
            1, 0, 9, 1, 1, 2, 3, 4, 0x7F, 0x80, 0x01, 0xFF, 0x7F, 0x80, 0x80, 0x01, 0x81, 0x80, 0x01,
        ];
        assert_eq!(written(&cells, 9, 1, 0), Ok(bytes.to_vec()));
        let bits = cells.map(f32::to_bits).to_vec();
        assert_eq!(found(&bytes), Ok((Head { kind: 0, width: 9, height: 1 }, bits)));
        assert_eq!(found(&[1, 0, 1, 1, 0x82, 0x80, 0x01]), Err(37));
    }

    #[test]
    fn an_exact_sheet() {
        let cells = [1.0, -0.0, 0.0, -f32::NAN, f32::from_bits(1), f32::MAX, f32::MIN];
        let bytes = [
            &[1, 1, 1, 7][..],
            &[0x81, 0x80, 0x80, 0xFC, 0x03],
            &[0x81, 0x80, 0x80, 0x80, 0x08],
            &[1],
            &[0],
            &[2],
            &[0x80, 0x80, 0x80, 0xFC, 0x07],
            &[0x80, 0x80, 0x80, 0xFC, 0x0F],
        ]
        .concat();
        assert_eq!(written(&cells, 1, 7, 1), Ok(bytes.clone()));
        let bits = vec![0x3F80_0000, 0x8000_0000, 0, u32::MAX, 1, 0x7F7F_FFFF, 0xFF7F_FFFF];
        assert_eq!(found(&bytes), Ok((Head { kind: 1, width: 1, height: 7 }, bits)));
    }

    #[test]
    fn numbers_of_no_exact_cell() {
        let none: [&[u8]; 7] = [
            &[0x81, 0x80, 0x80, 0xFC, 0x07], // plus infinity
            &[0x82, 0x80, 0x80, 0xFC, 0x07], // the first NaN after it
            &[0x81, 0x80, 0x80, 0xFE, 0x07], // 7FC00000
            &[0x80, 0x80, 0x80, 0x80, 0x08], // the last NaN before minus zero
            &[0x81, 0x80, 0x80, 0xFC, 0x0F], // minus infinity
            &[0x80, 0x80, 0x80, 0x80, 0x10], // the last pattern, a NaN: 2^32
            &[0x81, 0x80, 0x80, 0x80, 0x10], // 2^32 + 1, which a reader of 32 bits takes for plus zero
        ];
        for cell in none {
            assert_eq!(found(&[&[1, 1, 1, 1], cell].concat()), Err(37), "{cell:02X?}");
        }
    }

    #[test]
    fn refusals_of_writing_in_their_order() {
        let (inf, fraction) = (f32::INFINITY, 0.5);
        let long = SIDE_MOST + 1;
        for (width, height) in [(0, 1), (1, 0), (long, 1), (1, long), (2, 1), (usize::MAX, usize::MAX), (1 << 32, 1 << 32)] {
            assert_eq!(written(&[inf], width, height, 2), Err(23));
        }
        assert_eq!(written(&[], 0, 0, 0), Err(23));
        assert_eq!(written(&[], 1 << 32, 1 << 32, 0), Err(23));
        assert_eq!(written(&vec![1.0; long], long, 1, 0), Err(23));
        assert_eq!(written(&[inf], 1, 1, 2), Err(35));
        assert_eq!(written(&[0.0, -inf, fraction], 3, 1, 0), Err(31));
        assert_eq!(written(&[0.0, fraction, -inf], 3, 1, 0), Err(32));
        assert_eq!(written(&[0.0, fraction, -inf], 3, 1, 1), Err(31));
        for cell in [-0.0, fraction, -fraction, WHOLE + 1.0, -WHOLE - 1.0, WHOLE.next_up(), 1e-45, -1e-45, f32::MAX, 4_294_967_296.0] {
            assert_eq!(written(&[cell], 1, 1, 0), Err(32), "{cell}");
            assert!(written(&[cell], 1, 1, 1).is_ok(), "{cell}");
        }
    }

    #[test]
    fn refusals_of_reading_where_they_are_met() {
        let hand_made: [(&[u8], u32); 20] = [
            (&[], 34),
            (&[0], 35),
            (&[2], 35),
            (&[0x81, 0x00], 34),
            (&[0x81, 0x80, 0x80, 0x80, 0x10], 35),
            (&[1], 34),
            (&[1, 2], 35),
            (&[1, 0x80, 0x80, 0x80, 0x80, 0x10], 35),
            (&[1, 0], 34),
            (&[1, 0, 0], 36),
            (&[1, 0, 0x81, 0x10, 0x80], 36),
            (&[1, 0, 0x81, 0x80, 0x80, 0x80, 0x10], 36),
            (&[1, 0, 0x80, 0x10], 34),
            (&[1, 0, 1, 0], 36),
            (&[1, 0, 1, 0x81, 0x10], 36),
            (&[1, 0, 1, 1], 34),
            (&[1, 0, 2, 1, 1], 34),
            (&[1, 0, 2, 1, 0x82, 0x80, 0x01, 0x80], 37),
            (&[1, 0, 1, 1, 0x81, 0x80, 0x80, 0x80, 0x80, 0x01], 34),
            (&[1, 0, 1, 1, 1, 0x80], 38),
        ];
        for (sheet, refusal) in hand_made {
            assert_eq!(found(sheet), Err(refusal), "{sheet:02X?}");
        }
    }

    #[test]
    fn the_largest_side_is_a_side() {
        let width = SHEET_SIDE_MOST;
        let sheet = [&[1, 0, 0x80, 0x10, 1][..], &vec![7; width]].concat();
        assert_eq!(written(&vec![3.0; width], width, 1, 0), Ok(sheet.clone()));
        assert_eq!(found(&sheet).map(|(head, _)| head), Ok(Head { kind: 0, width, height: 1 }));
    }
}
