//! One case on both sides: the proved library and the Rust.
use crate::case::Case;
use oracle::{dense, opened};
use plombrisa::{Map, Options, Picture, cover, match_block_in, raw_volume_in};

/// What a lent cell holds before the call: numbers that neither side writes by itself.
fn marked(n: usize) -> Vec<f32> {
    (0..n).map(|i| f32::from_bits(0x4B00_0000 + (i as u32 & 0xFFFF))).collect()
}

fn marked_whole(n: usize) -> Vec<u64> {
    (0..n as u64).map(|i| 0xA5A5_0000_0000_0000 + i).collect()
}

fn same_cells(what: &str, is: &[f32], should: &[f32]) -> Result<(), String> {
    if is.len() != should.len() {
        return Err(format!("{what}: {} cells, not {}", is.len(), should.len()));
    }
    for (i, (a, b)) in is.iter().zip(should).enumerate() {
        let mark = a.is_nan() && b.is_nan() && a.to_bits() == 0x7FC0_0000;
        if !mark && a.to_bits() != b.to_bits() {
            return Err(format!("{what}: cell {i} is {:08X} ({a}), the Rust has {:08X} ({b})", a.to_bits(), b.to_bits()));
        }
    }
    Ok(())
}

fn same_bits(what: &str, is: &[f32], was: &[f32]) -> Result<(), String> {
    match is.iter().zip(was).position(|(a, b)| a.to_bits() != b.to_bits()) {
        Some(i) => Err(format!("{what}: cell {i} changed")),
        None => Ok(()),
    }
}

fn room_after(what: &str, is: &[u64], was: &[u64], needed: usize, refused: bool) -> Result<(), String> {
    for i in 0..is.len() {
        let should = if !refused && i < needed { 0 } else { was[i] };
        if is[i] != should {
            return Err(format!("{what}: cell {i} is {:X}, not {should:X}", is[i]));
        }
    }
    Ok(())
}

fn float_room_after(is: &[f32], was: &[f32], needed: usize, refused: bool) -> Result<(), String> {
    let bits = |cells: &[f32]| cells.iter().map(|c| c.to_bits() as u64).collect::<Vec<_>>();
    room_after("float room", &bits(is), &bits(was), needed, refused)
}

fn gray(bytes: &[u8], (width, height): (usize, usize)) -> dense::GrayImage {
    dense::GrayImage::new(width, height, bytes.to_vec())
}

fn opened_gray(bytes: &[u8], (width, height): (usize, usize)) -> opened::GrayImage {
    opened::GrayImage::new(width, height, bytes.to_vec())
}

fn rust_options(o: &Options) -> dense::BlockMatchOptions {
    dense::BlockMatchOptions {
        min_disparity: o.min_disparity,
        num_disparities: o.num_disparities,
        block_size: o.block_size,
        min_correlation: o.min_correlation,
        uniqueness_ratio: o.uniqueness_ratio,
        lr_consistency: o.lr_consistency,
        lr_max_diff: o.lr_max_diff,
        subpixel: o.subpixel,
        semi_global: o.semi_global,
        sgm_p1: o.sgm_p1,
        sgm_p2: o.sgm_p2,
    }
}

fn opened_options(o: &Options) -> opened::BlockMatchOptions {
    opened::BlockMatchOptions {
        min_disparity: o.min_disparity,
        num_disparities: o.num_disparities,
        block_size: o.block_size,
        ..Default::default()
    }
}

fn pictures(case: &Case) -> (Picture<'_>, Picture<'_>) {
    let of = |bytes, (width, height)| Picture { bytes, width, height };
    (of(case.left.as_slice(), case.left_size), of(case.right.as_slice(), case.right_size))
}

/// The Rust's map.
pub fn rust_map(case: &Case) -> Result<Vec<f32>, String> {
    let (left, right) = (gray(&case.left, case.left_size), gray(&case.right, case.right_size));
    let map = dense::match_block(&left, &right, &rust_options(&case.options));
    map.map(|map| map.data).map_err(|e| format!("the Rust refused: {e:?}"))
}

/// The Rust's raw volume from one side.
pub fn rust_volume(case: &Case, from_right: bool) -> Vec<f32> {
    let (left, right) = (opened_gray(&case.left, case.left_size), opened_gray(&case.right, case.right_size));
    opened::raw_volume(&left, &right, from_right, &opened_options(&case.options))
}

/// A match: the answer, every cell of the map, and both rooms.
pub fn check_match(case: &Case) -> Result<(), String> {
    let (left, right) = pictures(case);
    let (out_was, whole_was, float_was) = (marked(case.out_len(false)), marked_whole(case.whole_len()), marked(case.float_len()));
    let (mut out, mut whole, mut float) = (out_was.clone(), whole_was.clone(), float_was.clone());
    let answer = match_block_in(left, right, &case.options, &mut out, &mut whole, &mut float);
    let number = answer.map_or_else(|r| r.number(), |()| 0);
    let should = case.refusal(false);
    if number != should {
        return Err(format!("match: answered {number}, document 01 has {should}"));
    }
    room_after("whole-number room", &whole, &whole_was, case.whole_needed(), number != 0)?;
    float_room_after(&float, &float_was, case.float_needed(), number != 0)?;
    if number != 0 {
        return same_bits("output of a refused match", &out, &out_was);
    }
    same_cells("map", &out, &rust_map(case)?)?;
    check_cover(case, &out)
}

/// The cover of a match's map by its own block: not refused, and 1000 of a semi-global map without the left-right test.
fn check_cover(case: &Case, cells: &[f32]) -> Result<(), String> {
    let (width, height) = case.left_size;
    let map = Map { cells, width, height };
    let permille = cover(map, case.options.block_size).map_err(|refusal| format!("cover of a map: refused with {}", refusal.number()))?;
    let full = case.options.semi_global && !case.options.lr_consistency;
    if permille > 1000 || (full && permille != 1000) { Err(format!("cover of a map: {permille}")) } else { Ok(()) }
}

/// The raw volume from one side: the answer, every cell, and the room.
pub fn check_volume(case: &Case, from_right: bool) -> Result<(), String> {
    let (left, right) = pictures(case);
    let (out_was, whole_was) = (marked(case.out_len(true)), marked_whole(case.whole_len()));
    let (mut out, mut whole) = (out_was.clone(), whole_was.clone());
    let answer = raw_volume_in(left, right, &case.options, from_right, &mut out, &mut whole);
    let number = answer.map_or_else(|r| r.number(), |()| 0);
    let should = case.refusal(true);
    if number != should {
        return Err(format!("raw volume: answered {number}, document 01 has {should}"));
    }
    room_after("whole-number room", &whole, &whole_was, case.whole_needed(), number != 0)?;
    if number != 0 {
        return same_bits("output of a refused raw volume", &out, &out_was);
    }
    same_cells("raw volume", &out, &rust_volume(case, from_right))
}

/// A match alone, and the number that it answers.
pub fn check_number(case: &Case) -> Result<u32, String> {
    check_match(case).map(|()| case.refusal(false))
}

/// Everything that one case can show.
pub fn check(case: &Case) -> Result<(), String> {
    check_match(case)?;
    check_volume(case, false)?;
    check_volume(case, true)
}
