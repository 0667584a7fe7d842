//! Comparisons that say where two sides differ.
use std::fmt::Debug;

/// The bits of the library's mark.
pub const MARK: u32 = 0x7FC0_0000;

pub fn equal<T: PartialEq + Debug>(what: &str, is: T, should: T) -> Result<(), String> {
    if is == should { Ok(()) } else { Err(format!("{what}: {is:?}, not {should:?}")) }
}

/// Two lists, item by item; the first that differs is shown.
fn same_items<T: Copy>(
    what: &str, item: &str, is: &[T], should: &[T], same: impl Fn(T, T) -> bool, shown: impl Fn(T) -> String,
) -> Result<(), String> {
    equal(what, is.len(), should.len())?;
    match (0..is.len()).find(|&i| !same(is[i], should[i])) {
        Some(i) => Err(format!("{what}: {item} {i} is {}, not {}", shown(is[i]), shown(should[i]))),
        None => Ok(()),
    }
}

pub fn same_bytes(what: &str, is: &[u8], should: &[u8]) -> Result<(), String> {
    same_items(what, "byte", is, should, |a, b| a == b, |byte| format!("{byte:02X}"))
}

pub fn same_numbers(what: &str, is: &[u64], should: &[u64]) -> Result<(), String> {
    same_items(what, "number", is, should, |a, b| a == b, |number| number.to_string())
}

/// The cells that the library read, bit for bit; where a NaN should be, whatever its bits, the mark is.
pub fn same_cells(what: &str, is: &[f32], should: &[f32]) -> Result<(), String> {
    let same = |a: f32, b: f32| a.to_bits() == if b.is_nan() { MARK } else { b.to_bits() };
    same_items(what, "cell", is, should, same, |cell| format!("{:08X}", cell.to_bits()))
}
