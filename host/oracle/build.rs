//! `dense.rs` stays as it was published. Its raw volume is private there, so a second copy is made here with one function
//! more, which hands that volume out; the module's leading comment is cut, because an included file may not have one.
use std::{env, fs, path::Path};

const OPENED: &str = "
/// The raw volume from one side, as `solve_direction` builds it.
pub fn raw_volume(left: &GrayImage, right: &GrayImage, from_right: bool, opts: &BlockMatchOptions) -> Vec<f32> {
    let (a, b, sign) = if from_right { (right, left, 1) } else { (left, right, -1) };
    let (w, h) = (a.width, a.height);
    let level = |image: &GrayImage, x: usize, y: usize| image.get(x, y) as f64;
    let square = |image: &GrayImage, x: usize, y: usize| level(image, x, y) * level(image, x, y);
    let ia = SummedArea::build(w, h, |x, y| level(a, x, y));
    let iaa = SummedArea::build(w, h, |x, y| square(a, x, y));
    let ib = SummedArea::build(w, h, |x, y| level(b, x, y));
    let ibb = SummedArea::build(w, h, |x, y| square(b, x, y));
    zncc_cost_volume(a, b, &ia, &iaa, &ib, &ibb, sign, opts.block_size / 2, opts)
}
";

fn main() {
    println!("cargo:rerun-if-changed=src/dense.rs");
    println!("cargo:rerun-if-changed=build.rs");
    let text = fs::read_to_string("src/dense.rs").expect("src/dense.rs");
    let body: String = text.lines().filter(|line| !line.starts_with("//!")).map(|line| format!("{line}\n")).collect();
    let out = Path::new(&env::var("OUT_DIR").expect("OUT_DIR")).join("dense_opened.rs");
    fs::write(out, body + OPENED).expect("dense_opened.rs");
}
