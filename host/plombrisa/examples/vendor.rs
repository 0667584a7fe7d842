use plombrisa::{Map, Options, Picture, Verdict, check_vendor};

pub fn main() {
    let left = [9, 1, 4, 7, 2, 9, 1, 4, 7, 2, 9, 1, 4, 7, 2];
    let right = [1, 4, 7, 2, 5, 1, 4, 7, 2, 5, 1, 4, 7, 2, 5];
    let picture = |bytes| Picture { bytes, width: 5, height: 3 };
    let options = Options { num_disparities: 2, block_size: 3, ..Options::default() };
    let mut cells = [f32::NAN; 15];
    for disparity in [1.0, 0.0] {
        cells[1 * 5 + 3] = disparity;
        match check_vendor(picture(&left), picture(&right), &options, Map { cells: &cells, width: 5, height: 3 }) {
            Ok(Verdict::Yes) => println!("disparity {disparity} at (3, 1): yes"),
            Ok(Verdict::No { x, y }) => println!("disparity {disparity} at (3, 1): no, the cell at ({x}, {y})"),
            Err(error) => println!("{error}"),
        }
    }
}
