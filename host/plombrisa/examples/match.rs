use plombrisa::{Options, Picture, match_block};

pub fn main() {
    let left = [9, 1, 4, 7, 2, 9, 1, 4, 7, 2, 9, 1, 4, 7, 2];
    let right = [1, 4, 7, 2, 5, 1, 4, 7, 2, 5, 1, 4, 7, 2, 5];
    let picture = |bytes| Picture { bytes, width: 5, height: 3 };
    let options = Options { num_disparities: 2, block_size: 3, ..Options::default() };
    match match_block(picture(&left), picture(&right), &options) {
        Ok(map) => println!("disparity at (2, 1): {}", map[1 * 5 + 2]),
        Err(error) => println!("{error}"),
    }
}
