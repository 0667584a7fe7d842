use plombrisa::{Map, read_pfm, read_pgm, write_pfm};

pub fn main() {
    match read_pgm(b"P5 # the left camera\n3 1 255\nabc") {
        Ok(picture) => println!("{} by {}: {:?}", picture.width, picture.height, picture.bytes),
        Err(error) => println!("{error}"),
    }
    let map = Map { cells: &[f32::NAN, 4.5], width: 2, height: 1 };
    match write_pfm(map).and_then(|file| read_pfm(&file)) {
        Ok(map) => println!("{} by {}: {:?}", map.width, map.height, map.cells),
        Err(error) => println!("{error}"),
    }
}
