use plombrisa::{Kind, Map, read_sheet, write_sheet};

pub fn main() {
    let map = Map { cells: &[f32::NAN, 4.0, -1.0, 0.0], width: 2, height: 2 };
    match write_sheet(map, Kind::Whole) {
        Ok(bytes) => println!("{} bytes: {bytes:02X?}", bytes.len()),
        Err(error) => println!("{error}"),
    }
    match read_sheet(&[1, 0, 2, 2, 0, 9, 2, 1]) {
        Ok(sheet) => println!("{} by {}: {:?}", sheet.width, sheet.height, sheet.cells),
        Err(error) => println!("{error}"),
    }
}
