use plombrisa::{Error, Map, RowIndex};

pub fn main() -> Result<(), Error> {
    let mut cells = [4.0, f32::NAN, 0.5, 3.0, 2.0, 2.5];
    let mut index = RowIndex::fresh(Map { cells: &cells, width: 3, height: 2 })?;
    let print = |index: &RowIndex| println!("row 0: {:?}; {} cells are valid", index.rows()[0], index.valid_count());
    print(&index);
    index.edit(&mut cells, 2, 0, None)?;
    print(&index);
    Ok(())
}
