//! One map and the index beside it on both sides: the library's answers, every cell and every record, held to `index`.
use crate::cases::{Edit, Made};
use crate::lent::Lent;
use plombrisa::{Error, Map, RowIndex, RowRecord, edit_cell_in, fresh_index_in, valid_count};
use rows_run::index::{self, Row};
use runs::limits::SIDE_MOST;
use runs::same::equal;

/// What the library is lent, kept from input to input, and the cells as they should be.
#[derive(Default)]
pub struct Both {
    cells: Lent<f32>,
    index: Lent<RowRecord>,
    again: Lent<RowRecord>,
    should: Vec<f32>,
}

/// The number of an answer, 0 where the call was accepted. A run's inputs are small, so memory is not what it may lack.
fn number_of<T>(answer: &Result<T, impl Copy + Into<Error>>) -> u32 {
    answer.as_ref().map_or_else(|&why| why.into().refusal().expect("memory").number(), |_| 0)
}

fn record_of(row: &Row) -> RowRecord {
    let (least, greatest) = row.range.unwrap_or((f32::NAN, f32::NAN));
    RowRecord { count: row.count, least, greatest }
}

fn records_of(rows: &[Row]) -> Vec<RowRecord> {
    rows.iter().map(record_of).collect()
}

/// Records that are of no map, to be lent.
fn stale(records: usize) -> impl Iterator<Item = RowRecord> {
    (0..records).map(|i| RowRecord { count: SIDE_MOST + 1 + i, least: i as f32 + 0.25, greatest: -0.0 })
}

/// The map of some cells, with the size that the input says it has.
fn sized<'a>(input: &Made, cells: &'a [f32]) -> Map<'a> {
    Map { cells, width: input.map.width, height: input.map.height }
}

impl Both {
    /// The index is the one that both sides work out afresh from the cells, and the rows' counts add to the map's count.
    fn check_afresh(&mut self, input: &Made) -> Result<(), String> {
        let should = records_of(&index::rows(&self.should, input.map.width));
        self.again.fill(stale(should.len()));
        let map = sized(input, self.cells.lent());
        equal("answer of a fresh index", number_of(&fresh_index_in(map, self.again.lend())), 0)?;
        self.again.changed("record of a fresh index,", 0, &should)?;
        self.again.changed("record of a fresh index beside the one that was kept,", 0, self.index.lent())?;
        let total: usize = self.index.lent().iter().map(|record| record.count).sum();
        equal("count of the map beside the rows' counts", valid_count(map), Ok(total as u64))
    }

    /// The index that owns its records, fresh and through all the edits.
    fn check_owned(&mut self, input: &Made) -> Result<(), String> {
        let (width, height) = (input.map.width, input.map.height);
        let mut should = input.map.lent().to_vec();
        self.cells.fill(should.iter().copied());
        let owned = RowIndex::fresh(sized(input, self.cells.lent()));
        equal("answer", number_of(&owned), index::fresh(&should, width, height, height).err().unwrap_or(0))?;
        let Ok(mut owned) = owned else { return self.cells.unchanged("cell") };
        for Edit { x, y, value, .. } in input.edits.iter().copied() {
            let expected = index::edit(&mut should, width, height, x, y, value.unwrap_or(f32::NAN), height);
            let answer = owned.edit(self.cells.lend(), x, y, value);
            equal("answer of an edit", number_of(&answer), expected.err().unwrap_or(0))?;
        }
        self.cells.changed("cell", 0, &should)?;
        self.again.fill(owned.rows().iter().copied());
        let rows = index::rows(&should, width);
        self.again.changed("record", 0, &records_of(&rows))?;
        for (is, should) in owned.rows().iter().zip(&rows) {
            equal("range of a record", is.range(), should.range)?;
        }
        equal("count", Ok(owned.valid_count()), valid_count(sized(input, self.cells.lent())))
    }

    /// A map is lent, and its index worked out afresh. The answer's number.
    pub fn fresh(&mut self, input: &Made) -> Result<u32, String> {
        self.check_owned(input).map_err(|why| format!("the index that owns its records: {why}"))?;
        self.should.clear();
        self.should.extend_from_slice(input.map.lent());
        self.cells.fill(self.should.iter().copied());
        self.index.fill(stale(input.records));
        let should = index::fresh(&self.should, input.map.width, input.map.height, input.records);
        let answer = number_of(&fresh_index_in(sized(input, self.cells.lent()), self.index.lend()));
        equal("answer", answer, should.as_ref().err().copied().unwrap_or(0))?;
        self.cells.unchanged("cell")?;
        match should {
            Ok(rows) => {
                self.index.changed("record", 0, &records_of(&rows))?;
                self.check_afresh(input)?;
            }
            Err(_) => self.index.unchanged("record")?,
        }
        if !input.fresh {
            self.index.fill(stale(input.records));
        }
        Ok(answer)
    }

    /// The map that was lent last is edited: one cell and one record change, or nothing does. The answer's number.
    pub fn edit(&mut self, input: &Made, edit: &Edit) -> Result<u32, String> {
        self.edited(input, edit).map_err(|why| format!("({}, {}) to {:?}: {why}", edit.x, edit.y, edit.value))
    }

    fn edited(&mut self, input: &Made, edit: &Edit) -> Result<u32, String> {
        let (width, height) = (input.map.width, input.map.height);
        let Edit { x, y, value, .. } = *edit;
        let number = value.unwrap_or(f32::NAN);
        let should = index::edit(&mut self.should, width, height, x, y, number, input.records);
        let answer = number_of(&edit_cell_in(self.cells.lend(), width, height, x, y, value, self.index.lend()));
        equal("answer", answer, should.err().unwrap_or(0))?;
        match should {
            Ok(row) => {
                self.cells.changed("cell", y * width + x, &[number])?;
                self.index.changed("record", y, &[record_of(&row)])?;
                if input.fresh {
                    self.check_afresh(input)?;
                }
            }
            Err(_) => {
                self.cells.unchanged("cell")?;
                self.index.unchanged("record")?;
            }
        }
        Ok(answer)
    }
}
