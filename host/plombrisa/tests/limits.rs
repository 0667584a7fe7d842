//! The wrapper's limits are those that the runs hold the library to, which are written from the documents and not taken from the wrapper.
use plombrisa::limits;
use sheets_run::format;
use volume_run::measure;

#[test]
fn of_a_match() {
    assert_eq!(limits::SIDE_MOST, runs::limits::SIDE_MOST);
    assert_eq!(limits::BLOCK_MOST, runs::limits::BLOCK_MOST);
    assert_eq!(limits::COUNT_MOST, runs::limits::COUNT_MOST);
    assert_eq!(limits::FIRST_MOST, runs::limits::FIRST_MOST);
    assert_eq!(limits::PENALTY_MOST, runs::limits::PENALTY_MOST);
}

#[test]
fn of_a_sheet() {
    assert_eq!(limits::SHEET_SIDE_MOST, format::SHEET_SIDE_MOST);
    assert_eq!(limits::WHOLE_MOST, format::WHOLE_MOST);
}

#[test]
fn of_a_heap() {
    assert_eq!(limits::CELL_LEAST, measure::CELL_LEAST);
    assert_eq!(limits::CELL_MOST, measure::CELL_MOST);
    assert_eq!(limits::FARTHEST, measure::FARTHEST);
    assert_eq!(limits::CELLS_MOST, measure::CELLS_MOST);
}
