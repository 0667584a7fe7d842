//! Document 01's table of refusals in plain Rust, written from its words: how a number is found in it, the rows that every call on two
//! pictures has, and those of a map's cover. Nothing here calls the library.
use crate::limits::{BLOCK_MOST, COUNT_MOST, FIRST_MOST, is_map, is_side};

/// A row of a table: its number, and whether it applies.
pub type Row = (u32, bool);

/// The number of the first row that applies, 0 for none.
pub fn first_of(rows: &[Row]) -> u32 {
    rows.iter().find(|(_, applies)| *applies).map_or(0, |(number, _)| *number)
}

/// A picture as it is lent: the size that it is said to have, and its bytes.
#[derive(Debug, Clone, Copy)]
pub struct LentPicture {
    pub width: usize,
    pub height: usize,
    pub bytes: usize,
}

impl LentPicture {
    fn outside_range(&self) -> bool {
        !is_side(self.width) || !is_side(self.height)
    }

    /// The byte count is not w·h; a product that no number holds is the count of no picture.
    fn other_count(&self) -> bool {
        self.width.checked_mul(self.height) != Some(self.bytes)
    }

    /// The number for one picture alone: rows 1 and 2.
    pub fn refusal(&self) -> u32 {
        first_of(&[(1, self.outside_range()), (2, self.other_count())])
    }
}

/// Two pictures, the block and what is searched.
#[derive(Debug, Clone, Copy)]
pub struct Pair {
    pub left: LentPicture,
    pub right: LentPicture,
    pub block: usize,
    pub count: i32,
    pub first: i32,
}

impl Pair {
    /// Rows 1 to 9, in the table's order.
    fn rows(&self) -> [Row; 9] {
        let Self { left, right, block, count, first } = *self;
        [
            (1, left.outside_range() || right.outside_range()),
            (2, left.other_count() || right.other_count()),
            (3, (left.width, left.height) != (right.width, right.height)),
            (4, block.is_multiple_of(2)),
            (5, block > BLOCK_MOST),
            (6, count <= 0),
            (7, count > COUNT_MOST),
            (8, left.width < block || left.height < block),
            (9, !(-FIRST_MOST..=FIRST_MOST).contains(&first)),
        ]
    }

    /// The number for two pictures, the block and what is searched: rows 1 to 9.
    pub fn refusal(&self) -> u32 {
        first_of(&self.rows())
    }
}

/// The number for the cover of a map of so many cells by a block: 23, then 4, 5 and 8 as for matching.
pub fn cover_refusal(cells: usize, width: usize, height: usize, block: usize) -> u32 {
    let rows = [
        (23, !is_map(cells, width, height)),
        (4, block.is_multiple_of(2)),
        (5, block > BLOCK_MOST),
        (8, width < block || height < block),
    ];
    first_of(&rows)
}

#[cfg(test)]
mod tests {
    use super::*;
    use crate::limits::SIDE_MOST;

    #[test]
    fn each_row_before_all_that_follow() {
        let small = LentPicture { width: 5, height: 3, bytes: 15 };
        let mut pair = Pair { left: small, right: small, block: 3, count: 2, first: 0 };
        assert_eq!(pair.refusal(), 0);
        pair.first = -FIRST_MOST - 1;
        assert_eq!(pair.refusal(), 9);
        pair.block = 5;
        assert_eq!(pair.refusal(), 8);
        pair.count = COUNT_MOST + 1;
        assert_eq!(pair.refusal(), 7);
        pair.count = 0;
        assert_eq!(pair.refusal(), 6);
        pair.block = BLOCK_MOST + 2;
        assert_eq!(pair.refusal(), 5);
        pair.block = BLOCK_MOST + 1;
        assert_eq!(pair.refusal(), 4);
        pair.right = LentPicture { width: 3, height: 5, bytes: 15 };
        assert_eq!(pair.refusal(), 3);
        pair.left.bytes = 14;
        assert_eq!((pair.refusal(), pair.left.refusal()), (2, 2));
        pair.left.height = SIDE_MOST + 1;
        assert_eq!((pair.refusal(), pair.left.refusal()), (1, 1));
    }

    #[test]
    fn a_cover_s_rows_before_all_that_follow() {
        assert_eq!(cover_refusal(2, 1, 1, BLOCK_MOST + 3), 23);
        assert_eq!(cover_refusal(1, 1, 1, BLOCK_MOST + 3), 4);
        assert_eq!(cover_refusal(1, 1, 1, 0), 4);
        assert_eq!(cover_refusal(1, 1, 1, BLOCK_MOST + 2), 5);
        assert_eq!(cover_refusal(2, 2, 1, 3), 8);
        assert_eq!(cover_refusal(3, 1, 3, 3), 8);
        assert_eq!(cover_refusal(9, 3, 3, 3), 0);
        assert_eq!(cover_refusal(SIDE_MOST * BLOCK_MOST, SIDE_MOST, BLOCK_MOST, BLOCK_MOST), 0);
    }

    #[test]
    fn each_limit_itself_is_taken() {
        let longest = LentPicture { width: SIDE_MOST, height: BLOCK_MOST, bytes: SIDE_MOST * BLOCK_MOST };
        for first in [-FIRST_MOST, FIRST_MOST] {
            assert_eq!(Pair { left: longest, right: longest, block: BLOCK_MOST, count: COUNT_MOST, first }.refusal(), 0);
        }
    }

    #[test]
    fn a_product_that_goes_round_is_no_count() {
        let round = LentPicture { width: 1 << 32, height: 1 << 32, bytes: 0 };
        assert!(round.other_count());
        assert_eq!(round.refusal(), 1);
    }
}
