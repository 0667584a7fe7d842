//! The volume of a heap in plain Rust, written from the request's text alone, so that the library is held to another reading of it.
//! Nothing here calls the library. A refusal is its number; the length of the grid (55) is left to the caller, who lends it.

/// The least and the most that a cell's side may be, in millimetres.
pub const CELL_LEAST: usize = 10;
pub const CELL_MOST: usize = 10_000;

/// The most that a coordinate, an edge or the floor's depth may be in size, in millimetres.
pub const FARTHEST: i64 = 100_000;

/// The most cells that a rectangle may have.
pub const CELLS_MOST: usize = 65_536;

/// A rectangle of ground, the side of its cells and the depth of its floor, in millimetres; left and top are the low edges.
#[derive(Debug, Clone, Copy, PartialEq, Eq)]
pub struct Ground {
    pub left: i64,
    pub right: i64,
    pub top: i64,
    pub bottom: i64,
    pub cell: usize,
    pub floor: i64,
}

/// How many cells a row has, and how many rows there are.
#[derive(Debug, Clone, Copy, PartialEq, Eq)]
pub struct Shape {
    pub columns: usize,
    pub rows: usize,
}

impl Shape {
    pub fn cells(&self) -> usize {
        self.columns * self.rows
    }
}

/// What was measured: the height of each cell by rows, the volume, how many points are inside and outside, how many cells are empty.
#[derive(Debug, Clone, PartialEq, Eq)]
pub struct Measured {
    pub shape: Shape,
    pub heights: Vec<u64>,
    pub volume: u64,
    pub inside: u64,
    pub outside: u64,
    pub empty: u64,
}

/// The whole number that is nearest, halves away from zero.
pub fn nearest(number: f64) -> f64 {
    number.round()
}

/// The same by whole numbers, from the bits, where it is below 2^63 in size.
pub fn nearest_by_bits(number: f64) -> Option<i64> {
    let bits = number.to_bits();
    let (exponent, fraction) = ((bits >> 52) as i32 & 0x7FF, bits & ((1 << 52) - 1));
    // the number's size is whole * 2^power
    let (whole, power) = if exponent == 0 { (fraction, -1074) } else { (fraction | 1 << 52, exponent - 1075) };
    let size = match power {
        0..=10 => whole << power,
        // below a half
        ..=-54 => 0,
        -53..=-1 => (whole + (1 << (-power - 1))) >> -power,
        _ => return None,
    };
    Some(if number.is_sign_negative() { -(size as i64) } else { size as i64 })
}

/// A coordinate in millimetres, where it is finite and not too far.
fn millimetres(metres: f64) -> Option<i64> {
    let nearest = nearest(metres * 1000.0);
    (nearest.abs() <= FARTHEST as f64).then_some(nearest as i64)
}

/// A point in millimetres.
type Spot = [i64; 3];

/// The points whose coordinates are these, where each has all three and none is unfit.
fn spots(xs: &[f64], ys: &[f64], zs: &[f64]) -> Option<Vec<Spot>> {
    if xs.len() != ys.len() || xs.len() != zs.len() {
        return None;
    }
    let spot = |((&x, &y), &z): ((&f64, &f64), &f64)| Some([millimetres(x)?, millimetres(y)?, millimetres(z)?]);
    xs.iter().zip(ys).zip(zs).map(spot).collect()
}

/// How many cells of this side lie between two edges, where there are some and nothing is left over.
fn cells_between(low: i64, high: i64, cell: usize) -> Option<usize> {
    let side = usize::try_from(high - low).ok()?;
    (side > 0 && side % cell == 0).then_some(side / cell)
}

/// The grid over a rectangle.
pub fn shape(ground: &Ground) -> Result<Shape, u32> {
    let Ground { left, right, top, bottom, cell, floor } = *ground;
    if !(CELL_LEAST..=CELL_MOST).contains(&cell) {
        return Err(51);
    }
    if [left, right, top, bottom, floor].iter().any(|number| !(-FARTHEST..=FARTHEST).contains(number)) {
        return Err(52);
    }
    let (columns, rows) = cells_between(left, right, cell).zip(cells_between(top, bottom, cell)).ok_or(53u32)?;
    let shape = Shape { columns, rows };
    if shape.cells() > CELLS_MOST { Err(54) } else { Ok(shape) }
}

/// The greatest height of the points in each cell, and none where there is no point; and how many points are in no cell.
fn highest(spots: &[Spot], ground: &Ground, shape: Shape) -> (Vec<Option<u64>>, u64) {
    let mut cells = vec![None; shape.cells()];
    let mut outside = 0;
    for &[x, y, z] in spots {
        if (ground.left..ground.right).contains(&x) && (ground.top..ground.bottom).contains(&y) {
            let (column, row) = ((x - ground.left) as usize / ground.cell, (y - ground.top) as usize / ground.cell);
            let height = (ground.floor - z).max(0) as u64;
            // none is less than any height
            let cell = &mut cells[row * shape.columns + column];
            *cell = (*cell).max(Some(height));
        } else {
            outside += 1;
        }
    }
    (cells, outside)
}

/// The heap of some points. The refusals are in the order of their numbers: the least of those that apply is answered.
pub fn measure(xs: &[f64], ys: &[f64], zs: &[f64], ground: &Ground) -> Result<Measured, u32> {
    let (shape, spots) = match (shape(ground), spots(xs, ys, zs).ok_or(52)) {
        (Ok(shape), Ok(spots)) => (shape, spots),
        (Err(one), Err(other)) => return Err(one.min(other)),
        (Err(one), Ok(_)) | (Ok(_), Err(one)) => return Err(one),
    };
    let (cells, outside) = highest(&spots, ground, shape);
    let heights: Vec<u64> = cells.iter().map(|cell| cell.unwrap_or(0)).collect();
    // at most 200 m in each direction, that is 8 * 10^15
    let volume = heights.iter().map(|height| height * (ground.cell * ground.cell) as u64).sum();
    let empty = cells.iter().filter(|cell| cell.is_none()).count() as u64;
    Ok(Measured { shape, heights, volume, inside: spots.len() as u64 - outside, outside, empty })
}

#[cfg(test)]
mod tests {
    use super::*;

    /// The farthest in metres.
    const FAR: f64 = FARTHEST as f64 / 1000.0;

    /// Three columns and two rows of 10 mm, the floor at 1 m.
    const SMALL: Ground = Ground { left: -10, right: 20, top: 0, bottom: 20, cell: 10, floor: 1000 };

    fn measured(points: &[[f64; 3]], ground: &Ground) -> Result<Measured, u32> {
        let list = |i: usize| points.iter().map(|point| point[i]).collect::<Vec<f64>>();
        measure(&list(0), &list(1), &list(2), ground)
    }

    /// The heights, the volume, and the points inside, outside and the empty cells.
    fn figures(points: &[[f64; 3]], ground: &Ground) -> (Vec<u64>, u64, [u64; 3]) {
        let Measured { heights, volume, inside, outside, empty, .. } = measured(points, ground).expect("accepted");
        (heights, volume, [inside, outside, empty])
    }

    #[test]
    fn halves_go_away_from_zero() {
        let by_hand = [
            (0.0, 0), (-0.0, 0), (0.25, 0), (0.5, 1), (-0.5, -1), (0.49999999999999994, 0), (-0.49999999999999994, 0), (0.75, 1), (1.5, 2),
            (2.5, 3), (-2.5, -3), (2.4999999999999996, 2), (2.5000000000000004, 3), (99_999.5, 100_000), (100_000.49999999999, 100_000),
            (-100_000.5, -100_001), (4503599627370495.5, 4503599627370496), (4503599627370497.0, 4503599627370497),
            (9223372036854774784.0, 9223372036854774784), (f64::MIN_POSITIVE, 0), (5e-324, 0), (-5e-324, 0),
        ];
        for (number, whole) in by_hand {
            assert_eq!(nearest(number), whole as f64, "{number:e}");
            assert_eq!(nearest_by_bits(number), Some(whole), "{number:e}");
        }
        for number in [9223372036854775808.0, -9223372036854775808.0, 1e306, f64::INFINITY, f64::NEG_INFINITY, f64::NAN] {
            assert_eq!(nearest_by_bits(number), None, "{number:e}");
        }
    }

    #[test]
    fn metres_become_millimetres() {
        let by_hand = [
            (1.0, Some(1000)), (0.0005, Some(1)), (-0.0005, Some(-1)), (0.00049999, Some(0)), (-0.0, Some(0)), (5e-324, Some(0)),
            (FAR, Some(FARTHEST)), (-FAR, Some(-FARTHEST)), (FAR + 0.0004, Some(FARTHEST)), (-FAR - 0.0004, Some(-FARTHEST)),
            (FAR + 0.0005, None), (-FAR - 0.0005, None), (FAR + 0.001, None), (1e306, None), (f64::MAX, None), (f64::INFINITY, None),
            (f64::NEG_INFINITY, None), (f64::NAN, None),
            // the f64 product is what is rounded: 5.5 of a number just below 0.0055, but less than 500.5 of one just below 0.5005
            (0.0055, Some(6)), (0.5005, Some(500)), (0.0025, Some(3)), (1.0005, Some(1001)),
        ];
        for (metres, expected) in by_hand {
            assert_eq!(millimetres(metres), expected, "{metres:e}");
        }
    }

    #[test]
    fn low_edges_are_inside_and_high_edges_outside() {
        let corners = [[-0.01, 0.0, 0.9], [0.019, 0.019, 0.8]];
        assert_eq!(figures(&corners, &SMALL), (vec![100, 0, 0, 0, 0, 200], 30_000, [2, 0, 4]));
        let beyond = [[-0.011, 0.0, 0.9], [0.02, 0.019, 0.8], [0.0, -0.001, 0.9], [0.0, 0.02, 0.9]];
        assert_eq!(figures(&beyond, &SMALL), (vec![0; 6], 0, [0, 4, 6]));
        // half a millimetre less rounds onto the edge, and half a millimetre more beyond it
        assert_eq!(figures(&[[-0.0104, -0.0004, 0.9], [0.0195, 0.0, 0.9]], &SMALL), (vec![100, 0, 0, 0, 0, 0], 10_000, [1, 1, 5]));
    }

    #[test]
    fn a_border_belongs_to_the_cell_behind_it() {
        let borders = [[0.0, 0.0, 0.9], [0.01, 0.0, 0.8], [-0.001, 0.01, 0.7], [0.0, 0.01, 0.6], [0.009, 0.009, 0.95]];
        assert_eq!(figures(&borders, &SMALL), (vec![0, 100, 200, 300, 400, 0], 100_000, [5, 0, 2]));
    }

    #[test]
    fn the_greatest_height_stays_in_any_order() {
        let mut points = [[0.0, 0.0, 0.9], [0.001, 0.001, 0.8], [0.002, 0.0, 1.5], [0.003, 0.0, 0.85]];
        for _ in 0..points.len() {
            assert_eq!(figures(&points, &SMALL), (vec![0, 200, 0, 0, 0, 0], 20_000, [4, 0, 5]));
            points.rotate_left(1);
        }
    }

    #[test]
    fn a_cell_whose_points_lie_below_the_floor_is_not_empty() {
        let points = [[0.0, 0.0, 1.0], [0.01, 0.0, 1.001], [0.0, 0.01, 1.0005], [0.01, 0.01, 0.9995], [-0.01, 0.0, 0.9994]];
        assert_eq!(figures(&points, &SMALL), (vec![1, 0, 0, 0, 0, 0], 100, [5, 0, 1]));
        assert_eq!(figures(&[], &SMALL), (vec![0; 6], 0, [0, 0, 6]));
    }

    #[test]
    fn the_largest_heap() {
        let far = FARTHEST;
        let ground = Ground { left: -far, right: far, top: -far, bottom: far, cell: CELL_MOST, floor: far };
        let place = |i: usize| i as f64 * 10.0 - FAR;
        let points: Vec<[f64; 3]> = (0..400).map(|i| [place(i % 20), place(i / 20), -FAR]).collect();
        assert_eq!(figures(&points, &ground), (vec![200_000; 400], 8_000_000_000_000_000, [400, 0, 0]));
    }

    #[test]
    fn shapes() {
        assert_eq!(shape(&SMALL), Ok(Shape { columns: 3, rows: 2 }));
        let square = |side, cell| Ground { left: 0, right: side, top: 0, bottom: side, cell, floor: 0 };
        let (columns, rows) = (CELLS_MOST.isqrt(), CELLS_MOST.isqrt());
        assert_eq!(columns * rows, CELLS_MOST);
        let most = square((columns * CELL_LEAST) as i64, CELL_LEAST);
        assert_eq!(shape(&most), Ok(Shape { columns, rows }));
        assert_eq!(shape(&Ground { right: most.right + CELL_LEAST as i64, ..most }), Err(54));
        assert_eq!(shape(&square(FARTHEST, CELL_MOST)), Ok(Shape { columns: 10, rows: 10 }));
    }

    #[test]
    fn refusals_in_their_order() {
        let far = i64::MAX;
        let by_hand = [
            (Ground { cell: CELL_LEAST - 1, ..SMALL }, 51),
            (Ground { cell: CELL_MOST + 1, ..SMALL }, 51),
            (Ground { cell: 0, left: far, right: 0, ..SMALL }, 51),
            (Ground { cell: usize::MAX, ..SMALL }, 51),
            (Ground { left: -FARTHEST - 1, ..SMALL }, 52),
            (Ground { right: FARTHEST + 1, ..SMALL }, 52),
            (Ground { top: i64::MIN, ..SMALL }, 52),
            (Ground { bottom: far, ..SMALL }, 52),
            (Ground { floor: -FARTHEST - 1, right: -10, ..SMALL }, 52),
            (Ground { right: -10, ..SMALL }, 53),
            (Ground { right: -20, ..SMALL }, 53),
            (Ground { right: 21, ..SMALL }, 53),
            (Ground { bottom: 0, ..SMALL }, 53),
            (Ground { bottom: 19, right: 90_000, ..SMALL }, 53),
            (Ground { right: 90_000, bottom: 90_000, ..SMALL }, 54),
        ];
        for (ground, refusal) in by_hand {
            assert_eq!(shape(&ground), Err(refusal), "{ground:?}");
            assert_eq!(measured(&[[0.0, 0.0, 0.9]], &ground), Err(refusal), "{ground:?}");
            assert_eq!(measured(&[[0.0, f64::NAN, 0.9]], &ground), Err(refusal.min(52)), "{ground:?}");
        }
        assert_eq!(measured(&[[0.0, 0.0, 0.9], [0.0, 0.0, FAR + 0.001]], &SMALL), Err(52));
        assert_eq!(measure(&[0.0], &[0.0], &[], &SMALL), Err(52));
        assert_eq!(measure(&[0.0], &[], &[0.0], &SMALL), Err(52));
        assert_eq!(measure(&[], &[0.0], &[0.0], &SMALL), Err(52));
    }
}
