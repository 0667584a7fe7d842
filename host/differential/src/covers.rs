//! A map's cover figure, held to the words of W-202: the Rust has none.
use crate::maps::{Cells, blank, cells, equal, said};
use plombrisa::{cover, cover_in};
use runs::limits::{BLOCK_MOST, SIDE_MOST};
use runs::refusals::cover_refusal;
use runs::rng::Rng;

/// A map, and the side of the block whose frame it has.
#[derive(Debug)]
pub struct Covered {
    map: Cells,
    block: usize,
}

/// A size that blocks of every side fit into, or do not.
fn size(rng: &mut Rng) -> (usize, usize) {
    match rng.below(40) {
        0 => (SIDE_MOST, 1 + rng.below(BLOCK_MOST + 2)),
        1 => (1 + rng.below(BLOCK_MOST + 2), SIDE_MOST),
        _ => (1 + rng.below(40), 1 + rng.below(40)),
    }
}

/// A block's side: one that matching takes, one beside a limit, or one that is just too large for the map.
fn side(rng: &mut Rng, width: usize, height: usize) -> usize {
    match rng.below(4) {
        0 => rng.pick(&[0, 1, 2, BLOCK_MOST - 1, BLOCK_MOST, BLOCK_MOST + 1, BLOCK_MOST + 2]),
        1 => rng.pick(&[width, width + 1, width + 2, height, height + 1, height + 2]),
        2 => rng.pick(&[SIDE_MOST - 1, SIDE_MOST + 1, 1 << 32, (1 << 63) + 1, usize::MAX - 1, usize::MAX]),
        _ => 1 + 2 * rng.below(1 + BLOCK_MOST / 2),
    }
}

/// Whether cell i lies r or more from every edge, in the words of the request.
fn inside(width: usize, height: usize, r: usize, i: usize) -> bool {
    let within = |at: usize, n: usize| r <= at && at + r < n;
    within(i % width, width) && within(i / width, height)
}

/// A map and a block: cells of any kind, valid ones in the frame alone, holes in the frame alone, or that and one hole more inside.
pub fn covered(rng: &mut Rng) -> Covered {
    let (width, height) = size(rng);
    let block = side(rng, width, height);
    let (r, n) = (block / 2, width * height);
    let mut map = Cells { cells: cells(rng, n), width, height };
    let recipe = rng.below(4);
    for i in 0..n {
        let valid = match recipe {
            0 => continue,
            1 => !inside(width, height, r.min(n), i),
            _ => inside(width, height, r.min(n), i),
        };
        map.cells[i] = if valid { 0.25 * i as f32 } else { blank(rng) };
    }
    if recipe == 3 {
        map.cells[rng.below(n)] = blank(rng);
    }
    map.spoil(rng);
    Covered { map, block }
}

/// The answer, and the lent number: worked out cell by cell, or left as it was.
pub fn check(case: &Covered) -> Result<u32, String> {
    let Covered { map, block } = case;
    let number = cover_refusal(map.cells.len(), map.width, map.height, *block);
    let was = 0xA5A5_0000_1111_2222;
    let mut permille = was;
    said("cover", cover_in(map.lent(), *block, &mut permille), number)?;
    if number != 0 {
        equal("cover of a refused map", permille, was)?;
        return Ok(number);
    }
    let r = block / 2;
    let valid = |i: &usize| map.cells[*i].is_finite() && inside(map.width, map.height, r, *i);
    let all = (map.width - 2 * r) * (map.height - 2 * r);
    let should = (1000 * (0..map.cells.len()).filter(valid).count() / all) as u64;
    equal("cover", permille, should)?;
    equal("cover", cover(map.lent(), *block), Ok(permille))?;
    Ok(0)
}
