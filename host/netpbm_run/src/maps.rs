//! Maps to be written: good ones with cells of every kind, and unfit ones.
use runs::limits::SIDE_MOST;
use runs::maps::MadeMap;
use runs::recipes::Recipe;
use runs::rng::Rng;
use runs::sizes;

/// A number that is finite or not: any bits, those at which a class of numbers ends, subnormal ones, and plain ones.
pub fn number(rng: &mut Rng) -> f32 {
    let sign = rng.pick(&[0, 0x8000_0000]);
    let ends = [0, 1, 2, 0x007F_FFFF, 0x0080_0000, 0x0080_0001, 0x3F80_0000, 0x7F7F_FFFF, 0x7F80_0000];
    f32::from_bits(match rng.below(5) {
        0 => sign | rng.pick(&ends),
        1 => sign | rng.below(0x0080_0000) as u32,
        2 => rng.next() as u32,
        // each byte says where it belongs
        3 => 0x0102_0304,
        _ => (rng.within(-200, 1000) as f32 / 8.0).to_bits(),
    })
}

/// Good maps with sides where the number of digits changes, to the longest; few, for they are long.
fn wide(map: &mut MadeMap, rng: &mut Rng) {
    if !rng.one_in(20) {
        return map.good(rng);
    }
    let long = rng.pick(&[9, 10, 99, 100, 999, 1000, SIDE_MOST - 1, SIDE_MOST]);
    let (width, height) = sizes::narrow(rng, long);
    map.good_of(rng, width, height);
}

fn spoil_output(map: &mut MadeMap, rng: &mut Rng) {
    map.shorten_output(rng, &[1, 1, 2, 3, 4, 5, 13, 20]);
}

pub const RECIPES: [Recipe<MadeMap>; 5] = [
    ("maps", &[MadeMap::good]),
    ("maps, some with a side to the longest", &[wide]),
    ("maps whose size or length is unfit", &[MadeMap::good, MadeMap::spoil_size]),
    ("maps with too little room for the file", &[MadeMap::good, spoil_output]),
    ("maps with both faults", &[MadeMap::good, MadeMap::spoil_size, spoil_output]),
];
