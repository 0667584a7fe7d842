//! Each wrapper that asks for memory on one small sound input, and the sizes of the buffers that it needs.
use plombrisa::{
    Error, Intrinsics, Kind, Map, Options, Picture, PointRecord, RowIndex, RowRecord, Site, check_vendor, heap_volume, match_block, points,
    raw_volume, read_pfm, read_pgm, read_sheet, write_pfm, write_sheet,
};

const WIDTH: usize = 5;
const HEIGHT: usize = 3;
const AREA: usize = WIDTH * HEIGHT;
const COUNT: usize = 2;

/// The worked example of document 01, which every machine has memory for.
pub const LEFT: Picture = Picture { bytes: &[9, 1, 4, 7, 2, 9, 1, 4, 7, 2, 9, 1, 4, 7, 2], width: WIDTH, height: HEIGHT };
pub const RIGHT: Picture = Picture { bytes: &[1, 4, 7, 2, 5, 1, 4, 7, 2, 5, 1, 4, 7, 2, 5], width: WIDTH, height: HEIGHT };

pub const CAMERA: Intrinsics = Intrinsics { fx: 10.0, fy: 10.0, cx: 2.0, cy: 1.0, baseline: 0.5 };
pub const SITE: Site = Site { left: 0, right: 1000, top: 0, bottom: 500, cell: 500, floor: 3000 };

/// A map with three cells that give a point.
const MAP: Map = Map { cells: &[1.0, f32::NAN, 2.0, -1.0, 0.0, 3.0], width: 3, height: 2 };

const PGM: &[u8] = b"P5 3 2 255\nabcdef";
const PFM: &[u8] = b"Pf\n1 1\n-1.0\n\x00\x00\x80\x40";
const SHEET: &[u8] = &[1, 0, 2, 2, 0, 9, 2, 1];

pub fn options(semi_global: bool) -> Options {
    Options { num_disparities: COUNT as i32, block_size: 3, semi_global, ..Options::default() }
}

fn point(x: f64) -> PointRecord {
    PointRecord { x, y: 0.25, z: 2.5, ..PointRecord::default() }
}

/// A call: its name, what it answers but for the value, and the bytes of each of its buffers.
pub struct Call {
    pub name: &'static str,
    pub call: fn() -> Result<(), Error>,
    pub buffers: Vec<usize>,
}

/// The bytes of the whole-number room by document 01: 5(w+1)(h+1) cells.
const WHOLE_ROOM: usize = size_of::<u64>() * 5 * (WIDTH + 1) * (HEIGHT + 1);

/// The bytes of so many volumes and maps of f32.
const fn floats(volumes: usize, maps: usize) -> usize {
    size_of::<f32>() * (volumes * COUNT + maps) * AREA
}

/// The calls on two pictures.
fn of_pictures() -> [Call; 5] {
    let call = |name, call, buffers: &[usize]| Call { name, call, buffers: buffers.to_vec() };
    [
        call("a block map", || match_block(LEFT, RIGHT, &options(false)).map(drop), &[floats(0, 1), WHOLE_ROOM, floats(1, 1)]),
        call("a semi-global map", || match_block(LEFT, RIGHT, &options(true)).map(drop), &[floats(0, 1), WHOLE_ROOM, floats(3, 1)]),
        call("a raw volume", || raw_volume(LEFT, RIGHT, &options(false), false).map(drop), &[floats(1, 0), WHOLE_ROOM]),
        call("a raw volume from the right", || raw_volume(LEFT, RIGHT, &options(false), true).map(drop), &[floats(1, 0), WHOLE_ROOM]),
        call(
            "a vendor's map",
            || check_vendor(LEFT, RIGHT, &options(false), Map { cells: &[f32::NAN; AREA], width: WIDTH, height: HEIGHT }).map(drop),
            &[WHOLE_ROOM],
        ),
    ]
}

/// The calls on maps, points and files.
fn of_others() -> [Call; 8] {
    let call = |name, call, buffers: &[usize]| Call { name, call, buffers: buffers.to_vec() };
    let coordinates = 2 * size_of::<f64>();
    [
        call("points", || points(MAP, &CAMERA).map(drop), &[3 * size_of::<PointRecord>()]),
        call(
            "a heap",
            || heap_volume(&[point(0.25), point(0.75)], &SITE).map(drop),
            &[coordinates, coordinates, coordinates, 2 * size_of::<u64>()],
        ),
        call("a row index", || RowIndex::fresh(MAP).map(drop), &[MAP.height * size_of::<RowRecord>()]),
        call("PGM read", || read_pgm(PGM).map(drop), &[3 * 2]),
        call("PFM read", || read_pfm(PFM).map(drop), &[size_of::<f32>()]),
        call("PFM written", || write_pfm(Map { cells: &[4.0], width: 1, height: 1 }).map(drop), &[PFM.len()]),
        call("a sheet read", || read_sheet(SHEET).map(drop), &[4 * size_of::<f32>()]),
        call(
            "a sheet written",
            || write_sheet(Map { cells: &[f32::NAN, 4.0, -1.0, 0.0], width: 2, height: 2 }, Kind::Whole).map(drop),
            &[SHEET.len()],
        ),
    ]
}

/// All of them.
pub fn calls() -> impl Iterator<Item = Call> {
    of_pictures().into_iter().chain(of_others())
}
