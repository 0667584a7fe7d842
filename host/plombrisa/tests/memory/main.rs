//! The memory that the wrappers ask for: nothing before the library has judged the input, all of it before any is written to, and an error
//! with the bytes where it cannot be had.
mod calls;
mod watched;

use calls::{CAMERA, LEFT, RIGHT, SITE, calls, options};
use plombrisa::{
    Error, Kind, Map, Options, Picture, PointRecord, Refusal, RowIndex, Site, check_vendor, float_cells, heap_shape, heap_volume,
    match_block, match_bytes, points, raw_volume, read_pfm, read_pgm, read_sheet, whole_cells, write_pfm, write_sheet,
};
use runs::limits::{COUNT_MOST, SIDE_MOST};
use runs::program::program_at;
use std::fs::read_to_string;
use std::io::Write;
use std::process::Command;
use watched::{Asked, granted};

#[test]
fn a_sound_call_asks_for_its_buffers_and_nothing_else() {
    for call in calls() {
        let (answer, asked) = granted(usize::MAX, call.call);
        assert_eq!(answer, Ok(()), "{}", call.name);
        let bytes = call.buffers.iter().sum::<usize>() as u64;
        assert_eq!((asked.requests, asked.bytes), (call.buffers.len(), bytes), "{}", call.name);
        assert_eq!(asked.given_back, asked.requests, "{}", call.name);
    }
}

#[test]
fn a_buffer_that_cannot_be_had_is_an_error_with_the_bytes_of_all() {
    for call in calls() {
        let bytes = call.buffers.iter().sum::<usize>() as u64;
        for had in 0..call.buffers.len() {
            let (answer, asked) = granted(had, call.call);
            assert_eq!(answer, Err(Error::Memory { bytes }), "{} with {had} buffers", call.name);
            // nothing is asked after that, what was had is given back, and none of it was written to
            let should = Asked { requests: had + 1, bytes: asked.bytes, given_back: had, written: 0 };
            assert_eq!(asked, should, "{} with {had} buffers", call.name);
        }
    }
}

/// A call's number, which must have asked for no memory.
fn number_without_memory<T>(call: impl FnOnce() -> Result<T, Error>) -> Option<u32> {
    let (answer, asked) = granted(0, || call().map(drop));
    assert_eq!(asked, Asked::default());
    answer.err().and_then(Error::refusal).map(Refusal::number)
}

/// The numbers of the calls on two pictures and on a map that are said to have this size and have no cell.
fn numbers_of_empty(side: usize) -> [Option<u32>; 7] {
    let largest = Options { num_disparities: COUNT_MOST, semi_global: true, ..Options::default() };
    let picture = Picture { bytes: &[], width: side, height: side };
    let map = Map { cells: &[], width: side, height: side };
    [
        number_without_memory(|| match_block(picture, picture, &largest)),
        number_without_memory(|| raw_volume(picture, picture, &largest, false)),
        number_without_memory(|| check_vendor(picture, picture, &largest, map)),
        number_without_memory(|| points(map, &CAMERA)),
        number_without_memory(|| RowIndex::fresh(map)),
        number_without_memory(|| write_pfm(map)),
        number_without_memory(|| write_sheet(map, Kind::Exact)),
    ]
}

#[test]
fn empty_slices_that_claim_a_size_are_refused_without_memory() {
    let [pictures, maps] = [Some(2), Some(23)];
    assert_eq!(numbers_of_empty(SIDE_MOST), [pictures, pictures, pictures, maps, maps, maps, maps]);
    let [pictures, maps] = [Some(1), Some(23)];
    for side in [0, SIDE_MOST + 1, 1 << 32, usize::MAX] {
        assert_eq!(numbers_of_empty(side), [pictures, pictures, pictures, maps, maps, maps, maps], "{side}");
    }
}

#[test]
fn options_that_are_refused_cost_no_memory() {
    let number = |options: Options| number_without_memory(|| match_block(LEFT, RIGHT, &options));
    let sound = options(true);
    assert_eq!(number(Options { block_size: usize::MAX - 1, ..sound }), Some(4));
    assert_eq!(number(Options { block_size: usize::MAX, ..sound }), Some(5));
    assert_eq!(number(Options { num_disparities: i32::MIN, ..sound }), Some(6));
    assert_eq!(number(Options { num_disparities: i32::MAX, ..sound }), Some(7));
    assert_eq!(number(Options { block_size: 7, ..sound }), Some(8));
    assert_eq!(number(Options { min_disparity: i32::MAX, ..sound }), Some(9));
    assert_eq!(number(Options { sgm_p1: f32::NAN, ..sound }), Some(10));
    assert_eq!(number(Options { sgm_p2: sound.sgm_p1 / 2.0, ..sound }), Some(13));
}

#[test]
fn files_that_claim_a_size_are_refused_without_memory() {
    assert_eq!(number_without_memory(|| read_pgm(b"P5 2048 2048 255\n")), Some(44));
    assert_eq!(number_without_memory(|| read_pgm(b"P5 99999999999999999999 1 255\n")), Some(43));
    assert_eq!(number_without_memory(|| read_pfm(b"Pf\n2048 2048\n-1.0\n")), Some(44));
    // version 1, kind 0, and 2,048 twice in groups of seven bits
    assert_eq!(number_without_memory(|| read_sheet(&[1, 0, 0x80, 0x10, 0x80, 0x10])), Some(34));
}

/// A point's fault, 52, comes before the site's own 53 and 54, wherever among the points it stands. The three lists of coordinates are
/// copied first, which the caller has in memory already; a grid is asked for where the site has one.
#[test]
fn points_over_a_site_are_judged_with_the_grid_that_it_has() {
    let near = PointRecord { x: 0.25, y: 0.25, z: 2.5, ..PointRecord::default() };
    let mut points = [near; 1000];
    let number = |points: &[PointRecord], site: Site| {
        let (answer, asked) = granted(usize::MAX, || heap_volume(points, &site));
        let grid = heap_shape(&site).map_or(0, |(columns, rows)| size_of::<u64>() * columns * rows);
        assert_eq!(asked.bytes, (3 * size_of::<f64>() * points.len() + grid) as u64);
        answer.err().and_then(Error::refusal).map(Refusal::number)
    };
    let uneven = Site { right: SITE.right + 1, ..SITE };
    let many = Site { right: 100_000, bottom: 100_000, cell: 10, ..SITE };
    for some in [&points[..0], &points[..1], &points[..]] {
        assert_eq!([Site { cell: 0, ..SITE }, uneven, many].map(|site| number(some, site)), [Some(51), Some(53), Some(54)]);
        assert_eq!(number(some, Site { floor: i64::MIN, ..SITE }), Some(52));
    }
    for at in [0, 255, 256, 257, 999] {
        points[at].y = f64::NAN;
        assert_eq!([SITE, uneven, many].map(|site| number(&points, site)), [Some(52); 3], "point {at}");
        assert_eq!(number(&points, Site { cell: 0, ..SITE }), Some(51), "point {at}");
        points[at] = near;
    }
}

#[test]
fn a_map_without_a_point_needs_no_list() {
    let (list, asked) = granted(0, || points(Map { cells: &[f32::NAN, 0.0, -4.0], width: 3, height: 1 }, &CAMERA));
    assert_eq!((list.map(|list| list.len()), asked), (Ok(0), Asked::default()));
}

/// A sum of products, or nothing where a u128 does not hold it.
fn exactly(products: &[&[u128]]) -> Option<u128> {
    let product = |factors: &&[u128]| {
        if factors.contains(&0) { Some(0) } else { factors.iter().try_fold(1u128, |all, factor| all.checked_mul(*factor)) }
    };
    products.iter().map(product).try_fold(0u128, |all, product| all.checked_add(product?))
}

/// What a saturating answer is: the exact number, or the greatest that there is.
fn saturated(exact: Option<u128>) -> u64 {
    exact.and_then(|exact| u64::try_from(exact).ok()).unwrap_or(u64::MAX)
}

/// The greatest numbers beside small ones: nothing goes round, in a build that would not panic either.
#[test]
fn the_cells_and_bytes_of_any_size_saturate() {
    let sides = [0, 1, 2, 640, SIDE_MOST, 1 << 31, 1 << 32, usize::MAX / 5, usize::MAX - 1, usize::MAX];
    let of_three = |i: usize| [sides[i % 10], sides[i / 10 % 10], sides[i / 100]];
    for [width, height, count] in (0..1000).map(of_three) {
        let [w, h, n] = [width, height, count].map(|number| number as u128);
        let whole = saturated(exactly(&[&[5, w + 1, h + 1]]));
        assert_eq!(whole_cells(width, height) as u64, whole, "{width} by {height}");
        for (semi_global, volumes) in [(false, 1), (true, 3)] {
            let float = saturated(exactly(&[&[volumes, n, w, h], &[w, h]]));
            assert_eq!(float_cells(width, height, count, semi_global) as u64, float, "{width} by {height} by {count}");
            let bytes = saturated(exactly(&[&[4, w, h], &[8, 5, w + 1, h + 1], &[4, volumes, n, w, h], &[4, w, h]]));
            assert_eq!(match_bytes(width, height, count, semi_global), bytes, "{width} by {height} by {count}");
        }
    }
}

/// What the process may take of memory in the test below, in kilobytes: enough for all but the largest match.
const LIMIT_KILOBYTES: u64 = 1 << 20;

/// The soft limit on this process's memory in bytes, as the system says it.
fn limit_of_memory() -> Option<u64> {
    let limits = read_to_string("/proc/self/limits").expect("the system's limits");
    let line = limits.lines().find(|line| line.starts_with("Max address space")).expect("the limit on memory");
    line.split_whitespace().nth(3).expect("the soft limit").parse().ok()
}

#[test]
#[ignore = "it needs a limit on its memory, and is started with one by the test below"]
fn the_largest_match_under_a_limit() {
    assert_eq!(limit_of_memory(), Some(LIMIT_KILOBYTES * 1024), "the process has not the limit that this test needs");
    let bytes = vec![7; SIDE_MOST * SIDE_MOST];
    let picture = Picture { bytes: &bytes, width: SIDE_MOST, height: SIDE_MOST };
    let largest = Options { num_disparities: COUNT_MOST, semi_global: true, ..Options::default() };
    let needed = match_bytes(SIDE_MOST, SIDE_MOST, COUNT_MOST as usize, true);
    assert!(needed > LIMIT_KILOBYTES * 1024);
    assert_eq!(match_block(picture, picture, &largest), Err(Error::Memory { bytes: needed }));
    // the process goes on
    assert_eq!(match_block(Picture { bytes: &[], ..picture }, picture, &largest), Err(Error::Refused(Refusal::ByteCount)));
    assert!(match_block(LEFT, RIGHT, &options(true)).is_ok());
}

#[test]
fn the_largest_match_is_an_error_and_no_abort() {
    let itself = std::env::current_exe().expect("this program");
    let program = program_at(&itself);
    if program.get_program() != itself {
        // not a word of the test harness's, which would keep it to itself
        let said = "NOT TRIED: the largest match under a limit on memory; the emulator needs more than the limit for itself\n";
        std::io::stderr().write_all(said.as_bytes()).expect("standard error");
        return;
    }
    let output = Command::new("sh")
        .args(["-c", &format!("ulimit -v {LIMIT_KILOBYTES} && exec \"$@\""), "sh"])
        .arg(itself)
        .args(["--exact", "the_largest_match_under_a_limit", "--ignored"])
        .output()
        .expect("a shell");
    let printed = String::from_utf8_lossy(&output.stdout);
    assert!(output.status.success() && printed.contains(" 1 passed"), "{}: {printed}", output.status);
}
