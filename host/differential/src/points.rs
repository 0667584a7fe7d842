//! The point formula and the list of a map's points, on both sides.
use crate::maps::{Cells, map};
use crate::numbers::{beside, same, wide};
use oracle::rectification::{FxFyCxCy, StereoRectification};
use plombrisa::{Error, Intrinsics, PointRecord, points, points_in, rectified_point, rectified_point_in};
use runs::limits::{COUNT_MOST, SIDE_MOST};
use runs::rng::Rng;

#[derive(Debug)]
pub struct Formula {
    pub k: Intrinsics,
    pub x: f64,
    pub y: f64,
    pub disparity: f64,
}

#[derive(Debug)]
pub struct Listing {
    pub map: Cells,
    pub k: Intrinsics,
    /// How many records more or fewer than the points are lent.
    pub spare: isize,
}

fn rust(k: &Intrinsics) -> StereoRectification {
    StereoRectification { k_rect: FxFyCxCy { fx: k.fx, fy: k.fy, cx: k.cx, cy: k.cy }, baseline: k.baseline }
}

/// A camera as a site has one.
fn camera(rng: &mut Rng) -> Intrinsics {
    let about = |rng: &mut Rng, n: f64| n * (0.5 + rng.below(1 << 20) as f64 / (1 << 20) as f64);
    let (fx, fy) = (about(rng, 800.0), about(rng, 800.0));
    Intrinsics { fx, fy, cx: about(rng, 10.0), cy: about(rng, 8.0), baseline: about(rng, 0.125) }
}

/// Five numbers of every kind.
fn any_camera(rng: &mut Rng) -> Intrinsics {
    Intrinsics { fx: wide(rng), fy: wide(rng), cx: wide(rng), cy: wide(rng), baseline: wide(rng) }
}

/// A case of the formula: numbers of every kind, or a camera with one or two of them.
pub fn formula(rng: &mut Rng) -> Formula {
    if rng.one_in(3) {
        return Formula { k: any_camera(rng), x: wide(rng), y: wide(rng), disparity: wide(rng).abs() };
    }
    let (x, y) = (rng.below(SIDE_MOST) as f64, rng.below(SIDE_MOST) as f64);
    let disparity = rng.below(16 * COUNT_MOST as usize) as f64 / 16.0;
    let mut case = Formula { k: camera(rng), x, y, disparity };
    for _ in 0..rng.below(3) {
        let v = wide(rng);
        match rng.below(4) {
            0 => case.x = v,
            1 => case.y = v,
            2 => case.disparity = v,
            _ => case.k.baseline = v,
        }
    }
    case
}

/// A map and a camera; one in four with something wrong with the camera, and a list of about the right length.
pub fn listing(rng: &mut Rng) -> Listing {
    let mut case = Listing { map: map(rng), k: camera(rng), spare: rng.pick(&[0, 0, 3, 3, 40, -1]) };
    let unfit = rng.pick(&[0.0, -0.0, -1.0, f64::NAN, f64::INFINITY, f64::NEG_INFINITY, 1e-12]);
    let next = beside(rng, 1e-12);
    match rng.below(24) {
        0 => case.k.fx = unfit,
        1 => case.k.fy = unfit,
        2 => case.k.cx = unfit,
        3 => case.k.cy = unfit,
        4 => case.k.baseline = unfit,
        5 => case.k.baseline = next,
        6 => case.k = any_camera(rng),
        7 => {
            let k = any_camera(rng);
            case.k = Intrinsics { fx: k.fx.abs(), fy: k.fy.abs(), baseline: k.baseline.abs(), ..k };
        }
        _ => {}
    }
    case
}

impl Formula {
    /// By document 01's words, whether there is a point.
    pub fn kind(&self) -> &'static str {
        let some = self.disparity.is_finite() && self.disparity > 0.0 && self.x.is_finite() && self.y.is_finite();
        if some { "the point formula, a point" } else { "the point formula, no point" }
    }
}

/// The formula on one pixel and disparity; where there is no point, nothing is changed.
pub fn check_formula(case: &Formula) -> Result<u32, String> {
    let was = [-1.25, -2.5, -3.75];
    let [mut px, mut py, mut pz] = was;
    let is = rectified_point_in(&case.k, case.x, case.y, case.disparity, &mut px, &mut py, &mut pz);
    let point = rust(&case.k).point(case.x, case.y, case.disparity);
    if is != point.is_some() || rectified_point(&case.k, case.x, case.y, case.disparity).is_some() != is {
        return Err(format!("point formula: answered {is}"));
    }
    let should = point.map_or(was, |p| [p.x, p.y, p.z]);
    let got = [px, py, pz];
    if !got.iter().zip(should).all(|(a, b)| same(*a, b)) {
        return Err(format!("point formula: {got:?}, not {should:?}"));
    }
    Ok(0)
}

/// The records that document 01 asks for, by a plain loop over the Rust's formula.
fn records(case: &Listing) -> Vec<PointRecord> {
    let camera = rust(&case.k);
    let mut all = Vec::new();
    for (i, &c) in case.map.cells.iter().enumerate() {
        let (column, row, disparity) = (i % case.map.width, i / case.map.width, c as f64);
        if let Some(p) = camera.point(column as f64, row as f64, disparity) {
            all.push(PointRecord { x: p.x, y: p.y, z: p.z, column, row, disparity });
        }
    }
    all
}

fn same_record(a: &PointRecord, b: &PointRecord) -> bool {
    let numbers = |r: &PointRecord| [r.x, r.y, r.z, r.disparity];
    numbers(a).iter().zip(numbers(b)).all(|(v, w)| same(*v, w)) && (a.column, a.row) == (b.column, b.row)
}

/// The list of a map's points: the answer, the count, every record, and the records beyond.
pub fn check_list(case: &Listing) -> Result<u32, String> {
    let camera = rust(&case.k);
    let expected = if case.map.good() { records(case) } else { Vec::new() };
    let lent = expected.len().saturating_add_signed(case.spare);
    let should = match () {
        () if !camera.good_camera() => 21,
        () if !camera.good_baseline() => 22,
        () if !case.map.good() => 23,
        () if lent < expected.len() => 24,
        () => 0,
    };
    let mark = |i: usize| PointRecord { x: -1.0, y: i as f64, z: -2.0, column: i, row: 1 << 40, disparity: -3.0 };
    let mut list: Vec<PointRecord> = (0..lent).map(mark).collect();
    let mut count = 0xA5A5;
    let number = points_in(case.map.lent(), &case.k, &mut list, &mut count).map_or_else(|r| r.number(), |()| 0);
    if number != should {
        return Err(format!("points: answered {number}, document 01 has {should}"));
    }
    let written = if number == 0 { expected.as_slice() } else { &[] };
    if count != if number == 0 { written.len() as u64 } else { 0xA5A5 } {
        return Err(format!("points: the count is {count} for {} records", written.len()));
    }
    for (i, is) in list.iter().enumerate() {
        let should = written.get(i).copied().unwrap_or(mark(i));
        if !same_record(is, &should) {
            return Err(format!("points: record {i} is {is:?}, not {should:?}"));
        }
    }
    check_owned(case, &expected, if should == 24 { 0 } else { should })?;
    Ok(number)
}

/// The list that the wrapper asks memory for: what is refused but for the list's length, and every record.
fn check_owned(case: &Listing, expected: &[PointRecord], should: u32) -> Result<(), String> {
    match points(case.map.lent(), &case.k) {
        Err(Error::Refused(refusal)) if refusal.number() == should => Ok(()),
        Ok(all) if should == 0 && all.len() == expected.len() && all.iter().zip(expected).all(|(is, other)| same_record(is, other)) => {
            Ok(())
        }
        Ok(all) => Err(format!("points: a list of its own of {} records, document 01 has {should}", all.len())),
        Err(why) => Err(format!("points: with a list of its own {why}, document 01 has {should}")),
    }
}
