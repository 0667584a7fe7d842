//! What a person may want to look at: hints on standard error, which change no answer.
use crate::heights::millimetres;
use plombrisa::limits::FARTHEST;
use plombrisa::{Intrinsics, Map, Options, Picture, PointRecord, Site, cover, match_block};

/// Of 1000 cells, how few borne out by the pictures are a reason to say so.
pub const FEW: u64 = 300;

/// How many of 1000 cells a clerk's map of a pair has; none where it cannot be made.
fn borne_out(left: Picture, right: Picture, options: &Options) -> Option<u64> {
    let cells = match_block(left, right, options).ok()?;
    cover(Map { cells: &cells, width: left.width, height: left.height }, options.block_size).ok()
}

/// What the pictures say against the way they were matched. A semi-global map has a figure nearly everywhere, so it is judged by the
/// block map of its search with the usual gates.
pub fn of_pair(left: Picture, right: Picture, options: &Options, map: Map) -> Option<String> {
    let Options { min_disparity, num_disparities, block_size, .. } = *options;
    let block = Options { min_disparity, num_disparities, block_size, ..Options::default() };
    let seen = if options.semi_global { borne_out(left, right, &block)? } else { cover(map, block_size).ok()? };
    if seen >= FEW {
        return None;
    }
    let exchanged = borne_out(right, left, &block)?;
    Some(if exchanged >= FEW && exchanged > 2 * seen {
        format!("the two pictures look exchanged: {seen} of 1000 cells are borne out by them as they are, {exchanged} the other way round")
    } else {
        let last = i64::from(min_disparity) + i64::from(num_disparities) - 1;
        format!(
            "only {seen} of 1000 cells are borne out by the pictures: the search, disparities {min_disparity} to {last}, may not fit the \
             rig, or the pictures may not be a rectified pair"
        )
    })
}

/// Whether a point is too far for a measurement.
fn too_far(point: &PointRecord) -> bool {
    let far = |coordinate: f64| coordinate.is_nan() || millimetres(coordinate).abs() > FARTHEST as f64;
    [point.x, point.y, point.z].into_iter().any(far)
}

/// The least whole disparity at which no pixel of a map gives a point that is too far.
fn near_enough(camera: &Intrinsics, width: usize, height: usize) -> f64 {
    let Intrinsics { fx, fy, cx, cy, baseline } = *camera;
    let aside = |middle: f64, side: usize| middle.abs().max((side as f64 - 1.0 - middle).abs());
    let (across, down) = (aside(cx, width), aside(cy, height) * fx / fy);
    (baseline * fx.max(across).max(down) / (FARTHEST as f64 / 1000.0)).ceil()
}

/// Why a measurement was refused for a distance (52), and which option helps.
pub fn of_distance(points: &[PointRecord], site: &Site, camera: &Intrinsics, width: usize, height: usize) -> String {
    let Site { left, right, top, bottom, floor, .. } = *site;
    if let Some(edge) = [left, right, top, bottom, floor].into_iter().find(|edge| edge.unsigned_abs() > FARTHEST as u64) {
        return format!("{edge} mm is farther than {} m", FARTHEST / 1000);
    }
    let count = points.iter().filter(|point| too_far(point)).count();
    format!(
        "{count} of {} points lie beyond {} m; --min-disparity {} leaves them out of the search",
        points.len(), FARTHEST / 1000, near_enough(camera, width, height),
    )
}
