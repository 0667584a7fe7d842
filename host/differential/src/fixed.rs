//! Cases that random ones hardly ever reach. Each is compared like any other, and is shown here, by the Rust's own numbers, to be what
//! it claims: a case that has ceased to bite ends the run.
use crate::case::Case;
use crate::compare::{rust_map, rust_volume};
use plombrisa::Options;
use runs::pictures::textured_pair;
use runs::rng::Rng;

/// All of them, each with its kind.
pub fn cases() -> Vec<(&'static str, Case)> {
    let of = |kind: &'static str, cases: Vec<Case>| cases.into_iter().map(move |case| (kind, case));
    of("fixed cases: one root in place of two would show", ONE_ROOT.iter().map(one_root).collect())
        .chain(of("fixed cases: a margin at the uniqueness ratio, and one step below it", margins()))
        .chain(of("fixed cases: a block map's denominator at 1e-6", NEAR_LIMIT.iter().map(block_denominator).collect()))
        .chain(of("fixed cases: a semi-global map's denominator at 1e-6", semi_global_denominators()))
        .collect()
}

fn map_of(case: &Case) -> Vec<f32> {
    rust_map(case).expect("the Rust takes every fixed case")
}

/// Two windows, by rows.
struct Windows {
    left: &'static [u8],
    right: &'static [u8],
}

/// Windows of 9, 9, 25 and 49 pixels. Among random windows of nine, one pair in 10^9 is such.
const ONE_ROOT: [Windows; 4] = [
    Windows { left: &[133, 66, 182, 172, 7, 139, 27, 191, 125], right: &[27, 171, 235, 229, 28, 23, 51, 196, 225] },
    Windows { left: &[40, 95, 246, 27, 206, 149, 13, 120, 219], right: &[96, 198, 251, 85, 86, 147, 124, 197, 203] },
    Windows {
        left: &[
            102, 248, 20, 125, 196, 172, 176, 42, 225, 210, 143, 205, 82, 240, 60, 137, 169, 147, 45, 165, 244, 87, 85, 144, 138,
        ],
        right: &[3, 129, 17, 147, 157, 112, 218, 38, 226, 149, 220, 251, 33, 251, 147, 225, 204, 190, 100, 187, 251, 150, 120, 82, 65],
    },
    Windows {
        left: &[
            194, 31, 0, 122, 216, 218, 208, 57, 81, 69, 219, 198, 68, 94, 28, 167, 187, 52, 123, 110, 106, 213, 58, 184, 58, 205, 200, 101,
            195, 234, 134, 57, 42, 247, 6, 253, 68, 60, 60, 44, 54, 2, 111, 91, 246, 103, 228, 47, 163,
        ],
        right: &[
            227, 74, 113, 58, 161, 127, 144, 87, 132, 120, 252, 149, 139, 24, 69, 125, 133, 159, 126, 176, 33, 167, 184, 189, 151, 241,
            134, 185, 254, 177, 224, 33, 57, 178, 121, 215, 185, 121, 189, 76, 195, 105, 255, 109, 227, 139, 104, 113, 162,
        ],
    },
];

/// The two variances and the covariance of two windows, as the definition has them; whole numbers, exact in f64.
fn moments(windows: &Windows) -> (f64, f64, f64) {
    let pairs = || windows.left.iter().zip(windows.right).map(|(&a, &b)| (f64::from(a), f64::from(b)));
    let n = windows.left.len() as f64;
    let (sum_a, sum_b): (f64, f64) = (pairs().map(|(a, _)| a).sum(), pairs().map(|(_, b)| b).sum());
    let squares_a: f64 = pairs().map(|(a, _)| a * a).sum();
    let squares_b: f64 = pairs().map(|(_, b)| b * b).sum();
    let products: f64 = pairs().map(|(a, b)| a * b).sum();
    (n * squares_a - sum_a * sum_a, n * squares_b - sum_b * sum_b, n * products - sum_a * sum_b)
}

/// A pair of one window each, whose correlation has other bits where the root of the product is taken in place of the product of the
/// roots. The greater of the two is the least correlation that is asked for, so that the map shows the difference too.
fn one_root(windows: &Windows) -> Case {
    let (var_a, var_b, cov) = moments(windows);
    let two_roots = (cov / (var_a.sqrt() * var_b.sqrt())) as f32;
    let root_of_product = (cov / (var_a * var_b).sqrt()) as f32;
    assert_ne!(two_roots.to_bits(), root_of_product.to_bits(), "one root or two, the correlation is the same");
    let side = windows.left.len().isqrt();
    let min_correlation = two_roots.max(root_of_product);
    let options = Options { block_size: side, num_disparities: 1, min_correlation, lr_consistency: false, ..Options::default() };
    let case = Case::of(side, side, windows.left.to_vec(), windows.right.to_vec(), options);
    let centre = windows.left.len() / 2;
    assert_eq!(rust_volume(&case, false)[centre].to_bits(), two_roots.to_bits(), "the raw volume has another correlation");
    assert_eq!(map_of(&case)[centre].is_nan(), two_roots < root_of_product, "the map does not tell one root from two");
    case
}

/// How many pixels of a textured pair have their own margin for the ratio.
const MARGINS: usize = 8;

/// By how much a pixel's best correlation exceeds the best that is not beside it, where there is one.
fn margin(volume: &[f32], area: usize, at: usize) -> Option<f32> {
    let costs: Vec<f32> = volume[at..].iter().step_by(area).copied().collect();
    let best = costs.iter().copied().fold(f32::NEG_INFINITY, f32::max);
    let place = costs.iter().position(|&cost| cost == best)?;
    let apart = costs.iter().enumerate().filter(|(k, _)| k.abs_diff(place) > 1).map(|(_, &cost)| cost);
    let rival = apart.fold(f32::NEG_INFINITY, f32::max);
    rival.is_finite().then_some(best - rival)
}

/// A textured pair whose ratio is the margin of one of its pixels, which is then kept, for the margin is not below it; and the next
/// number above, by which the pixel is left blank.
fn margins() -> Vec<Case> {
    let (width, height) = (32, 20);
    let [left, right] = textured_pair(&mut Rng::new(1), width, height);
    let options = Options { block_size: 5, num_disparities: 8, lr_consistency: false, ..Options::default() };
    let pair = Case::of(width, height, left, right, options);
    let (volume, map) = (rust_volume(&pair, false), map_of(&pair));
    let accepted = (0..pair.area()).filter(|&at| map[at].is_finite());
    let with_margin = accepted.filter_map(|at| margin(&volume, pair.area(), at).map(|margin| (at, margin)));
    let with_ratio = with_margin.take(MARGINS).flat_map(|(at, margin)| [(at, margin, false), (at, margin.next_up(), true)]);
    let cases: Vec<Case> = with_ratio
        .map(|(at, uniqueness_ratio, blank)| {
            let case = Case { options: Options { uniqueness_ratio, ..options }, ..pair.clone() };
            assert_eq!(map_of(&case)[at].is_nan(), blank, "pixel {at} with the ratio {uniqueness_ratio}");
            case
        })
        .collect();
    assert_eq!(cases.len(), 2 * MARGINS, "too few pixels have a margin");
    cases
}

/// A disparity is refined only where the denominator of its parabola exceeds this.
const LIMIT: f32 = 1e-6;

/// A window of the left picture and the three windows of the right one, of columns 2 to 6, 1 to 5 and 0 to 4, that disparities 0, 1 and 2
/// compare it with: the covariances are a few units below 0, 0 and 0, so that the denominator is the first correlation.
struct NearLimit {
    left: [[u8; 5]; 5],
    right: [[u8; 7]; 5],
    /// How many numbers of f32 the denominator lies above the limit.
    above: i32,
}

const NEAR_LIMIT: [NearLimit; 3] = [
    NearLimit {
        left: [[7, 44, 245, 207, 41], [38, 227, 51, 23, 249], [59, 226, 246, 27, 24], [237, 197, 254, 217, 236], [40, 197, 39, 29, 214]],
        right: [
            [172, 151, 255, 52, 27, 117, 218],
            [114, 37, 252, 28, 254, 106, 185],
            [49, 140, 13, 59, 254, 66, 0],
            [138, 251, 38, 6, 237, 255, 233],
            [205, 38, 38, 52, 15, 209, 25],
        ],
        above: -2,
    },
    NearLimit {
        left: [[56, 218, 41, 242, 8], [56, 221, 232, 12, 197], [33, 213, 3, 44, 50], [236, 196, 196, 8, 11], [35, 216, 255, 199, 44]],
        right: [
            [79, 14, 22, 38, 56, 153, 12],
            [73, 185, 254, 234, 210, 241, 102],
            [171, 139, 47, 204, 210, 55, 2],
            [37, 246, 31, 206, 11, 109, 193],
            [64, 92, 59, 42, 26, 116, 132],
        ],
        above: 0,
    },
    NearLimit {
        left: [[251, 12, 217, 52, 8], [45, 211, 35, 200, 241], [243, 222, 214, 252, 57], [5, 43, 208, 196, 49], [57, 8, 0, 226, 230]],
        right: [
            [45, 95, 224, 254, 227, 61, 168],
            [231, 131, 49, 254, 204, 240, 14],
            [194, 105, 20, 212, 52, 0, 13],
            [143, 29, 43, 27, 196, 255, 53],
            [252, 89, 216, 205, 253, 234, 34],
        ],
        above: 1,
    },
];

/// A pixel whose three correlations have their denominator at the limit or a step or two beside it: a whole disparity up to the limit,
/// and half a pixel more above it.
fn block_denominator(near: &NearLimit) -> Case {
    let (width, height) = (7, 5);
    let left = near.left.iter().flat_map(|row| [&[0, 0], &row[..]].concat()).collect();
    let right = near.right.concat();
    let options = Options { block_size: 5, num_disparities: 3, min_correlation: -1.0, lr_consistency: false, ..Options::default() };
    let case = Case::of(width, height, left, right, options);
    let pixel = 2 * width + 4;
    let volume = rust_volume(&case, false);
    let [before, best, after] = [0, 1, 2].map(|k| volume[k * case.area() + pixel]);
    let denominator = (before + after - 2.0 * best).abs();
    assert_eq!(denominator.to_bits(), LIMIT.to_bits().wrapping_add_signed(near.above), "the denominator is {denominator:e}");
    let disparity = if near.above > 0 { 1.5 } else { 1.0 };
    assert_eq!(map_of(&case)[pixel], disparity, "with the denominator {denominator:e}");
    case
}

/// Two equal pictures whose rows have one level each, so that every window matches every other of its row at no cost. Only at the left
/// edge has the last disparity no window, and at the right edge the first. Three paths come to the pixel from the left edge and one from
/// the right, and each adds p1 to what lacked a window: the pixel's sums are p1, 0 and three times p1. With p1 a quarter of the limit
/// the denominator is the limit, and with the numbers beside it the numbers beside the limit.
fn semi_global_denominators() -> Vec<Case> {
    let (width, height) = (6, 5);
    let picture: Vec<u8> = [10, 200, 90, 150, 30].into_iter().flat_map(|level| [level; 6]).collect();
    let pixel = 2 * width + 2;
    let at_limit = LIMIT / 4.0;
    let with_penalty = |sgm_p1: f32| {
        let semi_global = Options { semi_global: true, lr_consistency: false, sgm_p1, ..Options::default() };
        let options = Options { min_disparity: -1, num_disparities: 3, block_size: 3, ..semi_global };
        let case = Case::of(width, height, picture.clone(), picture.clone(), options);
        let denominator = sgm_p1 + (sgm_p1 + sgm_p1 + sgm_p1);
        let disparity = if denominator > LIMIT { -0.25 } else { 0.0 };
        assert_eq!(map_of(&case)[pixel], disparity, "with the denominator {denominator:e}");
        (denominator, case)
    };
    let [below, at, above] = [at_limit.next_down(), at_limit, at_limit.next_up()].map(with_penalty);
    assert_eq!([below.0, at.0, above.0], [LIMIT.next_down(), LIMIT, LIMIT.next_up()], "the penalties miss the limit");
    vec![below.1, at.1, above.1]
}
