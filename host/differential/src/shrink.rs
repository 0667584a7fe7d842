//! Makes a failing case smaller, so that it can be read.
use crate::case::Case;
use crate::compare::check;
use plombrisa::Options;

fn cropped(case: &Case, width: usize, height: usize) -> Option<Case> {
    let (w, h) = case.left_size;
    let fits = case.left.len() == w * h && case.right.len() == w * h && case.right_size == case.left_size;
    if !fits || width == 0 || height == 0 {
        return None;
    }
    let crop = |bytes: &[u8]| (0..width * height).map(|i| bytes[i / width * w + i % width]).collect::<Vec<_>>();
    let mut small = Case::of(width, height, crop(&case.left), crop(&case.right), case.options);
    small.spare = case.spare;
    Some(small)
}

fn candidates(case: &Case) -> Vec<Case> {
    let (w, h) = case.left_size;
    let mut all = Vec::new();
    for (nw, nh) in [(w / 2, h), (w, h / 2), (w.saturating_sub(1), h), (w, h.saturating_sub(1))] {
        if (nw, nh) != (w, h) {
            all.extend(cropped(case, nw, nh));
        }
    }
    let o = case.options;
    let defaults = Options::default();
    for changed in [
        Options { num_disparities: o.num_disparities / 2, ..o },
        Options { num_disparities: o.num_disparities - 1, ..o },
        Options { lr_consistency: false, ..o },
        Options { subpixel: false, ..o },
        Options { semi_global: false, ..o },
        Options { min_correlation: defaults.min_correlation, ..o },
        Options { uniqueness_ratio: defaults.uniqueness_ratio, ..o },
        Options { lr_max_diff: defaults.lr_max_diff, ..o },
        Options { sgm_p1: defaults.sgm_p1, sgm_p2: defaults.sgm_p2, ..o },
        Options { min_disparity: 0, ..o },
    ] {
        if format!("{changed:?}") != format!("{o:?}") {
            all.push(Case { options: changed, ..case.clone() });
        }
    }
    all
}

/// A case that fails too, of which no candidate fails any more.
pub fn shrink(case: &Case) -> Case {
    let mut small = case.clone();
    while let Some(next) = candidates(&small).into_iter().find(|c| check(c).is_err()) {
        small = next;
    }
    small
}
