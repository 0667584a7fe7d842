//! From `rectification.rs` of calibration-rs (crates/vision-mvg/src/rectification.rs): `rectified_point`, its text unchanged, and
//! `rectify`'s tests of the intrinsics and the baseline as functions (there each guards an error). The types that they name are
//! not there, so plain ones stand for them. Its licence is in LICENSE.txt beside this crate.

type Real = f64;

/// Numerical floor for "this vector is effectively zero".
const EPS: Real = 1e-12;

/// Stands for `vision_calibration_core::FxFyCxCy`.
pub struct FxFyCxCy<T> {
    pub fx: T,
    pub fy: T,
    pub cx: T,
    pub cy: T,
}

/// Stands for `vision_calibration_core::Pt2`.
pub struct Pt2 {
    pub x: Real,
    pub y: Real,
}

/// Stands for `vision_calibration_core::Vec3`.
pub struct Vec3 {
    pub x: Real,
    pub y: Real,
    pub z: Real,
}

impl Vec3 {
    fn new(x: Real, y: Real, z: Real) -> Self {
        Self { x, y, z }
    }
}

/// Stands for the struct of this name, with the two fields that the formula reads.
pub struct StereoRectification {
    pub k_rect: FxFyCxCy<Real>,
    pub baseline: Real,
}

impl StereoRectification {
    /// The point in the rectified left frame (`Z = fx B/d`).
    fn rectified_point(&self, left: &Pt2, disparity: Real) -> Option<Vec3> {
        if !(disparity.is_finite() && disparity > 0.0 && left.x.is_finite() && left.y.is_finite()) {
            return None;
        }
        let k = &self.k_rect;
        let z = k.fx * self.baseline / disparity;
        Some(Vec3::new(
            (left.x - k.cx) * z / k.fx,
            (left.y - k.cy) * z / k.fy,
            z,
        ))
    }

    /// The formula, which is private there.
    pub fn point(&self, x: Real, y: Real, disparity: Real) -> Option<Vec3> {
        self.rectified_point(&Pt2 { x, y }, disparity)
    }

    /// `rectify`'s test of the intrinsics.
    pub fn good_camera(&self) -> bool {
        let k_rect = &self.k_rect;
        [k_rect.fx, k_rect.fy, k_rect.cx, k_rect.cy]
            .iter()
            .all(|v| v.is_finite())
            && k_rect.fx > 0.0
            && k_rect.fy > 0.0
    }

    /// `rectify`'s test of the baseline.
    pub fn good_baseline(&self) -> bool {
        let baseline = self.baseline;
        baseline.is_finite() && baseline > EPS
    }
}
