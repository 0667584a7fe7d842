//! The settings: everything that has a name and a value, be it `--fx 60` on the line or `fx = 60` in a rig file.
use plombrisa::{Intrinsics, Options, Site};
use std::str::FromStr;

/// What was given of the rig, the camera, the site and the match. Of a match each number that was not given has its default.
#[derive(Debug, Clone, Default)]
pub struct Settings {
    pub options: Options,
    /// The rig's name, how it is mounted, and the date when it was last moved, as the form has them.
    pub rig: Option<String>,
    pub mount: Option<String>,
    pub moved: Option<String>,
    /// How high the lens is above the floor, and how high a heap is expected to be at most, in metres.
    pub lens_height: Option<f64>,
    pub tallest_heap: Option<f64>,
    pub fx: Option<f64>,
    pub fy: Option<f64>,
    pub cx: Option<f64>,
    pub cy: Option<f64>,
    pub baseline: Option<f64>,
    pub left: Option<i64>,
    pub right: Option<i64>,
    pub top: Option<i64>,
    pub bottom: Option<i64>,
    pub cell: Option<usize>,
    pub floor: Option<i64>,
}

/// Names by what they belong to; a verb takes those on the line that it reads.
pub const SEARCH: &[&str] = &["min-disparity", "num-disparities", "block-size", "min-correlation"];
pub const MATCHING: &[&str] = &["uniqueness-ratio", "lr-max-diff", "sgm-p1", "sgm-p2", "semi-global", "lr", "subpixel"];
pub const CAMERA: &[&str] = &["fx", "fy", "cx", "cy", "baseline"];
pub const SITE: &[&str] = &["left", "right", "top", "bottom", "cell", "floor"];
pub const EXPECTED: &[&str] = &["fx", "baseline", "lens-height", "tallest-heap"];

/// What is wrong with a setting, but for the place where it stands.
#[derive(Debug, PartialEq, Eq)]
pub enum Unfit {
    Name,
    Value,
}

fn value<T: FromStr>(text: &str) -> Result<T, Unfit> {
    text.parse().map_err(|_| Unfit::Value)
}

fn given<T: FromStr>(text: &str) -> Result<Option<T>, Unfit> {
    value(text).map(Some)
}

/// A length in metres: finite, and not negative.
fn metres(text: &str) -> Result<Option<f64>, Unfit> {
    let length: f64 = value(text)?;
    if length.is_finite() && length >= 0.0 { Ok(Some(length)) } else { Err(Unfit::Value) }
}

fn yes_or_no(text: &str) -> Result<bool, Unfit> {
    match text {
        "yes" => Ok(true),
        "no" => Ok(false),
        _ => Err(Unfit::Value),
    }
}

impl Settings {
    /// Sets what has this name; of a name that is given twice the later counts.
    pub fn set(&mut self, name: &str, text: &str) -> Result<(), Unfit> {
        match name {
            "rig" => self.rig = Some(String::from(text)),
            "mount" => self.mount = Some(String::from(text)),
            "moved" => self.moved = Some(String::from(text)),
            "lens-height" => self.lens_height = metres(text)?,
            "tallest-heap" => self.tallest_heap = metres(text)?,
            "fx" => self.fx = given(text)?,
            "fy" => self.fy = given(text)?,
            "cx" => self.cx = given(text)?,
            "cy" => self.cy = given(text)?,
            "baseline" => self.baseline = given(text)?,
            "left" => self.left = given(text)?,
            "right" => self.right = given(text)?,
            "top" => self.top = given(text)?,
            "bottom" => self.bottom = given(text)?,
            "cell" => self.cell = given(text)?,
            "floor" => self.floor = given(text)?,
            _ => return self.set_option(name, text),
        }
        Ok(())
    }

    /// Sets an option of the match.
    fn set_option(&mut self, name: &str, text: &str) -> Result<(), Unfit> {
        let options = &mut self.options;
        match name {
            "min-disparity" => options.min_disparity = value(text)?,
            "num-disparities" => options.num_disparities = value(text)?,
            "block-size" => options.block_size = value(text)?,
            "min-correlation" => options.min_correlation = value(text)?,
            "uniqueness-ratio" => options.uniqueness_ratio = value(text)?,
            "lr-max-diff" => options.lr_max_diff = value(text)?,
            "sgm-p1" => options.sgm_p1 = value(text)?,
            "sgm-p2" => options.sgm_p2 = value(text)?,
            "semi-global" => options.semi_global = yes_or_no(text)?,
            "lr" => options.lr_consistency = yes_or_no(text)?,
            "subpixel" => options.subpixel = yes_or_no(text)?,
            _ => return Err(Unfit::Name),
        }
        Ok(())
    }

    /// The camera's five numbers, none of which may be missing.
    pub fn camera(&self) -> Result<Intrinsics, String> {
        Ok(Intrinsics {
            fx: needed("fx", self.fx)?,
            fy: needed("fy", self.fy)?,
            cx: needed("cx", self.cx)?,
            cy: needed("cy", self.cy)?,
            baseline: needed("baseline", self.baseline)?,
        })
    }

    /// The site's six numbers, none of which may be missing; the floor is as deep as the lens is high where nothing else is said.
    pub fn site(&self) -> Result<Site, String> {
        Ok(Site {
            left: needed("left", self.left)?,
            right: needed("right", self.right)?,
            top: needed("top", self.top)?,
            bottom: needed("bottom", self.bottom)?,
            cell: needed("cell", self.cell)?,
            floor: needed("floor", self.floor.or(self.lens_height.map(|metres| (metres * 1000.0).round() as i64)))?,
        })
    }
}

fn needed<T>(name: &str, number: Option<T>) -> Result<T, String> {
    number.ok_or_else(|| format!("--{name} is missing"))
}
