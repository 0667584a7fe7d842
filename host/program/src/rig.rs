//! A rig file: what the head of the order form says of a rig, one `name = value` to a line. A line that is empty or begins with `#` says
//! nothing. Names are those of the options without their dashes, and besides rig, mount, moved, lens-height and tallest-heap.
use crate::settings::{Settings, Unfit};
use plombrisa::Options;

/// Reads a rig file's text into the settings; an error says the line and what is wrong with it.
pub fn read(text: &str, settings: &mut Settings) -> Result<(), String> {
    for (at, line) in text.lines().enumerate() {
        read_line(line.trim(), settings).map_err(|why| format!("line {}: {why}", at + 1))?;
    }
    Ok(())
}

fn read_line(line: &str, settings: &mut Settings) -> Result<(), String> {
    if line.is_empty() || line.starts_with('#') {
        return Ok(());
    }
    let (name, value) = line.split_once('=').ok_or_else(|| format!("{line}: no = between a name and a value"))?;
    let (name, value) = (name.trim(), value.trim());
    settings.set(name, value).map_err(|unfit| match unfit {
        Unfit::Name => format!("{name} is not a name of a rig file"),
        Unfit::Value => format!("{name} does not take the value {value}"),
    })
}

/// The whole disparities, least and greatest, between which every surface from the floor to the top of the tallest heap lies.
fn expected(settings: &Settings) -> Option<Result<(f64, f64), String>> {
    let (fx, baseline, lens) = (settings.fx?, settings.baseline?, settings.lens_height?);
    // a camera that is none is for the library to refuse
    if !(fx > 0.0 && baseline > 0.0 && (fx * baseline).is_finite()) {
        return None;
    }
    let tallest = settings.tallest_heap.unwrap_or(0.0);
    if tallest >= lens {
        return Some(Err(format!("a heap of {tallest} m reaches the lens, which is {lens} m above the floor")));
    }
    let at = |depth: f64| fx * baseline / depth;
    Some(Ok((at(lens).floor(), at(lens - tallest).ceil())))
}

/// The rig's name and when it was moved, in front of what is said of it.
fn named(settings: &Settings) -> String {
    let name = settings.rig.as_ref().map_or(String::from("this rig"), |name| format!("rig {name}"));
    let mount = settings.mount.as_ref().map_or(String::new(), |mount| format!(" ({mount})"));
    let moved = settings.moved.as_ref().map_or(String::new(), |date| format!(", last moved {date}"));
    format!("{name}{mount}{moved}")
}

/// What is wrong with a search range that does not hold the disparities that the rig can see; none where it holds them, or where too
/// little is known of the rig.
fn range_warning(settings: &Settings) -> Option<String> {
    let (least, greatest) = match expected(settings)? {
        Ok(range) => range,
        Err(why) => return Some(format!("{}: {why}", named(settings))),
    };
    let Options { min_disparity, num_disparities, .. } = settings.options;
    let (first, last) = (f64::from(min_disparity), f64::from(min_disparity) + f64::from(num_disparities) - 1.0);
    if first <= least && greatest <= last {
        return None;
    }
    let (lens, tallest) = (settings.lens_height?, settings.tallest_heap.unwrap_or(0.0));
    Some(format!(
        "{}: with the lens {lens} m above the floor and heaps of up to {tallest} m, disparities {least} to {greatest} can occur, and \
         {first} to {last} are searched: the map is wrong or has holes where they lie outside. \
         --min-disparity {least} --num-disparities {} holds them",
        named(settings), greatest - least + 1.0,
    ))
}

/// What is wrong with a floor that is not where the lens height puts it.
fn floor_warning(settings: &Settings) -> Option<String> {
    let (floor, lens) = (settings.floor?, settings.lens_height?);
    (floor != (lens * 1000.0).round() as i64)
        .then(|| format!("{}: the floor is {floor} mm deep, and the lens {lens} m above the floor", named(settings)))
}

/// What the rig's own figures say against the settings: of a search, where the disparities that can occur are not searched, and of a
/// measurement, where the two figures of the floor differ.
pub fn warnings(settings: &Settings, searching: bool, measuring: bool) -> Vec<String> {
    let range = if searching { range_warning(settings) } else { None };
    let floor = if measuring { floor_warning(settings) } else { None };
    range.into_iter().chain(floor).collect()
}

#[cfg(test)]
mod tests {
    use super::*;

    fn settings(text: &str) -> Settings {
        let mut settings = Settings::default();
        read(text, &mut settings).expect("a rig file");
        settings
    }

    #[test]
    fn a_file_has_names_values_comments_and_empty_lines() {
        let head = "# north yard\n\nrig = north  \n moved=2026-03-02\nfx = 60.5\n";
        let read = settings(&format!("{head}semi-global = yes\nlr = no\nleft = -7000\ncell = 250"));
        assert_eq!((read.rig.as_deref(), read.moved.as_deref()), (Some("north"), Some("2026-03-02")));
        assert_eq!((read.fx, read.left, read.cell), (Some(60.5), Some(-7000), Some(250)));
        assert!(read.options.semi_global && !read.options.lr_consistency && read.options.subpixel);
    }

    #[test]
    fn a_line_that_is_none_is_named() {
        let unfit = [
            ("fx", "line 1: fx: no = between a name and a value"),
            ("rig = a\nfocus = 3", "line 2: focus is not a name of a rig file"),
            ("\n\ncell = small", "line 3: cell does not take the value small"),
            ("lens-height = NaN", "line 1: lens-height does not take the value NaN"),
            ("tallest-heap = -1", "line 1: tallest-heap does not take the value -1"),
            ("lr = on", "line 1: lr does not take the value on"),
        ];
        for (text, why) in unfit {
            assert_eq!(read(text, &mut Settings::default()), Err(String::from(why)));
        }
    }

    /// fx times the baseline is 30: 30/6 = 5 at the floor, 30/1.5 = 20 on top.
    const RIG: &str = "rig = north\nmoved = 2026-03-02\nfx = 60\nbaseline = 0.5\nlens-height = 6\ntallest-heap = 4.5\n";

    fn warned(more: &str) -> Vec<String> {
        warnings(&settings(&format!("{RIG}{more}")), true, true)
    }

    #[test]
    fn a_range_that_holds_the_disparities_is_not_warned_of() {
        for range in ["min-disparity = 5\nnum-disparities = 16", "num-disparities = 21", "min-disparity = -9\nnum-disparities = 256"] {
            assert_eq!(warned(range), [""; 0], "{range}");
        }
        assert_eq!(warnings(&settings("fx = 60\nlens-height = 6\nnum-disparities = 1"), true, true), [""; 0], "no baseline is known");
        for camera in ["fx = NaN", "fx = 0", "baseline = -1", "baseline = inf"] {
            assert_eq!(warned(&format!("num-disparities = 1\n{camera}")), [""; 0], "{camera}");
        }
    }

    #[test]
    fn a_range_that_does_not_is() {
        for range in ["num-disparities = 20", "min-disparity = 6\nnum-disparities = 24", "min-disparity = 30"] {
            let [warning] = &warned(range)[..] else { panic!("{range}") };
            assert!(warning.starts_with("rig north, last moved 2026-03-02: "), "{warning}");
            assert!(warning.contains("disparities 5 to 20 can occur"), "{warning}");
            assert!(warning.ends_with("--min-disparity 5 --num-disparities 16 holds them"), "{warning}");
        }
        assert!(warned("num-disparities = 20")[0].contains("and 0 to 19 are searched"));
    }

    #[test]
    fn a_heap_that_reaches_the_lens_and_a_floor_elsewhere_are_warned_of() {
        assert!(warned("tallest-heap = 6")[0].contains("a heap of 6 m reaches the lens"));
        assert_eq!(warned("floor = 6000"), [""; 0]);
        let [warning] = &warned("floor = 5000")[..] else { panic!("no warning") };
        assert!(warning.contains("the floor is 5000 mm deep, and the lens 6 m above the floor"), "{warning}");
        assert_eq!(warnings(&settings(&format!("{RIG}floor = 5000")), true, false), [""; 0], "no measurement, no floor");
        assert_eq!(warnings(&settings(&format!("{RIG}num-disparities = 1")), false, true), [""; 0], "no search, no range");
    }
}
