//! The deeds: files are read, the library is called, and what is to be written and said comes back.
use crate::arguments::{Deed, Source};
use crate::heights::Cells;
use crate::help::Topic;
use crate::settings::Settings;
use crate::{checking, files, formats, hints, ply, preview, rig};
use plombrisa::{
    Error, Intrinsics, Kind, OwnedMap, OwnedPicture, PointRecord, Refusal, Sheet, Verdict, check_vendor, cover, heap_volume, match_block,
    points, read_pfm, read_pgm, read_sheet, write_pfm, write_sheet,
};

/// Why nothing was done: settings that make no sense, or something that was refused or could not be had.
#[derive(Debug)]
pub enum Failure {
    Senseless(String),
    Failed(String),
}

impl From<String> for Failure {
    fn from(why: String) -> Self {
        Self::Failed(why)
    }
}

/// What a deed leaves: what its outputs are to hold, what is said of it, whether that is its answer and no mere report, hints, and
/// whether the answer is a no.
#[derive(Default)]
pub struct Done {
    pub contents: Vec<Vec<u8>>,
    pub text: String,
    pub is_answer: bool,
    pub hints: Vec<String>,
    pub no: bool,
}

/// What was refused, with what more there is to say of it.
fn refused(what: &str, error: Error, more: Option<String>) -> String {
    format!("{what}: {error}{}", more.map_or(String::new(), |more| format!("; {more}")))
}

fn input_name(file: &str) -> &str {
    files::name_of(file, "standard input")
}

fn picture_of(file: &str) -> Result<OwnedPicture, String> {
    let bytes = files::read(file)?;
    read_pgm(&bytes).map_err(|error| {
        let more = error.refusal().and_then(|refusal| formats::of_picture(refusal, &bytes, file));
        refused(input_name(file), error, more)
    })
}

fn map_of(file: &str) -> Result<OwnedMap, String> {
    let bytes = files::read(file)?;
    read_pfm(&bytes).map_err(|error| {
        let more = error.refusal().and_then(|refusal| formats::of_map(refusal, &bytes));
        refused(input_name(file), error, more)
    })
}

/// A map that was made of a pair, with its left picture and what is to be hinted; or one that was there.
struct Made {
    map: OwnedMap,
    picture: Option<OwnedPicture>,
    hints: Vec<String>,
}

fn matched(left_file: &str, right_file: &str, settings: &Settings, quiet: bool) -> Result<Made, String> {
    let (left, right) = (picture_of(left_file)?, picture_of(right_file)?);
    let both = format!("{} and {}", input_name(left_file), input_name(right_file));
    let options = &settings.options;
    let cells = match_block(left.picture(), right.picture(), options).map_err(|error| refused(&both, error, None))?;
    let map = OwnedMap { cells, width: left.width, height: left.height };
    let hint = if quiet { None } else { hints::of_pair(left.picture(), right.picture(), options, map.map()) };
    Ok(Made { map, picture: Some(left), hints: hint.into_iter().collect() })
}

fn made(source: &Source, settings: &Settings, quiet: bool) -> Result<Made, String> {
    match source {
        Source::Pair { left, right } => matched(left, right, settings, quiet),
        Source::Map(file) => Ok(Made { map: map_of(file)?, picture: None, hints: Vec::new() }),
    }
}

fn match_done(left: &str, right: &str, with_preview: bool, settings: &Settings, quiet: bool) -> Result<Done, Failure> {
    let made = matched(left, right, settings, quiet)?;
    let map = made.map.map();
    let file = write_pfm(map).map_err(|error| refused("the map", error, None))?;
    let permille = cover(map, settings.options.block_size).map_err(|refusal| refused("the map", refusal.into(), None))?;
    let drawn = with_preview.then(|| preview::preview(map));
    Ok(Done {
        contents: std::iter::once(file).chain(drawn).collect(),
        text: format!("size: {} by {}\ncover: {permille} of 1000", map.width, map.height),
        hints: made.hints,
        ..Done::default()
    })
}

/// Cubic millimetres in cubic metres, all their digits.
fn cubic_metres(cubic_millimetres: u64) -> String {
    const CUBIC_METRE: u64 = 1_000_000_000;
    format!("{}.{:09}", cubic_millimetres / CUBIC_METRE, cubic_millimetres % CUBIC_METRE)
}

fn points_of(map: &OwnedMap, camera: &Intrinsics) -> Result<Vec<PointRecord>, String> {
    points(map.map(), camera).map_err(|error| refused("the camera", error, None))
}

fn volume_done(source: &Source, with_heights: bool, settings: &Settings, quiet: bool) -> Result<Done, Failure> {
    let camera = settings.camera().map_err(Failure::Senseless)?;
    let site = settings.site().map_err(Failure::Senseless)?;
    let Made { map, hints, .. } = made(source, settings, quiet)?;
    let points = points_of(&map, &camera)?;
    let heap = heap_volume(&points, &site).map_err(|error| {
        let far = error.refusal() == Some(Refusal::DistanceOutOfRange);
        refused("the heap", error, far.then(|| hints::of_distance(&points, &site, &camera, map.width, map.height)))
    })?;
    let (figures, cells) = (heap.figures, Cells::of(&points, &site, &heap));
    let text = format!(
        "volume: {} cubic metres\npoints: {} in the rectangle, {} outside\ncells: {} by {}, {} empty\n\
         by mean heights: {:.3} cubic metres (reckoned by this program, not proved)",
        cubic_metres(figures.volume), figures.inside, figures.outside, heap.columns, heap.rows, figures.empty, cells.mean_volume(&site),
    );
    let contents = if with_heights { vec![cells.grid(&heap, &site)] } else { Vec::new() };
    Ok(Done { contents, text, is_answer: true, hints, no: false })
}

fn points_done(source: &Source, picture: Option<&str>, settings: &Settings, quiet: bool) -> Result<Done, Failure> {
    let camera = settings.camera().map_err(Failure::Senseless)?;
    let Made { map, picture: left, hints } = made(source, settings, quiet)?;
    let picture = match picture {
        Some(file) => Some(picture_of(file)?),
        None => left,
    };
    if picture.as_ref().is_some_and(|picture| (picture.width, picture.height) != (map.width, map.height)) {
        return Err(Failure::Failed(String::from("the picture is not of the map's size")));
    }
    let points = points_of(&map, &camera)?;
    let file = ply::file(&points, picture.as_ref().map(OwnedPicture::picture));
    Ok(Done { contents: vec![file], text: format!("points: {}", points.len()), hints, ..Done::default() })
}

/// A no has an exit status of its own, for it is neither a yes nor a refusal.
fn check_done(left: &str, right: &str, map: &str, settings: &Settings) -> Result<Done, Failure> {
    let all = [left, right, map].map(input_name);
    let (left, right, map) = (picture_of(left)?, picture_of(right)?, map_of(map)?);
    let (left, right, map) = (left.picture(), right.picture(), map.map());
    let unfit = |error| refused(&format!("{}, {} and {}", all[0], all[1], all[2]), error, None);
    let verdict = check_vendor(left, right, &settings.options, map).map_err(unfit)?;
    let Verdict::No { x, y } = verdict else {
        return Ok(Done { text: String::from("yes"), is_answer: true, ..Done::default() });
    };
    // the verdict stands, whether or not there is memory to count
    let counted = match checking::tally(left, right, &settings.options, map) {
        Ok(tally) => tally.text(),
        Err(error) => format!("bad: not counted, {error}"),
    };
    let text = format!("no: the cell in column {x} of row {y}\n{counted}");
    Ok(Done { text, is_answer: true, no: true, ..Done::default() })
}

fn write_sheet_done(file: &str, kind: Kind) -> Result<Done, Failure> {
    let map = map_of(file)?;
    let sheet = write_sheet(map.map(), kind).map_err(|error| refused(input_name(file), error, None))?;
    let text = format!("size: {} by {}\nsheet: {} bytes", map.width, map.height, sheet.len());
    Ok(Done { contents: vec![sheet], text, ..Done::default() })
}

fn read_sheet_done(file: &str) -> Result<Done, Failure> {
    let bytes = files::read(file)?;
    let unfit = |error| refused(input_name(file), error, None);
    let sheet: Sheet = read_sheet(&bytes).map_err(unfit)?;
    let map = write_pfm(sheet.map()).map_err(unfit)?;
    let kind = if sheet.kind == Kind::Whole { "whole" } else { "exact" };
    let text = format!("size: {} by {}\nkind: {kind}", sheet.width, sheet.height);
    Ok(Done { contents: vec![map], text, ..Done::default() })
}

impl Deed {
    /// The files that are read, but for the rig file.
    pub fn inputs(&self) -> Vec<&str> {
        match self {
            Deed::Match { left, right, .. } => vec![left, right],
            Deed::Volume { source, .. } => source.files(),
            Deed::Points { source, picture, .. } => source.files().into_iter().chain(picture.as_deref()).collect(),
            Deed::Check { left, right, map } => vec![left, right, map],
            Deed::WriteSheet { map, .. } => vec![map],
            Deed::ReadSheet { sheet, .. } => vec![sheet],
        }
    }

    /// The files that are written, in the order of what they hold.
    pub fn outputs(&self) -> Vec<&str> {
        match self {
            Deed::Match { map, preview, .. } => std::iter::once(map.as_str()).chain(preview.as_deref()).collect(),
            Deed::Volume { heights, .. } => heights.as_deref().into_iter().collect(),
            Deed::Points { points, .. } => vec![points],
            Deed::Check { .. } => Vec::new(),
            Deed::WriteSheet { sheet, .. } => vec![sheet],
            Deed::ReadSheet { map, .. } => vec![map],
        }
    }

    /// What help there is on it.
    pub fn topic(&self) -> Topic {
        match self {
            Deed::Match { .. } => Topic::Match,
            Deed::Volume { .. } => Topic::Volume,
            Deed::Points { .. } => Topic::Points,
            Deed::Check { .. } => Topic::Check,
            Deed::WriteSheet { .. } => Topic::WriteSheet,
            Deed::ReadSheet { .. } => Topic::ReadSheet,
        }
    }

    /// What the rig's own figures say against the settings of the deed.
    pub fn warnings(&self, settings: &Settings) -> Vec<String> {
        let measuring = matches!(self, Deed::Volume { .. });
        let searching = match self {
            Deed::Match { .. } | Deed::Check { .. } => true,
            Deed::Volume { source, .. } | Deed::Points { source, .. } => matches!(source, Source::Pair { .. }),
            Deed::WriteSheet { .. } | Deed::ReadSheet { .. } => false,
        };
        rig::warnings(settings, searching, measuring)
    }

    /// Does it.
    pub fn done(&self, settings: &Settings, quiet: bool) -> Result<Done, Failure> {
        match self {
            Deed::Match { left, right, preview, .. } => match_done(left, right, preview.is_some(), settings, quiet),
            Deed::Volume { source, heights } => volume_done(source, heights.is_some(), settings, quiet),
            Deed::Points { source, picture, .. } => points_done(source, picture.as_deref(), settings, quiet),
            Deed::Check { left, right, map } => check_done(left, right, map, settings),
            Deed::WriteSheet { map, kind, .. } => write_sheet_done(map, *kind),
            Deed::ReadSheet { sheet, .. } => read_sheet_done(sheet),
        }
    }
}
