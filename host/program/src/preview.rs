//! The preview of a map: its cells in colours, stretched to the map's own range, and below them a scale with its two ends.
use heap::colours::of_cell;
use heap::png;
use plombrisa::{Map, valid_range};

type Colour = [u8; 3];
const PAPER: Colour = [255; 3];
const INK: Colour = [0; 3];

/// Rows of the scale: a gap, the colours, a gap, the figures, a gap.
const GAP: usize = 3;
const BAR: usize = 8;
const FIGURE_HEIGHT: usize = 5;
const SCALE: usize = GAP + BAR + GAP + FIGURE_HEIGHT + GAP;

/// The least width of a preview, so that both figures have their place.
const NARROWEST: usize = 72;

/// The characters of the figures, 3 by 5 dots each, a row to a number and its dots from the left in three bits.
const FIGURES: [(char, [u8; FIGURE_HEIGHT]); 12] = [
    ('0', [0b111, 0b101, 0b101, 0b101, 0b111]),
    ('1', [0b010, 0b110, 0b010, 0b010, 0b111]),
    ('2', [0b111, 0b001, 0b111, 0b100, 0b111]),
    ('3', [0b111, 0b001, 0b111, 0b001, 0b111]),
    ('4', [0b101, 0b101, 0b111, 0b001, 0b001]),
    ('5', [0b111, 0b100, 0b111, 0b001, 0b111]),
    ('6', [0b111, 0b100, 0b111, 0b101, 0b111]),
    ('7', [0b111, 0b001, 0b001, 0b010, 0b010]),
    ('8', [0b111, 0b101, 0b111, 0b101, 0b111]),
    ('9', [0b111, 0b101, 0b111, 0b001, 0b111]),
    ('-', [0b000, 0b000, 0b111, 0b000, 0b000]),
    ('.', [0b000, 0b000, 0b000, 0b000, 0b010]),
];

/// A figure's width in dots, one of them between characters.
fn width_of(text: &str) -> usize {
    4 * text.len() - 1
}

/// Writes a figure into rows of colours from this column on.
fn write(rows: &mut [Vec<Colour>], column: usize, text: &str) {
    for (at, character) in text.chars().enumerate() {
        let dots = FIGURES.iter().find(|(known, _)| *known == character).map_or([0; FIGURE_HEIGHT], |(_, dots)| *dots);
        let inked = (0..FIGURE_HEIGHT).flat_map(|y| (0..3).map(move |x| (x, y))).filter(|(x, y)| dots[*y] >> (2 - x) & 1 == 1);
        inked.for_each(|(x, y)| rows[y][column + 4 * at + x] = INK);
    }
}

/// The rows of the scale, as wide as the preview.
fn scale(width: usize, least: f32, greatest: f32) -> Vec<Vec<Colour>> {
    let mut rows = vec![vec![PAPER; width]; SCALE];
    let over = f64::from(greatest) - f64::from(least);
    let at = |column: usize| (f64::from(least) + over * column as f64 / (width - 1) as f64) as f32;
    let bar: Vec<Colour> = (0..width).map(|column| of_cell(at(column), least, greatest)).collect();
    rows[GAP..GAP + BAR].fill(bar);
    let figures = &mut rows[GAP + BAR + GAP..];
    let [low, high] = [least, greatest].map(|end| format!("{end:.1}"));
    if width_of(&low) + 4 + width_of(&high) <= width {
        write(figures, 0, &low);
        write(figures, width - width_of(&high), &high);
    }
    rows
}

/// The preview of a map, as a PNG file. A map without a valid cell has no scale.
pub fn preview(map: Map) -> Vec<u8> {
    let range = valid_range(map).ok().flatten();
    let (least, greatest) = range.unwrap_or((0.0, 0.0));
    let width = map.width.max(if range.is_some() { NARROWEST } else { 0 });
    let coloured = |row: &[f32]| {
        let mut colours: Vec<Colour> = row.iter().map(|&cell| of_cell(cell, least, greatest)).collect();
        colours.resize(width, PAPER);
        colours
    };
    let mut rows: Vec<Vec<Colour>> = map.cells.chunks(map.width).map(coloured).collect();
    if range.is_some() {
        rows.extend(scale(width, least, greatest));
    }
    png::encode(&rows)
}
