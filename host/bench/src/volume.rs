//! The volume of a heap, beside the plain Rust that host/volume_run holds it to.
use crate::best_of;
use plombrisa::{Figures, Site, heap_shape, heap_volume_in};
use std::hint::black_box;
use volume_run::measure::{Ground, measure};

const WIDTH: usize = 640;
const HEIGHT: usize = 480;

/// How deep the surface lies at a place: a cone of sand 3 m high, 6 m below the camera, with grains of up to 2 cm.
fn depth(x: f64, y: f64) -> f64 {
    let grain = 0.01 * ((x * 731.0).sin() + (y * 577.0).cos());
    6.0 - (3.0 - x.hypot(y)).max(0.0) - grain
}

/// A point at each centimetre of the ground: the lists of x, of y and of z.
fn points() -> [Vec<f64>; 3] {
    let place = |i: usize| ((i % WIDTH) as f64 * 0.01 - 3.2, (i / WIDTH) as f64 * 0.01 - 2.4);
    let places: Vec<(f64, f64)> = (0..WIDTH * HEIGHT).map(place).collect();
    let list = |of: fn(f64, f64) -> f64| places.iter().map(|&(x, y)| of(x, y)).collect::<Vec<f64>>();
    [list(|x, _| x), list(|_, y| y), list(depth)]
}

/// A row of the table: milliseconds of the library and of the plain Rust for one grid over the points.
fn row([xs, ys, zs]: [&[f64]; 3], site: &Site, repeats: usize) {
    let (columns, rows) = heap_shape(site).expect("a site");
    let mut grid = vec![0; columns * rows];
    let mut figures = Figures::default();
    let library = best_of(repeats, || heap_volume_in(xs, ys, zs, site, &mut grid, &mut figures).expect("accepted"));

    let Site { left, right, top, bottom, cell, floor } = *site;
    let ground = Ground { left, right, top, bottom, cell, floor };
    let mut measured = None;
    let plain = best_of(repeats, || measured = black_box(measure(xs, ys, zs, &ground)).ok());
    let measured = measured.expect("accepted");
    let its = Figures { volume: measured.volume, inside: measured.inside, outside: measured.outside, empty: measured.empty };
    assert!(grid == measured.heights && figures == its, "the two heaps differ");
    println!("| {columns} by {rows} | {} | {:.3} | {:.3} |", figures.inside, library * 1e3, plain * 1e3);
}

/// One heap in few cells, and in nearly as many as there may be.
pub fn table(repeats: usize) {
    let lists = points();
    println!("{} points, best of {repeats}", lists[0].len());
    println!("| cells | points inside | library ms | plain Rust ms |");
    println!("|---|---|---|---|");
    for (right, bottom, cell) in [(3200, 2400, 100), (2940, 2200, 20)] {
        let site = Site { left: -right, right, top: -bottom, bottom, cell, floor: 6000 };
        row(lists.each_ref().map(|list| list.as_slice()), &site, repeats);
    }
}
