//! Makes a pair of pictures of a heap, matches it in both modes, and draws the left picture and the two maps side by side.
//!
//! `heap FILE` writes the drawing as a PNG.
//! `heap pair LEFT RIGHT` writes the pair as two PGM files, which are the program's example.
use heap::colours::{grey, of_cell};
use heap::png;
use heap::scene::Scene;
use plombrisa::{Options, Picture, match_block};

/// The pair as two PGM files.
fn write_pair(left: &str, right: &str) {
    for (file, bytes) in [left, right].iter().zip(Scene::example().pgm_files()) {
        std::fs::write(file, bytes).expect("the file can be written");
    }
}

/// The drawing.
fn draw(file: &str) {
    let scene = Scene::example();
    let (w, h) = (scene.width, scene.height);
    let picture = |bytes| Picture { bytes, width: w, height: h };
    let (left, right) = (picture(scene.left.as_slice()), picture(scene.right.as_slice()));

    let block = Options { num_disparities: 24, ..Options::default() };
    // the planner wants a figure at every pixel, so nothing is taken out again by the left-right test
    let semi_global = Options { semi_global: true, lr_consistency: false, ..block };
    let maps = [block, semi_global].map(|options| match_block(left, right, &options).expect("the pair is accepted"));
    for (name, map) in ["block", "semi-global"].iter().zip(&maps) {
        let valid = map.iter().filter(|cell| cell.is_finite()).count();
        println!("{name}: {valid} of {} cells valid", w * h);
    }

    // one range for both, so that a colour means one disparity
    let valid = || maps.iter().flatten().filter(|cell| cell.is_finite());
    let (least, greatest) = valid().fold((f32::MAX, f32::MIN), |(least, most), cell| (least.min(*cell), most.max(*cell)));
    let gap = 6;
    let mut rows = vec![vec![[255u8; 3]; 3 * w + 2 * gap]; h];
    for y in 0..h {
        for x in 0..w {
            rows[y][x] = grey(scene.left[y * w + x]);
            for (i, map) in maps.iter().enumerate() {
                rows[y][(i + 1) * (w + gap) + x] = of_cell(map[y * w + x], least, greatest);
            }
        }
    }
    std::fs::write(file, png::encode(&rows)).expect("the file can be written");
    println!("{file}: the left picture, the block map and the semi-global map; holes are red");
}

fn main() {
    let words: Vec<String> = std::env::args().skip(1).collect();
    match words.as_slice() {
        [word, left, right] if word == "pair" => write_pair(left, right),
        [file] => draw(file),
        _ => panic!("heap FILE, or heap pair LEFT RIGHT"),
    }
}
