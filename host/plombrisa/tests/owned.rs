//! The matches and raw volumes that ask for memory themselves answer what those in lent memory answer; of the other wrappers the runs show
//! it.
use plombrisa::{Error, Options, Picture, float_cells, match_block, match_block_in, raw_volume, raw_volume_in, whole_cells};
use runs::pictures::{other_picture, picture};
use runs::rng::Rng;
use runs::same::same_cells;

/// Two pictures of one size, the right one sometimes said to be of another, and options of which some are refused.
struct Made {
    bytes: [Vec<u8>; 2],
    width: usize,
    height: usize,
    right_width: usize,
    options: Options,
}

impl Made {
    fn new(rng: &mut Rng) -> Self {
        let (width, height) = (3 + rng.below(12), 3 + rng.below(8));
        let left = picture(rng, width, height);
        let right = other_picture(rng, &left, width, height);
        let options = Options {
            min_disparity: rng.within(-2, 2) as i32,
            num_disparities: rng.pick(&[1, 2, 5, 9, 5, 9, 0, 257]),
            block_size: rng.pick(&[1, 3, 3, 5, 3, 4]),
            lr_consistency: rng.one_in(2),
            subpixel: rng.one_in(2),
            semi_global: rng.one_in(2),
            sgm_p1: rng.pick(&[0.1, 0.1, 2.0, -1.0]),
            ..Options::default()
        };
        let right_width = if rng.one_in(8) { width + 1 } else { width };
        Self { bytes: [left, right], width, height, right_width, options }
    }

    fn pictures(&self) -> [Picture<'_>; 2] {
        let [left, right] = &self.bytes;
        [
            Picture { bytes: left, width: self.width, height: self.height },
            Picture { bytes: right, width: self.right_width, height: self.height },
        ]
    }

    fn count(&self) -> usize {
        self.options.num_disparities as usize
    }
}

/// The cells of two answers are the same bits, or both are refused alike: whether they were refused.
fn refused_alike(owned: Result<Vec<f32>, Error>, lent: Result<Vec<f32>, Error>) -> bool {
    match (owned, lent) {
        (Ok(owned), Ok(lent)) => {
            same_cells("cells", &owned, &lent).unwrap_or_else(|why| panic!("{why}"));
            false
        }
        (owned, lent) => {
            assert_eq!(owned, lent);
            true
        }
    }
}

fn lent_match(made: &Made) -> Result<Vec<f32>, Error> {
    let [left, right] = made.pictures();
    let mut out = vec![9.0; left.width * left.height];
    let mut whole_room = vec![9; whole_cells(left.width, left.height)];
    let mut float_room = vec![9.0; float_cells(left.width, left.height, made.count(), made.options.semi_global)];
    match_block_in(left, right, &made.options, &mut out, &mut whole_room, &mut float_room)?;
    Ok(out)
}

fn lent_volume(made: &Made, from_right: bool) -> Result<Vec<f32>, Error> {
    let [left, right] = made.pictures();
    let mut out = vec![9.0; made.count() * left.width * left.height];
    let mut whole_room = vec![9; whole_cells(left.width, left.height)];
    raw_volume_in(left, right, &made.options, from_right, &mut out, &mut whole_room)?;
    Ok(out)
}

/// Answers for many pairs; a fifth at least must be refused, and a fifth not.
fn both_kinds(answer: impl Fn(&Made) -> bool) {
    let mut rng = Rng::new(26);
    let all = 500;
    let refused = (0..all).filter(|_| answer(&Made::new(&mut rng))).count();
    assert!(refused > all / 5 && all - refused > all / 5, "{refused} of {all} were refused");
}

#[test]
fn a_match_is_that_of_lent_memory() {
    both_kinds(|made| {
        let [left, right] = made.pictures();
        refused_alike(match_block(left, right, &made.options), lent_match(made))
    });
}

#[test]
fn a_raw_volume_is_that_of_lent_memory() {
    for from_right in [false, true] {
        both_kinds(|made| {
            let [left, right] = made.pictures();
            refused_alike(raw_volume(left, right, &made.options, from_right), lent_volume(made, from_right))
        });
    }
}
