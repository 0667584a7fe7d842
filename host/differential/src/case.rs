//! One call: two pictures, options, and what is lent.
use plombrisa::{Options, float_cells, whole_cells};
use runs::limits::{BLOCK_MOST, COUNT_MOST, FIRST_MOST, PENALTY_MOST, SIDE_MOST};
use runs::pictures::{other_picture, picture, textured_pair};
use runs::refusals::{LentPicture, Pair, first_of};
use runs::rng::Rng;

#[derive(Debug, Clone)]
pub struct Case {
    pub left: Vec<u8>,
    pub left_size: (usize, usize),
    pub right: Vec<u8>,
    pub right_size: (usize, usize),
    pub options: Options,
    /// How many cells more or fewer than needed are lent: output, whole-number room, float room.
    pub spare: (isize, isize, isize),
}

impl Case {
    /// A case of two pictures of one size, with what is needed lent and a few cells of each room beyond.
    pub fn of(width: usize, height: usize, left: Vec<u8>, right: Vec<u8>, options: Options) -> Self {
        let size = (width, height);
        Self { left, left_size: size, right, right_size: size, options, spare: (0, 3, 5) }
    }

    pub fn area(&self) -> usize {
        self.left_size.0 * self.left_size.1
    }

    fn count(&self) -> usize {
        self.options.num_disparities.clamp(0, COUNT_MOST) as usize
    }

    fn lent(needed: usize, spare: isize) -> usize {
        needed.saturating_add_signed(spare)
    }

    fn out_needed(&self, volume: bool) -> usize {
        if volume { self.count() * self.area() } else { self.area() }
    }

    pub fn out_len(&self, volume: bool) -> usize {
        Self::lent(self.out_needed(volume), self.spare.0)
    }

    pub fn whole_needed(&self) -> usize {
        whole_cells(self.left_size.0, self.left_size.1)
    }

    pub fn float_needed(&self) -> usize {
        float_cells(self.left_size.0, self.left_size.1, self.count(), self.options.semi_global)
    }

    pub fn whole_len(&self) -> usize {
        Self::lent(self.whole_needed(), self.spare.1)
    }

    pub fn float_len(&self) -> usize {
        Self::lent(self.float_needed(), self.spare.2)
    }

    /// The number of document 01's table for this case, 0 for none, worked out from its words and those of W-205, which has 13
    /// straight after 10. `volume` says that the raw volume is asked for, which skips both and needs no float room.
    pub fn refusal(&self, volume: bool) -> u32 {
        let o = &self.options;
        let of = |bytes: &[u8], (width, height): (usize, usize)| LentPicture { width, height, bytes: bytes.len() };
        let (left, right) = (of(&self.left, self.left_size), of(&self.right, self.right_size));
        let pair = Pair { left, right, block: o.block_size, count: o.num_disparities, first: o.min_disparity };
        let fit = |p: f32| p.is_finite() && (0.0..=PENALTY_MOST).contains(&p);
        let penalties = !volume && o.semi_global;
        let in_range = fit(o.sgm_p1) && fit(o.sgm_p2);
        let output = self.out_len(volume) == self.out_needed(volume);
        let rooms = self.whole_len() >= self.whole_needed() && (volume || self.float_len() >= self.float_needed());
        match pair.refusal() {
            0 => first_of(&[
                (10, penalties && !in_range),
                (13, penalties && o.sgm_p2 < o.sgm_p1),
                (11, !output),
                (12, !rooms),
            ]),
            number => number,
        }
    }
}

fn gate(rng: &mut Rng) -> f32 {
    let usual = rng.below(2001) as f32 / 1000.0 - 1.0;
    rng.pick(&[usual, usual, 0.5, 0.03, 0.0, -0.0, 1.0, -1.0, 2.0, f32::NAN, f32::INFINITY, f32::NEG_INFINITY, 1e-45])
}

fn penalty(rng: &mut Rng) -> f32 {
    let usual = rng.below(3000) as f32 / 1000.0;
    rng.pick(&[usual, usual, 0.1, 1.5, 0.0, -0.0, PENALTY_MOST, 1e-45, 700.5])
}

/// Two penalties, the second not below the first; one pair in ten is equal, zeros of either sign among them.
fn penalties(rng: &mut Rng) -> (f32, f32) {
    let (one, other) = (penalty(rng), penalty(rng));
    if rng.one_in(10) {
        return rng.pick(&[(one, one), (-0.0, -0.0), (0.0, -0.0), (-0.0, 0.0)]);
    }
    if other < one { (other, one) } else { (one, other) }
}

/// Penalties the wrong way round, as far apart as any two or as close as two numbers can be.
fn reversed(rng: &mut Rng) -> (f32, f32) {
    let (p1, p2) = penalties(rng);
    if p1 < p2 && !rng.one_in(4) {
        return (p2, p1);
    }
    let above_zero = p2.max(f32::from_bits(1));
    (above_zero, above_zero.next_down())
}

pub fn options(rng: &mut Rng, blocks: &[usize], count_most: i64) -> Options {
    let count = if rng.one_in(6) { 1 } else { rng.within(1, count_most) };
    let near = rng.within(-6, 4) as i32;
    let (sgm_p1, sgm_p2) = if rng.one_in(8) { reversed(rng) } else { penalties(rng) };
    Options {
        min_disparity: rng.pick(&[0, 0, near, near, -FIRST_MOST, FIRST_MOST, -30]),
        num_disparities: count as i32,
        block_size: rng.pick(blocks),
        min_correlation: gate(rng),
        uniqueness_ratio: gate(rng),
        lr_consistency: rng.one_in(2),
        lr_max_diff: gate(rng),
        subpixel: rng.one_in(2),
        semi_global: rng.one_in(2),
        sgm_p1,
        sgm_p2,
    }
}

/// A small pair at some boundary.
pub fn small(rng: &mut Rng) -> Case {
    let block = rng.pick(&[1, 3, 3, 3, 5, 7]);
    let w = block + rng.below(12);
    let h = block + rng.below(6);
    let left = picture(rng, w, h);
    let right = other_picture(rng, &left, w, h);
    let options = options(rng, &[block], 12);
    Case::of(w, h, left, right, options)
}

/// A small semi-global case with p2 below p1, and in three of four a row after 13 that applies too.
pub fn wrong_way_round(rng: &mut Rng) -> Case {
    let mut case = small(rng);
    case.options.semi_global = true;
    (case.options.sgm_p1, case.options.sgm_p2) = reversed(rng);
    case.spare = rng.pick(&[case.spare, (-1, 0, 0), (0, -1, 0), (1, 0, -1)]);
    case
}

/// A textured pair of a given size, mostly like what a site would send.
pub fn textured(rng: &mut Rng, w: usize, h: usize) -> Case {
    let [left, right] = textured_pair(rng, w, h);
    let mut options = options(rng, &[3, 5, 7, 9], 32);
    options.min_disparity = rng.within(-2, 3) as i32;
    Case::of(w, h, left, right, options)
}

/// A small case with one or two things wrong with it.
pub fn unfit(rng: &mut Rng) -> Case {
    let mut case = small(rng);
    let (w, h) = case.left_size;
    for _ in 0..1 + rng.below(2) {
        match rng.below(17) {
            0 => case.left_size.0 = rng.pick(&[0, SIDE_MOST + 1, usize::MAX, case.left_size.0 + 1]),
            1 => case.right_size.1 = rng.pick(&[0, SIDE_MOST + 1, usize::MAX / 2, case.right_size.1 + 1]),
            2 => case.left.push(0),
            3 => drop(case.right.pop()),
            4 => case.options.block_size = rng.pick(&[0, 2, BLOCK_MOST + 1, 64, usize::MAX - 1]),
            5 => case.options.block_size = rng.pick(&[BLOCK_MOST + 2, 65, usize::MAX]),
            6 => case.options.num_disparities = rng.pick(&[0, -1, i32::MIN]),
            7 => case.options.num_disparities = rng.pick(&[COUNT_MOST + 1, 4 * COUNT_MOST, i32::MAX]),
            8 => case.options.block_size = BLOCK_MOST,
            9 => case.options.min_disparity = rng.pick(&[-FIRST_MOST - 1, FIRST_MOST + 1, i32::MIN, i32::MAX]),
            10 => case.options.sgm_p1 = rng.pick(&[-1e-45, PENALTY_MOST.next_up(), f32::NAN, f32::INFINITY, -1.0]),
            11 => case.options.sgm_p2 = rng.pick(&[-0.5, 2.0 * PENALTY_MOST, f32::NAN, f32::NEG_INFINITY]),
            12 => {
                case.options.semi_global = true;
                (case.options.sgm_p1, case.options.sgm_p2) = reversed(rng);
            }
            13 => case.spare.0 = rng.pick(&[-1, 1, 7]),
            14 | 15 => {
                // another size, with as many bytes
                case.right_size = rng.pick(&[(w + 1, h), (w, h + 1), (w, 2 * h), (h + w, h)]);
                case.right = picture(rng, case.right_size.0, case.right_size.1);
            }
            _ => {
                if rng.one_in(2) {
                    case.spare.1 = -1
                } else {
                    case.spare.2 = -1
                }
            }
        }
    }
    // lengths are worked out from the sizes: keep them small enough to be lent
    if case.left_size.0 > 2 * SIDE_MOST || case.left_size.1 > 2 * SIDE_MOST {
        case.left_size = (SIDE_MOST + 1, 1);
    }
    case
}
