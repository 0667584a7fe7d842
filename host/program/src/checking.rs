//! How many cells of a vendor's map are bad, and why: reckoned by this program from the library's raw costs. The verdict is the library's.
use plombrisa::{Error, Map, Options, Picture, Refusal, raw_volume};

/// Cells that are not blank, and of these the bad ones by the first reason that applies.
#[derive(Debug, Default, PartialEq, Eq)]
pub struct Tally {
    pub valid: usize,
    pub not_searched: usize,
    pub no_cost: usize,
    pub below: usize,
    pub beaten: usize,
}

impl Tally {
    fn bad(&self) -> usize {
        self.not_searched + self.no_cost + self.below + self.beaten
    }

    pub fn text(&self) -> String {
        format!(
            "bad: {} of {} cells that are not blank\n  {} no whole disparity of the search\n  {} without a raw cost: a window leaves the \
             picture or shows one level\n  {} below the least correlation\n  {} beaten by another disparity",
            self.bad(), self.valid, self.not_searched, self.no_cost, self.below, self.beaten,
        )
    }
}

/// Of each cell the raw cost of its own disparity and the greatest of any, negative infinity where there is none.
struct Costs {
    own: Vec<f32>,
    best: Vec<f32>,
}

/// The raw costs of one disparity.
fn costs_at(left: Picture, right: Picture, options: &Options, disparity: i32) -> Result<Option<Vec<f32>>, Error> {
    let one = Options { min_disparity: disparity, num_disparities: 1, ..*options };
    match raw_volume(left, right, &one, false) {
        // farther than any picture is wide, so that every window leaves it
        Err(Error::Refused(Refusal::FirstOutOfRange)) => Ok(None),
        costs => costs.map(Some),
    }
}

impl Costs {
    fn of(left: Picture, right: Picture, options: &Options, map: Map) -> Result<Self, Error> {
        let blank = vec![f32::NEG_INFINITY; map.cells.len()];
        let mut costs = Self { own: blank.clone(), best: blank };
        for k in 0..options.num_disparities {
            let disparity = options.min_disparity + k;
            if let Some(now) = costs_at(left, right, options, disparity)? {
                costs.take(&now, disparity as f32, map.cells);
            }
        }
        Ok(costs)
    }

    fn take(&mut self, now: &[f32], disparity: f32, cells: &[f32]) {
        for (at, cost) in now.iter().enumerate() {
            self.best[at] = self.best[at].max(*cost);
            if cells[at] == disparity {
                self.own[at] = *cost;
            }
        }
    }
}

/// Sorts the cells of a map that the library has accepted for its pair.
pub fn tally(left: Picture, right: Picture, options: &Options, map: Map) -> Result<Tally, Error> {
    let costs = Costs::of(left, right, options, map)?;
    let (first, count) = (f64::from(options.min_disparity), f64::from(options.num_disparities));
    let searched = |cell: f32| cell.fract() == 0.0 && f64::from(cell) >= first && f64::from(cell) < first + count;
    let mut tally = Tally::default();
    for (at, cell) in map.cells.iter().enumerate().filter(|(_, cell)| cell.is_finite()) {
        tally.valid += 1;
        match costs.own[at] {
            _ if !searched(*cell) => tally.not_searched += 1,
            f32::NEG_INFINITY => tally.no_cost += 1,
            own if own < options.min_correlation => tally.below += 1,
            own if costs.best[at] > own => tally.beaten += 1,
            _ => (),
        }
    }
    Ok(tally)
}
