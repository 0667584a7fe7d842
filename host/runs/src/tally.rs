//! How often each recipe of inputs was tried, and how often each number was answered.
use std::collections::BTreeMap;
use std::fmt::Debug;
use std::process::exit;

/// A kind of call, and the refusals that it has.
struct Call {
    name: &'static str,
    refusals: &'static [u32],
    answers: BTreeMap<u32, usize>,
}

pub struct Tally {
    seed: u64,
    recipes: BTreeMap<&'static str, usize>,
    calls: Vec<Call>,
}

impl Tally {
    /// A tally of some calls, each with its name and all the refusals that it has.
    pub fn new(seed: u64, calls: &[(&'static str, &'static [u32])]) -> Self {
        let calls = calls.iter().map(|&(name, refusals)| Call { name, refusals, answers: BTreeMap::new() }).collect();
        Self { seed, recipes: BTreeMap::new(), calls }
    }

    /// Recipes that have to come, each at least once.
    pub fn expect(&mut self, recipes: impl IntoIterator<Item = &'static str>) {
        self.recipes.extend(recipes.into_iter().map(|recipe| (recipe, 0)));
    }

    /// Counts something that came, as a recipe is counted.
    pub fn came(&mut self, what: &'static str) {
        *self.recipes.entry(what).or_default() += 1;
    }

    /// Counts the number that an input was answered; a difference between the two sides ends the run.
    pub fn count(&mut self, call: &'static str, recipe: &'static str, input: &impl Debug, answer: Result<u32, String>) {
        let number = answer.unwrap_or_else(|why| {
            println!("seed {}: {recipe}: {why}\n{input:?}", self.seed);
            exit(1);
        });
        self.came(recipe);
        let call = self.calls.iter_mut().find(|c| c.name == call).expect("a call of the tally");
        *call.answers.entry(number).or_default() += 1;
    }

    /// Prints the counts, and ends the run where some expected recipe never came or some refusal was never answered, for then the
    /// inputs were too few to say anything of it.
    pub fn report(&self) {
        for (recipe, n) in &self.recipes {
            println!("{n:>9} {recipe}");
        }
        let mut missing = self.recipes.values().any(|&n| n == 0);
        for Call { name, refusals, answers } in &self.calls {
            let times = |number: &u32| answers.get(number).copied().unwrap_or(0);
            let given: Vec<String> = refusals.iter().map(|number| format!("{number}: {}", times(number))).collect();
            println!("{name}: {} accepted; refusals {}", times(&0), given.join(", "));
            missing |= refusals.iter().any(|number| times(number) == 0);
        }
        if missing {
            println!("some recipe never came, or some refusal was never answered");
            exit(1);
        }
        println!("no difference");
    }
}
