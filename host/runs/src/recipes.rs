//! Recipes of inputs.
use crate::rng::Rng;

/// A step of a recipe: it makes an input, or makes something of it wrong.
pub type Step<T> = fn(&mut T, &mut Rng);

/// A recipe's name, and its steps in their order.
pub type Recipe<T> = (&'static str, &'static [Step<T>]);

/// Makes the next input by one of the recipes, and gives the recipe's name.
pub fn follow_one<T: 'static>(recipes: &[Recipe<T>], input: &mut T, rng: &mut Rng) -> &'static str {
    let (name, steps) = rng.pick(recipes);
    for step in steps {
        step(input, rng);
    }
    name
}

/// Takes one of some steps.
pub fn take_one<T>(steps: &[Step<T>], input: &mut T, rng: &mut Rng) {
    rng.pick(steps)(input, rng);
}
