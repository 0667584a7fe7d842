//! What the runs over made inputs share: document 01's limits and its table of refusals, their numbers and recipes, the bytes, pictures
//! and maps that they make and make wrong, what they lend to the library, how they compare and count, and how a run or a program that
//! was built is started.
pub mod bytes;
pub mod held;
pub mod limits;
pub mod maps;
pub mod pictures;
pub mod program;
pub mod recipes;
pub mod refusals;
pub mod rng;
pub mod room;
pub mod same;
pub mod sizes;
pub mod tally;
