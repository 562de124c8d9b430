// The cases that the programs are compared on: each one is made from the seed and its number alone.
pub mod assess;
pub mod checks;
pub mod clones;
pub mod entries;
pub mod isolation;
mod operators;
pub mod orders;
pub mod reader;
pub mod redirects;
pub mod requests;
pub mod round_trips;
mod runs;
mod seeded;
pub mod shares;
pub mod tables;
pub mod traces;
pub mod writer;
