// The cases every run begins with: each check and order of checks, each place, length and bit.
mod agreements;
mod both_checks;
mod both_places;
mod closings;
pub(in crate::cases) mod contents;
mod lengths;
mod openings;
mod operators;
mod policies;
mod prefixes;

use super::super::operators::suit_calls;
use super::Case;

pub fn all() -> Vec<Case> {
    let mut cases = [
        both_checks::all(),
        both_places::all(),
        agreements::all(),
        openings::all(),
        closings::all(),
        policies::all(),
        prefixes::all(),
        lengths::all(),
    ]
    .concat();
    cases.iter_mut().for_each(|Case { tables, calls }| suit_calls(tables, calls));
    [operators::all(), cases].concat()
}
