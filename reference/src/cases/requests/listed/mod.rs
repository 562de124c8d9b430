// The requests every run begins with: the papers' rows, each check, mark, list and record.
mod agreements;
mod checks;
mod keepalives;
mod lengths;
mod lists;
mod marks;
mod no_nats;
mod operators;
mod pending;
mod records;
pub(in crate::cases) mod responses;
mod rows;
pub(in crate::cases) mod setting;
mod tallies;

use super::super::operators::of_ike;
use super::Case;

pub fn all() -> Vec<Case> {
    let mut cases = [
        rows::all(),
        checks::all(),
        marks::all(),
        no_nats::all(),
        lists::all(),
        tallies::all(),
        responses::all(),
        keepalives::all(),
        records::all(),
        pending::all(),
        lengths::all(),
        agreements::all(),
    ]
    .concat();
    for Case { tables, request } in &mut cases {
        request.operator = of_ike(tables, request.spi).unwrap_or(0);
    }
    [operators::all(), cases].concat()
}
