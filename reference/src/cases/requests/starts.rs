// The tables that random requests are made on; their policies accept nothing, some pairs or all.
use super::super::operators;
use super::super::tables::shapes::Shape;
use super::super::tables::{agreements, pairs};
use crate::policy::{Policy, Rule};
use crate::rng::Rng;
use crate::rules::Plain;
use crate::tables::{find, Tables};

const WEIGHTS: [(usize, Shape); 5] = [
    (1, Shape::Empty),
    (8, Shape::Reached),
    (4, Shape::Full),
    (8, Shape::Dense),
    (8, Shape::Hostile),
];

pub fn tables(rng: &mut Rng) -> Tables {
    let mut tables = rng.pick_weighted(&WEIGHTS).tables(rng);
    for policy in &mut tables.policies {
        if rng.one_in(2) {
            open(policy);
        }
    }
    if rng.one_in(6) {
        share_pair(rng, &mut tables);
    }
    tables
}

/// Gives all records one pair, as of displays behind one NAT.
fn share_pair(rng: &mut Rng, tables: &mut Tables) {
    let pair = pairs::pair(rng);
    tables.ike_mut().iter_mut().for_each(|record| record.pair = pair);
    tables.ipsec_mut().iter_mut().for_each(|record| record.pair = pair);
}

/// Makes the policy accept all pairs, by its first two rules.
pub fn open(policy: &mut Policy) {
    policy.count = policy.count.max(2);
    policy.rules[0] = Rule { family: 4, ..Rule::ZERO };
    policy.rules[1] = Rule { family: 6, ..Rule::ZERO };
}

/// Makes MOBIKE agreed in the record that the SPI means, if there is one and it isn't yet; and the record one of the
/// two operators'.
pub fn agree(rng: &mut Rng, tables: &mut Tables, spi: u64) {
    if let Some(place) = find(&tables.ike.records, spi, &Plain) {
        if tables.ike.records[place].agreed.mobike == 0 {
            tables.ike_mut()[place].agreed.mobike = agreements::yes(rng);
        }
        if tables.ike.records[place].agreed.operator > 1 && !rng.one_in(8) {
            tables.ike_mut()[place].agreed.operator = operators::one(rng);
        }
    }
}
