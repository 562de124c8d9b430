// Which operator a call of a case names: mostly the one whose record it means.
use crate::asked::Asked;
use crate::calls::Call;
use crate::opening::Adding;
use crate::operator::other;
use crate::rng::Rng;
use crate::rules::{Plain, TableRules};
use crate::tables::{find, IkeRecord, Tables};

/// Octets that are neither's: the least, those alike in their lowest bit or in their low half, and the greatest.
pub const NEITHER: [u8; 7] = [2, 3, 16, 127, 128, 254, 255];

/// A's, B's and some that are neither's.
pub const OCTETS: [u8; 5] = [0, 1, 2, 3, 255];

/// More of them: small ones, and those about powers of two.
pub const MORE_OCTETS: [u8; 16] = [0, 1, 2, 3, 4, 5, 7, 8, 16, 17, 127, 128, 129, 253, 254, 255];

/// The operator of the IKE record that the SPI means, if it is one of the two.
pub fn of_ike(tables: &Tables, spi: u64) -> Option<u8> {
    let place = find(&tables.ike.records, spi, &Plain)?;
    Plain.named(tables.ike.records[place].agreed.operator)
}

/// The same of an IPsec record.
pub fn of_ipsec(tables: &Tables, spi: u32) -> Option<u8> {
    let place = find(&tables.ipsec.records, u64::from(spi), &Plain)?;
    let operator = Plain.operator_of_ipsec(&tables.ike.records, &tables.ipsec.records[place]);
    operator.and_then(|operator| Plain.named(operator))
}

/// A or B.
pub fn one(rng: &mut Rng) -> u8 {
    rng.below(2) as u8
}

/// Mostly this one, if there is any; else the other, or an octet that is neither's.
pub fn drawn(rng: &mut Rng, its: Option<u8>) -> u8 {
    let its = its.unwrap_or_else(|| one(rng));
    let neither = rng.pick(&NEITHER);
    rng.pick_weighted(&[(28, its), (3, other(its)), (1, neither)])
}

/// What may stand in a record of tables not reached from empty ones.
pub fn in_record(rng: &mut Rng) -> u8 {
    let neither = rng.pick(&NEITHER);
    rng.pick_weighted(&[(3, 0), (3, 1), (1, neither)])
}

/// The operator whose record a call means on these tables, if it means one.
fn of_call(tables: &Tables, call: &Call) -> Option<u8> {
    match call {
        Call::OpenIpsec(Adding { owner: spi, .. })
        | Call::CloseIke { spi, .. }
        | Call::MarkDeletion { spi, .. } => of_ike(tables, *spi),
        Call::CloseIpsec { spi, .. } => of_ipsec(tables, *spi),
        Call::OpenBoth(_) | Call::SetPolicy { .. } | Call::Acceptable { .. } => None,
    }
}

/// Has each call name the operator whose record it means when its turn comes, if it means one.
pub fn suit_calls(tables: &Tables, calls: &mut [Call]) {
    let mut tables = tables.clone();
    for call in calls {
        if let Some(operator) = of_call(&tables, call) {
            *call.operator_mut() = operator;
        }
        call.make(&mut tables, &Plain);
    }
}

/// The same of a call of demand 3's lists, by the tables at first.
pub fn suit_asked(tables: &Tables, asked: &mut Asked) {
    if let Some(operator) = of_ike(tables, asked.spi()) {
        *asked.operator_mut() = operator;
    }
}

/// Gives the first so many places to A and the others to B.
pub fn divide(records: &mut [IkeRecord], of_a: usize) {
    for (place, record) in records.iter_mut().enumerate() {
        record.agreed.operator = u8::from(place >= of_a);
    }
}
