// Random calls: up to twelve in a row, each drawn to suit the tables that the one before left.
use super::super::operators;
use super::{agreements, pairs, rules, spis};
use crate::calls::Call;
use crate::opening::Adding;
use crate::opening_both::Opening;
use crate::rng::Rng;
use crate::rules::Plain;
use crate::tables::{Record, Tables, IKE_PLACES, IPSEC_PLACES};

#[derive(Debug, Clone, Copy)]
enum Making {
    OpenBoth,
    OpenIpsec,
    CloseIke,
    CloseIpsec,
    MarkDeletion,
    SetPolicy,
    Acceptable,
}

const WEIGHTS: [(usize, Making); 7] = [
    (6, Making::OpenBoth),
    (5, Making::OpenIpsec),
    (3, Making::CloseIke),
    (3, Making::CloseIpsec),
    (2, Making::MarkDeletion),
    (2, Making::SetPolicy),
    (4, Making::Acceptable),
];

const MOST_CALLS: usize = 12;

pub fn calls(rng: &mut Rng, tables: &Tables) -> Vec<Call> {
    let count = if rng.one_in(2) { 1 } else { rng.between(2, MOST_CALLS) };
    let mut tables = tables.clone();
    let mut calls = Vec::with_capacity(count);
    for _ in 0..count {
        let call = call(rng, &tables);
        call.make(&mut tables, &Plain);
        calls.push(call);
    }
    calls
}

fn call(rng: &mut Rng, tables: &Tables) -> Call {
    match rng.pick_weighted(&WEIGHTS) {
        Making::OpenBoth => Call::OpenBoth(opening(rng, tables)),
        Making::OpenIpsec => {
            let (spi, owner) = (ipsec_spi(rng, tables, 1), ike_spi(rng, tables, 8));
            let operator = operators::drawn(rng, operators::of_ike(tables, owner));
            Call::OpenIpsec(Adding { spi, owner, operator })
        }
        Making::CloseIke => {
            let spi = ike_spi(rng, tables, 8);
            Call::CloseIke { spi, operator: operators::drawn(rng, operators::of_ike(tables, spi)) }
        }
        Making::CloseIpsec => {
            let spi = ipsec_spi(rng, tables, 8);
            let operator = operators::drawn(rng, operators::of_ipsec(tables, spi));
            Call::CloseIpsec { spi, operator }
        }
        Making::MarkDeletion => {
            let spi = ike_spi(rng, tables, 8);
            let operator = operators::drawn(rng, operators::of_ike(tables, spi));
            Call::MarkDeletion { spi, operator }
        }
        Making::SetPolicy => {
            let (count, rules) = rules::list_to_set(rng);
            Call::SetPolicy { count, rules: Box::new(rules), operator: operators::drawn(rng, None) }
        }
        Making::Acceptable => {
            let operator = operators::drawn(rng, None);
            let policy = &tables.policies[usize::from(operator & 1)];
            Call::Acceptable { pair: rules::pair_near(rng, policy), operator }
        }
    }
}

/// Often one in which nothing is wrong but perhaps for the tables, else any.
fn opening(rng: &mut Rng, tables: &Tables) -> Opening {
    let mut agreed = agreements::any(rng);
    if rng.one_in(3) {
        agreed.operator = operators::one(rng);
        let (spi, child) = (other_ike_spi(rng), other_ipsec_spi(rng));
        return Opening { spi, agreed, pair: pairs::pair(rng), child };
    }
    let (spi, child) = (ike_spi(rng, tables, 1), ipsec_spi(rng, tables, 1));
    Opening { spi, agreed, pair: pairs::any_pair(rng), child }
}

/// That of a record as often as `in_use` says, else one of few, one that is hardly in use, or 0.
pub fn ike_spi(rng: &mut Rng, tables: &Tables, in_use: usize) -> u64 {
    let few = rng.pick(&spis::FEW_IKE);
    let other = other_ike_spi(rng);
    let there = spi_in_use(rng, &tables.ike.records).unwrap_or(few);
    rng.pick_weighted(&[(in_use, there), (2, few), (3, other), (1, 0)])
}

/// As `ike_spi`, of the other table.
pub fn ipsec_spi(rng: &mut Rng, tables: &Tables, in_use: usize) -> u32 {
    let few = rng.pick(&spis::FEW_IPSEC);
    let other = other_ipsec_spi(rng);
    let there = spi_in_use(rng, &tables.ipsec.records).map_or(few, |spi| spi as u32);
    rng.pick_weighted(&[(in_use, there), (2, few), (3, other), (1, 0)])
}

/// One of those that are hardly in use.
fn other_ike_spi(rng: &mut Rng) -> u64 {
    spis::ike(IKE_PLACES + rng.below(4))
}

fn other_ipsec_spi(rng: &mut Rng) -> u32 {
    spis::ipsec(IPSEC_PLACES + rng.below(4))
}

/// The SPI of some record.
fn spi_in_use<R: Record>(rng: &mut Rng, records: &[R]) -> Option<u64> {
    let start = rng.below(records.len().max(1));
    let mut turned = records[start..].iter().chain(&records[..start]);
    turned.find(|record| record.is_in_use()).map(Record::spi)
}
