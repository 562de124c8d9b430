// The pairs that a replay prints at its end: one line for each record.
use crate::address::AddressPair;
use crate::rules::ReplayRules;
use crate::tables::{Record, Tables};

/// A record whose pair is printed.
#[derive(Debug, Clone, Copy, PartialEq, Eq)]
pub struct Shown {
    pub table: &'static str,
    pub spi: u64,
    pub pair: AddressPair,
}

pub fn pairs(tables: &Tables, rules: &(impl ReplayRules + ?Sized)) -> Vec<String> {
    let ike = tables.ike.records.iter().map(|record| ("ike", record.spi(), record.pair));
    let ipsec = tables.ipsec.records.iter().map(|record| ("ipsec", record.spi(), record.pair));
    let shown = rules.shown(shown(ike, rules), shown(ipsec, rules));
    shown.iter().map(|record| rules.pair(record)).collect()
}

fn shown(
    records: impl Iterator<Item = (&'static str, u64, AddressPair)>,
    rules: &(impl ReplayRules + ?Sized),
) -> Vec<Shown> {
    let shown = records.filter(|&(_, spi, _)| rules.is_shown(spi));
    shown.map(|(table, spi, pair)| Shown { table, spi, pair }).collect()
}
