// The entries of a trace: what a call is given. Numbers have 64 bits here whatever their field, so that
// what has no room in it can be asked to be written.
use super::fields::MOST_RULES;
use crate::address::{AddressOctets, AddressPair};
use crate::policy;

#[derive(Debug, Clone, PartialEq, Eq)]
pub enum Entry {
    OpenBoth(Opening),
    AddIpsec { spi: u64, owner: u64, operator: u64 },
    CloseIke { spi: u64, operator: u64 },
    CloseIpsec { spi: u64, operator: u64 },
    Request(Request),
    Policy { count: u64, rules: Box<Rules>, operator: u64 },
    CheckResponse { spi: u64, id: u64, first: u64, body: Vec<u8>, operator: u64 },
    Clone { spi: u64, new_spi: u64, first: u64, body: Vec<u8>, operator: u64 },
    MarkDeletion { spi: u64, operator: u64 },
}

/// Those past the count aren't looked at.
pub type Rules = [Rule; MOST_RULES];

#[derive(Debug, Clone, Copy, Default, PartialEq, Eq)]
pub struct Pair {
    pub family: u64,
    pub source: AddressOctets,
    pub destination: AddressOctets,
    pub source_port: u64,
    pub destination_port: u64,
}

#[derive(Debug, Clone, Copy, Default, PartialEq, Eq)]
pub struct Opening {
    pub spi: u64,
    /// MOBIKE.
    pub agreed: u64,
    pub pair: Pair,
    /// The SPI of the IPsec record.
    pub child: u64,
    pub peer: u64,
    pub cloning: u64,
    pub operator: u64,
}

#[derive(Debug, Clone, Default, PartialEq, Eq)]
pub struct Request {
    pub spi: u64,
    pub id: u64,
    pub pair: Pair,
    pub nat_source: Vec<u8>,
    pub nat_destination: Vec<u8>,
    pub first: u64,
    pub body: Vec<u8>,
    pub cookie: Vec<u8>,
    /// The ID of our request.
    pub check_id: u64,
    pub operator: u64,
}

#[derive(Debug, Clone, Copy, Default, PartialEq, Eq)]
pub struct Rule {
    pub family: u64,
    pub source: AddressOctets,
    pub destination: AddressOctets,
    pub source_length: u64,
    pub destination_length: u64,
}

impl Entry {
    pub fn kind(&self) -> u64 {
        match self {
            Entry::OpenBoth(_) => 0,
            Entry::AddIpsec { .. } => 1,
            Entry::CloseIke { .. } => 2,
            Entry::CloseIpsec { .. } => 3,
            Entry::Request(_) => 4,
            Entry::Policy { .. } => 5,
            Entry::CheckResponse { .. } => 6,
            Entry::Clone { .. } => 7,
            Entry::MarkDeletion { .. } => 8,
        }
    }

    /// The setting of these rules, of which there are at most sixteen, for this operator.
    pub fn policy(rules: &[Rule], operator: u64) -> Self {
        let mut places = Rules::default();
        places[..rules.len()].copy_from_slice(rules);
        Entry::Policy { count: rules.len() as u64, rules: Box::new(places), operator }
    }
}

impl From<&AddressPair> for Pair {
    fn from(pair: &AddressPair) -> Self {
        Pair {
            family: u64::from(pair.family),
            source: pair.source,
            destination: pair.destination,
            source_port: u64::from(pair.source_port),
            destination_port: u64::from(pair.destination_port),
        }
    }
}

impl From<&policy::Rule> for Rule {
    fn from(rule: &policy::Rule) -> Self {
        Rule {
            family: u64::from(rule.family),
            source: rule.source,
            destination: rule.destination,
            source_length: u64::from(rule.source_length),
            destination_length: u64::from(rule.destination_length),
        }
    }
}
