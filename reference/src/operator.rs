// The two operators that share the gateway, and what each has in the tables.
use crate::rules::{Plain, TableRules};
use crate::tables::{IkeRecord, IpsecRecord, Record, Tables};

/// How many there are: A, which is 0, and B, which is 1. An octet above 1 is neither's.
pub const OPERATORS: usize = 2;

/// The operator that a call names; none if it gives an octet that is neither's.
pub type Named = Option<u8>;

/// The other one of the two.
pub fn other(operator: u8) -> u8 {
    1 - operator.min(1)
}

/// An operator's records as it may see them: all their fields, and not their places.
#[derive(Debug, Clone, PartialEq, Eq)]
pub struct View {
    /// By rising SPI.
    pub ike: Vec<IkeRecord>,
    /// Likewise.
    pub ipsec: Vec<IpsecRecord>,
}

impl View {
    pub fn of(tables: &Tables, operator: u8) -> Self {
        let (ike, ipsec) = (&tables.ike.records, &tables.ipsec.records);
        let is_its =
            |record: &&IkeRecord| record.is_in_use() && Plain.operator_of_ike(record) == operator;
        let is_owned = |record: &&IpsecRecord| {
            record.is_in_use() && Plain.operator_of_ipsec(ike, record) == Some(operator)
        };
        let mut ike: Vec<IkeRecord> = ike.iter().filter(is_its).copied().collect();
        let mut ipsec: Vec<IpsecRecord> = ipsec.iter().filter(is_owned).copied().collect();
        ike.sort_by_key(|record| record.spi);
        ipsec.sort_by_key(|record| record.spi);
        View { ike, ipsec }
    }
}
