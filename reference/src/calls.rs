// The table calls: what each is given, and the number it gives back.
use crate::address::AddressPair;
use crate::closing::{close_ike, close_ipsec};
use crate::deleting::mark_deletion;
use crate::opening::{open_ipsec, Adding};
use crate::opening_both::{open_both, Opening};
use crate::policy::{set, RuleList};
use crate::rules::{PolicyRules, Rules};
use crate::tables::Tables;

#[derive(Debug, Clone)]
pub enum Call {
    /// Of an IKE record and its first IPsec record.
    OpenBoth(Opening),
    /// Of another one.
    OpenIpsec(Adding),
    CloseIke {
        spi: u64,
        operator: u8,
    },
    CloseIpsec {
        spi: u32,
        operator: u8,
    },
    /// Of an IKE record that is being deleted.
    MarkDeletion {
        spi: u64,
        operator: u8,
    },
    SetPolicy {
        count: u16,
        rules: Box<RuleList>,
        operator: u8,
    },
    /// By the operator's policy.
    Acceptable {
        pair: AddressPair,
        operator: u8,
    },
}

/// Why a call changes nothing and writes nothing, with its number.
#[derive(Debug, Clone, Copy, PartialEq, Eq)]
pub enum Refusal {
    Argument = 1,
    OutputTooShort = 2,
    BodyTooLong = 3,
    NoSuchRecord = 4,
    MobikeNotAgreed = 5,
    AllInUse = 10,
    SpiInUse = 11,
    Policy = 12,
    NoPendingCheck = 14,
    CloningNotAgreed = 40,
    CannotCloneNow = 41,
    PeerAtLimit = 42,
    OperatorAtShare = 43,
    NoCloneRequest = 44,
}

/// Who is lent the IPsec list.
#[derive(Debug, Clone, Copy, PartialEq, Eq)]
pub enum User {
    OpeningBoth,
    OpeningIpsec,
    Closing,
    Handler,
    CheckResponse,
}

pub fn refuse_if(refused: bool, refusal: Refusal) -> Result<(), Refusal> {
    if refused {
        Err(refusal)
    } else {
        Ok(())
    }
}

impl Call {
    /// The operator that it names.
    pub fn operator(&self) -> u8 {
        match self {
            Call::OpenBoth(opening) => opening.agreed.operator,
            Call::OpenIpsec(adding) => adding.operator,
            Call::CloseIke { operator, .. }
            | Call::CloseIpsec { operator, .. }
            | Call::MarkDeletion { operator, .. }
            | Call::SetPolicy { operator, .. }
            | Call::Acceptable { operator, .. } => *operator,
        }
    }

    /// The same, to be changed.
    pub fn operator_mut(&mut self) -> &mut u8 {
        match self {
            Call::OpenBoth(opening) => &mut opening.agreed.operator,
            Call::OpenIpsec(adding) => &mut adding.operator,
            Call::CloseIke { operator, .. }
            | Call::CloseIpsec { operator, .. }
            | Call::MarkDeletion { operator, .. }
            | Call::SetPolicy { operator, .. }
            | Call::Acceptable { operator, .. } => operator,
        }
    }

    /// Makes the call on the tables; its number, or for `Acceptable` 1 if the pair is, else 0.
    pub fn make(&self, tables: &mut Tables, rules: &impl Rules) -> u8 {
        let (of_tables, of_policy) = (rules.tables(), rules.policy());
        let result = match self {
            Call::OpenBoth(opening) => open_both(tables, opening, of_tables),
            Call::OpenIpsec(adding) => open_ipsec(tables, adding, of_tables),
            Call::CloseIke { spi, operator } => close_ike(tables, *spi, *operator, of_tables),
            Call::CloseIpsec { spi, operator } => close_ipsec(tables, *spi, *operator, of_tables),
            Call::MarkDeletion { spi, operator } => {
                mark_deletion(tables, *spi, *operator, of_tables)
            }
            Call::SetPolicy { count, rules: list, operator } => {
                set(&mut tables.policies, (*count, list), *operator, rules)
            }
            Call::Acceptable { pair, operator } => {
                return u8::from(of_policy.asked(&mut tables.policies, pair, *operator));
            }
        };
        result.map_or_else(|refusal| refusal as u8, |()| 0)
    }
}
