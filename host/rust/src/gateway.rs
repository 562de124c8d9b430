//! The tables and the policies of one gateway, owned together.
use crate::layout::{
    Assessment, CloneReply, IkeRecord, IpsecRecord, Opening, Operator, Pair, Policy, Reply, Rule,
};
use crate::limits::{IKE_PLACES, IPSEC_PLACES, OPERATORS, RULES_MOST};
use crate::{CheckResponse, CloneRequest, Number, Request};

/// A gateway's tables and policies, empty at first. A host that keeps them elsewhere lends them to the
/// functions of this crate, to which each call here is handed.
#[derive(Debug, Clone, PartialEq, Eq)]
pub struct Gateway {
    /// The IKE records.
    pub ike: Box<[IkeRecord; IKE_PLACES]>,
    /// The IPsec records.
    pub ipsec: Box<[IpsecRecord; IPSEC_PLACES]>,
    /// The address policies: operator A's, then B's.
    pub policies: [Policy; OPERATORS],
}

impl Gateway {
    /// Empty tables and empty policies, which accept nothing.
    pub fn new() -> Self {
        Gateway {
            ike: Box::new([IkeRecord::FREE; IKE_PLACES]),
            ipsec: Box::new([IpsecRecord::FREE; IPSEC_PLACES]),
            policies: [Policy::EMPTY; OPERATORS],
        }
    }

    /// As [`open`](crate::open).
    pub fn open(&mut self, opening: &Opening) -> Number {
        crate::open(&mut self.ike, &mut self.ipsec[..], opening)
    }

    /// As [`open_ipsec`](crate::open_ipsec).
    pub fn open_ipsec(&mut self, spi: u32, owner: u64, operator: Operator) -> Number {
        crate::open_ipsec(&self.ike, &mut self.ipsec[..], spi, owner, operator)
    }

    /// As [`close_ike`](crate::close_ike).
    pub fn close_ike(&mut self, spi: u64, operator: Operator) -> Number {
        crate::close_ike(&mut self.ike, &mut self.ipsec[..], spi, operator)
    }

    /// As [`close_ipsec`](crate::close_ipsec).
    pub fn close_ipsec(&mut self, spi: u32, operator: Operator) -> Number {
        crate::close_ipsec(&self.ike, &mut self.ipsec[..], spi, operator)
    }

    /// As [`mark_deletion`](crate::mark_deletion).
    pub fn mark_deletion(&mut self, spi: u64, operator: Operator) -> Number {
        crate::mark_deletion(&mut self.ike, spi, operator)
    }

    /// As [`set_policy`](crate::set_policy), with all of these rules; over [`RULES_MOST`] of them are refused
    /// there.
    pub fn set_policy(&mut self, rules: &[Rule], operator: Operator) -> Number {
        let count = u16::try_from(rules.len()).unwrap_or(u16::MAX);
        let mut places = [Rule::NONE; RULES_MOST];
        for (place, rule) in places.iter_mut().zip(rules) {
            *place = *rule;
        }
        crate::set_policy(&mut self.policies, count, &places, operator)
    }

    /// As [`acceptable`](crate::acceptable).
    #[must_use]
    pub fn acceptable(&self, pair: &Pair, operator: Operator) -> bool {
        crate::acceptable(&self.policies, pair, operator)
    }

    /// As [`handle`](crate::handle).
    pub fn handle(&mut self, request: &Request<'_>, out: &mut [u8]) -> Reply {
        crate::handle(&mut self.ike, &self.ipsec[..], &self.policies, request, out)
    }

    /// As [`check`](crate::check).
    pub fn check(&mut self, response: &CheckResponse<'_>) -> Assessment {
        crate::check(&mut self.ike, &mut self.ipsec[..], response)
    }

    /// As [`clone_ike`](crate::clone_ike).
    pub fn clone_ike(&mut self, request: &CloneRequest<'_>, out: &mut [u8]) -> CloneReply {
        crate::clone_ike(&mut self.ike, request, out)
    }
}

/// Looking at records, such as for a host that is to move the SAs of its kernel.
impl Gateway {
    /// The IKE record with this SPI, at the lowest place if there are several; none for an SPI of 0.
    pub fn ike_record(&self, spi: u64) -> Option<&IkeRecord> {
        self.ike.iter().find(|record| spi != 0 && record.spi == spi)
    }

    /// The IPsec record with this SPI, likewise.
    pub fn ipsec_record(&self, spi: u32) -> Option<&IpsecRecord> {
        self.ipsec.iter().find(|record| spi != 0 && record.spi == spi)
    }

    /// The IKE records in use of this operator: at [`IKE_SHARE`](crate::limits::IKE_SHARE) of them a further
    /// one is refused.
    pub fn ike_of(&self, operator: Operator) -> impl Iterator<Item = &IkeRecord> {
        self.ike.iter().filter(move |record| record.spi != 0 && record.agreed.operator == operator)
    }

    /// The IPsec records in use of this operator, by the IKE record that owns each: at
    /// [`IPSEC_SHARE`](crate::limits::IPSEC_SHARE) of them a further one is refused.
    pub fn ipsec_of(&self, operator: Operator) -> impl Iterator<Item = &IpsecRecord> {
        self.ipsec.iter().filter(move |record| {
            let owner = self.ike_record(record.owner);
            record.spi != 0 && owner.is_some_and(|owner| owner.agreed.operator == operator)
        })
    }

    /// The IKE records in use of this operator with this peer number: at
    /// [`PEER_RECORDS_MOST`](crate::limits::PEER_RECORDS_MOST) of them a clone of one is refused.
    pub fn of_peer(&self, peer: u32, operator: Operator) -> impl Iterator<Item = &IkeRecord> {
        self.ike_of(operator).filter(move |record| record.agreed.peer == peer)
    }

    /// The IPsec records in use that this IKE record owns: exactly those that an accepted check moves.
    pub fn owned(&self, owner: u64) -> impl Iterator<Item = &IpsecRecord> {
        self.ipsec.iter().filter(move |record| record.spi != 0 && record.owner == owner)
    }

    /// The IPsec records that moved since `before`, a clone of them all: each as it was and as it is.
    pub fn moved<'a>(
        &'a self,
        before: &'a [IpsecRecord; IPSEC_PLACES],
    ) -> impl Iterator<Item = (&'a IpsecRecord, &'a IpsecRecord)> {
        before.iter().zip(self.ipsec.iter()).filter(|(was, is)| {
            is.spi != 0 && (was.spi, was.owner) == (is.spi, is.owner) && was.pair != is.pair
        })
    }
}

impl Default for Gateway {
    fn default() -> Self {
        Gateway::new()
    }
}
