//! What the slots of an entry say.
use super::slots::POLICY_OPERATOR;
use super::{Entry, Kind, Slots};
use crate::layout::{Agreed, Opening, Operator, Pair, Policy, Rule};
use crate::limits::ADDRESS_OCTETS;
use crate::{CheckResponse, CloneRequest, Request};

/// The entry that was read with these slots from this trace. Each number fits its field there, so that none
/// is cut here.
pub(super) fn from_slots<'a>(kind: Kind, slots: &Slots, trace: &'a [u8]) -> Option<Entry<'a>> {
    let mut said = Said { slots: slots.iter(), trace };
    Some(match kind {
        Kind::OpenBoth => Entry::OpenBoth(said.opening()),
        Kind::AddIpsec => Entry::AddIpsec {
            spi: said.number() as u32,
            owner: said.number(),
            operator: said.operator(),
        },
        Kind::CloseIke => Entry::CloseIke { spi: said.number(), operator: said.operator() },
        Kind::CloseIpsec => {
            Entry::CloseIpsec { spi: said.number() as u32, operator: said.operator() }
        }
        Kind::Request => Entry::Request(said.request()),
        Kind::Policy => {
            let operator = Operator::from(slots[POLICY_OPERATOR] as u8);
            Entry::Policy { policy: said.policy(), operator }
        }
        Kind::CheckResponse => Entry::CheckResponse(said.check_response()),
        Kind::Clone => Entry::Clone(said.clone_request()),
        Kind::MarkDeletion => Entry::MarkDeletion { spi: said.number(), operator: said.operator() },
        Kind::Other(_) => return None,
    })
}

/// The slots that are still to be looked at. Each function takes those of one field, or of several.
struct Said<'a, 'b> {
    slots: std::slice::Iter<'b, u64>,
    trace: &'a [u8],
}

impl<'a> Said<'a, '_> {
    fn number(&mut self) -> u64 {
        self.slots.next().copied().unwrap_or_default()
    }

    fn operator(&mut self) -> Operator {
        Operator::from(self.number() as u8)
    }

    fn part(&self, start: u64, length: u64) -> &'a [u8] {
        let end = start.saturating_add(length) as usize;
        self.trace.get(start as usize..end).unwrap_or_default()
    }

    fn address(&mut self) -> [u8; ADDRESS_OCTETS] {
        let start = self.number();
        self.part(start, ADDRESS_OCTETS as u64).try_into().unwrap_or_default()
    }

    fn string(&mut self) -> &'a [u8] {
        let start = self.number();
        let length = self.number();
        self.part(start, length)
    }

    fn pair(&mut self) -> Pair {
        Pair {
            family: self.number() as u8,
            source: self.address(),
            destination: self.address(),
            source_port: self.number() as u16,
            destination_port: self.number() as u16,
        }
    }

    fn opening(&mut self) -> Opening {
        // What is agreed stands at two places: a later field joins at the end of its entry.
        let (spi, mobike) = (self.number(), self.number() != 0);
        let (pair, child) = (self.pair(), self.number() as u32);
        let (peer, cloning) = (self.number() as u32, self.number() != 0);
        let operator = self.operator();
        let agreed = Agreed { mobike: mobike.into(), cloning: cloning.into(), operator, peer };
        Opening { spi, agreed, pair, child }
    }

    fn request(&mut self) -> Request<'a> {
        Request {
            spi: self.number(),
            id: self.number() as u32,
            pair: self.pair(),
            nat_source: self.string(),
            nat_destination: self.string(),
            first: self.number() as u8,
            body: self.string(),
            cookie: self.string(),
            check_id: self.number() as u32,
            operator: self.operator(),
        }
    }

    fn check_response(&mut self) -> CheckResponse<'a> {
        CheckResponse {
            spi: self.number(),
            id: self.number() as u32,
            first: self.number() as u8,
            body: self.string(),
            operator: self.operator(),
        }
    }

    fn clone_request(&mut self) -> CloneRequest<'a> {
        CloneRequest {
            spi: self.number(),
            new_spi: self.number(),
            first: self.number() as u8,
            body: self.string(),
            operator: self.operator(),
        }
    }

    fn rule(&mut self) -> Rule {
        Rule {
            family: self.number() as u8,
            source: self.address(),
            destination: self.address(),
            source_len: self.number() as u8,
            destination_len: self.number() as u8,
        }
    }

    fn policy(&mut self) -> Policy {
        let mut policy = Policy { count: self.number() as u16, ..Policy::EMPTY };
        for rule in policy.rules.iter_mut().take(usize::from(policy.count)) {
            *rule = self.rule();
        }
        policy
    }
}
