//! An entry as slots, and the octets that they point into.
use super::slots::POLICY_OPERATOR;
use super::{Entry, Kind, Slots};
use crate::layout::{Opening, Operator, Pair, Policy, Rule};
use crate::limits::{ADDRESS_OCTETS, ENTRY_SLOTS};
use crate::{CheckResponse, CloneRequest, Request};

/// The kind, the slots and the source of an entry.
pub(super) fn into_slots(entry: &Entry<'_>) -> (Kind, Slots, Vec<u8>) {
    let mut told = Told { slots: [0; ENTRY_SLOTS], next: 0, source: Vec::new() };
    let kind = match entry {
        Entry::OpenBoth(opening) => told.opening(opening),
        Entry::AddIpsec { spi, owner, operator } => {
            told.number(*spi);
            told.number(*owner);
            told.operator(*operator);
            Kind::AddIpsec
        }
        Entry::CloseIke { spi, operator } => {
            told.number(*spi);
            told.operator(*operator);
            Kind::CloseIke
        }
        Entry::CloseIpsec { spi, operator } => {
            told.number(*spi);
            told.operator(*operator);
            Kind::CloseIpsec
        }
        Entry::Request(request) => told.request(request),
        Entry::Policy { policy, operator } => told.policy(policy, *operator),
        Entry::CheckResponse(response) => told.check_response(response),
        Entry::Clone(request) => told.clone_request(request),
        Entry::MarkDeletion { spi, operator } => {
            told.number(*spi);
            told.operator(*operator);
            Kind::MarkDeletion
        }
    };
    (kind, told.slots, told.source)
}

/// The slots that are filled so far. Each function fills those of one field, or of several.
struct Told {
    slots: Slots,
    next: usize,
    source: Vec<u8>,
}

impl Told {
    fn number(&mut self, number: impl Into<u64>) {
        if let Some(slot) = self.slots.get_mut(self.next) {
            *slot = number.into();
        }
        self.next += 1;
    }

    fn operator(&mut self, operator: Operator) {
        self.number(u8::from(operator));
    }

    fn address(&mut self, octets: &[u8; ADDRESS_OCTETS]) {
        self.number(self.source.len() as u64);
        self.source.extend(octets);
    }

    fn string(&mut self, octets: &[u8]) {
        self.number(self.source.len() as u64);
        self.number(octets.len() as u64);
        self.source.extend(octets);
    }

    fn pair(&mut self, pair: &Pair) {
        self.number(pair.family);
        self.address(&pair.source);
        self.address(&pair.destination);
        self.number(pair.source_port);
        self.number(pair.destination_port);
    }

    fn opening(&mut self, opening: &Opening) -> Kind {
        self.number(opening.spi);
        self.number(opening.agreed.mobike.is_set());
        self.pair(&opening.pair);
        self.number(opening.child);
        self.number(opening.agreed.peer);
        self.number(opening.agreed.cloning.is_set());
        self.operator(opening.agreed.operator);
        Kind::OpenBoth
    }

    fn request(&mut self, request: &Request<'_>) -> Kind {
        self.number(request.spi);
        self.number(request.id);
        self.pair(&request.pair);
        self.string(request.nat_source);
        self.string(request.nat_destination);
        self.number(request.first);
        self.string(request.body);
        self.string(request.cookie);
        self.number(request.check_id);
        self.operator(request.operator);
        Kind::Request
    }

    fn check_response(&mut self, response: &CheckResponse<'_>) -> Kind {
        self.number(response.spi);
        self.number(response.id);
        self.number(response.first);
        self.string(response.body);
        self.operator(response.operator);
        Kind::CheckResponse
    }

    fn clone_request(&mut self, request: &CloneRequest<'_>) -> Kind {
        self.number(request.spi);
        self.number(request.new_spi);
        self.number(request.first);
        self.string(request.body);
        self.operator(request.operator);
        Kind::Clone
    }

    fn rule(&mut self, rule: &Rule) {
        self.number(rule.family);
        self.address(&rule.source);
        self.address(&rule.destination);
        self.number(rule.source_len);
        self.number(rule.destination_len);
    }

    fn policy(&mut self, policy: &Policy, operator: Operator) -> Kind {
        self.number(policy.count);
        for rule in policy.rules.iter().take(usize::from(policy.count)) {
            self.rule(rule);
        }
        self.next = POLICY_OPERATOR;
        self.operator(operator);
        Kind::Policy
    }
}
