// Single changes to a written request: to its order, its payloads, their headers and its end.
use super::super::reader::atoms;
use super::super::reader::damage::insert;
use super::super::reader::draft::{ChainDraft, Draft};
use crate::notify::NotifyType;
use crate::request::NAT_VALUE_LENGTH;
use crate::rng::Rng;
use crate::summary::MAX_KEPT;

const SOURCE: NotifyType = NotifyType::NAT_DETECTION_SOURCE_IP;
const DESTINATION: NotifyType = NotifyType::NAT_DETECTION_DESTINATION_IP;

#[derive(Debug, Clone, Copy, PartialEq, Eq)]
pub enum Change {
    Swap,
    CriticalBit,
    ReservedBit,
    Protocol,
    Mobike,
    UnknownNotify,
    UnknownPayload,
    Skipped,
    SecondNatSource,
    NatSourceOnly,
    NatDestinationOnly,
    SeventeenAddresses,
    Alternating,
    SpiSize,
    NotifyType,
    TrailingOctet,
    Truncated,
}

impl Change {
    pub const ALL: [Change; 17] = [
        Change::Swap,
        Change::CriticalBit,
        Change::ReservedBit,
        Change::Protocol,
        Change::Mobike,
        Change::UnknownNotify,
        Change::UnknownPayload,
        Change::Skipped,
        Change::SecondNatSource,
        Change::NatSourceOnly,
        Change::NatDestinationOnly,
        Change::SeventeenAddresses,
        Change::Alternating,
        Change::SpiSize,
        Change::NotifyType,
        Change::TrailingOctet,
        Change::Truncated,
    ];

    /// Changes the chain; one that lacks what is to be changed may stay as it is.
    pub fn apply(self, rng: &mut Rng, chain: &mut ChainDraft) {
        match self {
            Change::Swap => swap(rng, &mut chain.payloads),
            Change::Mobike => insert(rng, chain, Draft::notify(NotifyType::MOBIKE_SUPPORTED, &[])),
            Change::UnknownNotify => {
                let notify_type = atoms::unknown_notify_type(rng);
                insert(rng, chain, Draft::notify(notify_type, &[]));
            }
            Change::UnknownPayload => {
                let payload_type = atoms::unknown_type(rng);
                insert(rng, chain, Draft::payload(payload_type, 0, vec![]));
            }
            Change::Skipped => {
                let payload_type = rng.pick(&[33, 40, 42, 48]);
                insert(rng, chain, Draft::payload(payload_type, 0, vec![]));
            }
            Change::SecondNatSource => double_source(rng, &mut chain.payloads),
            Change::NatSourceOnly => leave_one_kind(rng, chain, [SOURCE, DESTINATION]),
            Change::NatDestinationOnly => leave_one_kind(rng, chain, [DESTINATION, SOURCE]),
            Change::SeventeenAddresses => replace_list(rng, chain, MAX_KEPT + 1),
            Change::Alternating => {
                let count = rng.between(2, MAX_KEPT);
                replace_list(rng, chain, count);
            }
            Change::TrailingOctet => chain.tail.push(rng.pick(&[0, 0, 41, 255])),
            Change::Truncated => truncate(rng, chain),
            Change::CriticalBit
            | Change::ReservedBit
            | Change::Protocol
            | Change::SpiSize
            | Change::NotifyType => self.apply_to_header(rng, &mut chain.payloads),
        }
    }

    /// Changes a field of one of the payloads, all of which are notifications at first.
    fn apply_to_header(self, rng: &mut Rng, payloads: &mut [Draft]) {
        if payloads.is_empty() {
            return;
        }
        let payload = &mut payloads[rng.below(payloads.len())];
        match (self, &mut payload.content[..]) {
            (Change::CriticalBit, _) => payload.flags ^= 0x80,
            (Change::ReservedBit, _) => payload.flags ^= 1 << rng.below(7),
            (Change::Protocol, [protocol, ..]) => *protocol ^= 1 << rng.below(8),
            (Change::SpiSize, [_, size, ..]) => *size = rng.pick(&[1, 4, 8, 255]),
            (Change::NotifyType, [_, _, high, low, ..]) => {
                [*high, *low] = rng.pick(&NotifyType::KNOWN).0.to_be_bytes();
            }
            _ => {}
        }
    }
}

/// Exchanges two payloads, mostly neighbours.
fn swap(rng: &mut Rng, payloads: &mut [Draft]) {
    if payloads.len() < 2 {
        return;
    }
    let one = rng.below(payloads.len() - 1);
    let other = if rng.one_in(3) { payloads.len() - 1 } else { one + 1 };
    payloads.swap(one, other);
}

/// Puts a NAT source beside the one that is there, or before all.
fn double_source(rng: &mut Rng, payloads: &mut Vec<Draft>) {
    let place = payloads.iter().position(|payload| payload.is_notify(SOURCE));
    let source = Draft::notify(SOURCE, &rng.octets(NAT_VALUE_LENGTH));
    payloads.insert(place.map_or(0, |place| place + rng.below(2)), source);
}

/// Takes the one NAT kind out, and sees that the other is there, in its place in the order.
fn leave_one_kind(rng: &mut Rng, chain: &mut ChainDraft, [left, taken]: [NotifyType; 2]) {
    if !chain.has(left) {
        let earlier = [NotifyType::UPDATE_SA_ADDRESSES, NotifyType::NO_NATS_ALLOWED];
        let is_earlier = |payload: &Draft| earlier.iter().any(|&kind| payload.is_notify(kind));
        let place = chain.payloads.iter().take_while(|payload| is_earlier(payload)).count();
        let value = rng.octets(NAT_VALUE_LENGTH);
        chain.payloads.insert(place, Draft::notify(left, &value));
    }
    chain.remove(taken);
}

/// Puts so many addresses, of families that take turns, in the place of any list.
fn replace_list(rng: &mut Rng, chain: &mut ChainDraft, count: usize) {
    let families =
        [(NotifyType::ADDITIONAL_IP4_ADDRESS, 4), (NotifyType::ADDITIONAL_IP6_ADDRESS, 16)];
    chain.remove(NotifyType::NO_ADDITIONAL_ADDRESSES);
    families.iter().for_each(|&(family, _)| chain.remove(family));
    let turn = rng.below(2);
    let list = (0..count).map(|place| {
        let (family, size) = families[(place + turn) % 2];
        Draft::notify(family, &rng.octets(size))
    });
    let list: Vec<Draft> = list.collect();
    let is_cookie = |payload: &Draft| payload.is_notify(NotifyType::COOKIE2);
    let end = chain.payloads.iter().position(is_cookie).unwrap_or(chain.payloads.len());
    chain.payloads.splice(end..end, list);
}

/// Takes the last payload away, or octets of it.
fn truncate(rng: &mut Rng, chain: &mut ChainDraft) {
    let Some(last) = chain.payloads.last_mut() else { return };
    last.told_length = Some(last.size() as u16);
    last.content.truncate(rng.below(last.content.len().max(1)));
    if rng.one_in(3) {
        chain.last_next = last.payload_type;
        chain.payloads.pop();
    }
}
