// Faults of the rules of the round trips: wrong turns of what is asked of them, as those of demand 3 are.
use super::Row;
use crate::address::{Address, AddressPair};
use crate::asking::{Arguments, Ask};
use crate::chain::{Class, Payload};
use crate::kind::Kind;
use crate::notify::NotifyType;
use crate::plain::notify_type;
use crate::rules::{ChainRules, Plain, RoundTripRules};
use crate::summary::MAX_KEPT;

pub const FAULTS: &[Row<dyn RoundTripRules>] = &[
    (Kind::RoundTrips, "asked-list-once", "A list counts as one payload.", &AskedListOnce),
    (
        Kind::RoundTrips,
        "asked-past-count",
        "Addresses past the count are to be read back.",
        &AskedPastCount,
    ),
    (
        Kind::RoundTrips,
        "asked-pair-always",
        "The pair is to be read back without NO_NATS_ALLOWED too.",
        &AskedPairAlways,
    ),
    (
        Kind::RoundTrips,
        "asked-values-always",
        "The NAT values are to be read back where neither kind is asked for.",
        &AskedValuesAlways,
    ),
    (
        Kind::RoundTrips,
        "asked-clone-known",
        "The reader of other chains is to know CLONE_IKE_SA_SUPPORTED and CLONE_IKE_SA.",
        &AskedCloneKnown,
    ),
    (
        Kind::RoundTrips,
        "asked-support-clones",
        "A written CLONE_IKE_SA_SUPPORTED is to make a clone.",
        &AskedSupportClones,
    ),
    (
        Kind::RoundTrips,
        "plain-clone-protocol",
        "The protocol ID of CLONE_IKE_SA may be any.",
        &PlainCloneProtocol,
    ),
    (
        Kind::RoundTrips,
        "plain-mobike",
        "MOBIKE_SUPPORTED may be there.",
        &Overlooks(|payload| notify_type(payload) == Some(NotifyType::MOBIKE_SUPPORTED)),
    ),
    (
        Kind::RoundTrips,
        "plain-unknown",
        "Unknown payloads may be there.",
        &Overlooks(|payload| Plain.class(payload.payload_type) == Class::Unknown),
    ),
    (
        Kind::RoundTrips,
        "plain-skipped",
        "Skipped payloads may be there.",
        &Overlooks(|payload| Plain.class(payload.payload_type) == Class::Skipped),
    ),
    (Kind::RoundTrips, "plain-protocol", "Protocol IDs may be any.", &PlainProtocol),
    (
        Kind::RoundTrips,
        "plain-reserved",
        "Reserved bits may be set.",
        &ZeroFlags(|flags| flags & 0x80 == 0),
    ),
    (
        Kind::RoundTrips,
        "plain-any-order",
        "The payloads may have any order.",
        &InOrder(|_, _| true),
    ),
    (
        Kind::RoundTrips,
        "plain-family-order",
        "IPv4 addresses must come before IPv6 ones.",
        &InOrder(|types, sound| {
            let addresses = types.iter().filter(|it| it.is_additional_address());
            sound && addresses.is_sorted_by_key(|it| it.0)
        }),
    ),
    (
        Kind::RoundTrips,
        "plain-not-empty",
        "The empty chain isn't plainly read.",
        &InOrder(|types, sound| sound && !types.is_empty()),
    ),
    (
        Kind::RoundTrips,
        "plain-needs-update",
        "A chain without an update isn't plainly read.",
        &InOrder(|types, sound| sound && types.contains(&NotifyType::UPDATE_SA_ADDRESSES)),
    ),
    (Kind::RoundTrips, "plain-source-alone", "A NAT source may be there alone.", &Kinds((1, 0))),
    (Kind::RoundTrips, "plain-two-sources", "A second NAT source may be there.", &Kinds((2, 1))),
    (Kind::RoundTrips, "plain-seventeen", "There may be 17 addresses.", &PlainSeventeen),
];

struct AskedListOnce;
impl RoundTripRules for AskedListOnce {
    fn asked_payloads(&self, arguments: &Arguments) -> usize {
        let more = usize::from(arguments.ask.count.saturating_sub(1));
        Plain.asked_payloads(arguments) - more
    }
}

struct AskedPastCount;
impl RoundTripRules for AskedPastCount {
    fn asked_list(&self, arguments: &Arguments) -> [Address; MAX_KEPT] {
        arguments.addresses
    }
}

struct AskedPairAlways;
impl RoundTripRules for AskedPairAlways {
    fn asked_pair(&self, arguments: &Arguments) -> AddressPair {
        arguments.pair
    }
}

struct AskedValuesAlways;
impl RoundTripRules for AskedValuesAlways {
    fn asked_value(&self, _is_asked: bool, value: &[u8]) -> Vec<u8> {
        value.to_vec()
    }
}

struct AskedCloneKnown;
impl RoundTripRules for AskedCloneKnown {
    fn asked_unknown(&self, _ask: &Ask) -> usize {
        0
    }
}

struct AskedSupportClones;
impl RoundTripRules for AskedSupportClones {
    fn asked_in_rekey(&self, ask: &Ask) -> u8 {
        if ask.clone_supported {
            0
        } else {
            Plain.asked_in_rekey(ask)
        }
    }
}

struct PlainCloneProtocol;
impl RoundTripRules for PlainCloneProtocol {
    fn is_plain_clone(&self, payloads: &[Payload]) -> bool {
        let [payload] = payloads else { return false };
        notify_type(payload) == Some(NotifyType::CLONE_IKE_SA) && payload.flags == 0
    }
}

/// Doesn't look at some payloads.
struct Overlooks(fn(&Payload) -> bool);
impl RoundTripRules for Overlooks {
    fn written_types(&self, payloads: &[Payload]) -> Option<Vec<NotifyType>> {
        let looked_at = payloads.iter().filter(|payload| !self.0(payload));
        Plain.written_types(&looked_at.copied().collect::<Vec<_>>())
    }
}

struct PlainProtocol;
impl RoundTripRules for PlainProtocol {
    fn has_zero_header(&self, payload: &Payload) -> bool {
        Plain.has_zero_flags(payload.flags)
    }
}

struct ZeroFlags(fn(u8) -> bool);
impl RoundTripRules for ZeroFlags {
    fn has_zero_flags(&self, flags: u8) -> bool {
        self.0(flags)
    }
}

struct InOrder(fn(&[NotifyType], bool) -> bool);
impl RoundTripRules for InOrder {
    fn has_order(&self, types: &[NotifyType]) -> bool {
        self.0(types, Plain.has_order(types))
    }
}

struct Kinds((usize, usize));
impl RoundTripRules for Kinds {
    fn has_kinds(&self, sources: usize, destinations: usize) -> bool {
        (sources, destinations) == self.0 || Plain.has_kinds(sources, destinations)
    }
}

struct PlainSeventeen;
impl RoundTripRules for PlainSeventeen {
    fn has_few(&self, addresses: usize) -> bool {
        addresses <= MAX_KEPT + 1
    }
}
