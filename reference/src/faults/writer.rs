// Faults of the request writer's rules.
use super::Row;
use crate::address::{octet_count, Address, AddressPair};
use crate::asking::{Arguments, Ask, Check, LEAST_OUTPUT};
use crate::chain::{HEADER_LENGTH, NOTIFY};
use crate::kind::Kind;
use crate::notifications::{no_nats_data, Notification};
use crate::notify::{NotifyType, NOTIFY_LENGTH};
use crate::rules::{Plain, WriterRules};

pub const FAULTS: &[Row<dyn WriterRules>] = &[
    (Kind::Writer, "room-first", "Check 2 comes before check 1.", &RoomFirst),
    (
        Kind::Writer,
        "room-as-needed",
        "An output that holds what is asked for is enough.",
        &LeastOutput(|needed| needed),
    ),
    (
        Kind::Writer,
        "room-565",
        "An output of 564 octets isn't enough.",
        &LeastOutput(|_| LEAST_OUTPUT + 1),
    ),
    (
        Kind::Writer,
        "needs-update",
        "NO_NATS_ALLOWED or NAT values without an update give 1.",
        &NeedsUpdate,
    ),
    (Kind::Writer, "unasked-pair", "The pair is checked without NO_NATS_ALLOWED.", &UnaskedPair),
    (Kind::Writer, "pair-tail", "An IPv4 pair may have octets past the fourth.", &PairTail),
    (
        Kind::Writer,
        "unasked-values",
        "The NAT values are checked where neither kind is asked for.",
        &UnaskedValues,
    ),
    (Kind::Writer, "one-kind-written", "One NAT kind alone is written.", &OneKindWritten),
    (Kind::Writer, "value-of-19", "A NAT value of 19 octets is written.", &ValueOf19),
    (
        Kind::Writer,
        "none-with-addresses",
        "NO_ADDITIONAL_ADDRESSES is written with addresses.",
        &NoneWithAddresses,
    ),
    (Kind::Writer, "unasked-address", "Addresses past the count are checked.", &UnaskedAddress),
    (Kind::Writer, "fifteen-written", "Of 16 addresses the first 15 are written.", &FifteenWritten),
    (
        Kind::Writer,
        "seventeen-cut",
        "Of 17 addresses the first 16 are written.",
        &AllowsCount(|count| count == 17),
    ),
    (
        Kind::Writer,
        "address-tail",
        "An additional IPv4 address may have octets past the fourth.",
        &AllowsAddress(|address| octet_count(address.family).is_some()),
    ),
    (
        Kind::Writer,
        "cookie-7-written",
        "A cookie of 7 octets is written.",
        &AllowsCookie(|size| size == 7),
    ),
    (
        Kind::Writer,
        "clone-beside-update",
        "CLONE_IKE_SA is written beside an update.",
        &Beside(|it| it.ask.update = false),
    ),
    (
        Kind::Writer,
        "clone-beside-cookie",
        "CLONE_IKE_SA is written beside a cookie.",
        &Beside(|it| it.cookie.clear()),
    ),
    (
        Kind::Writer,
        "clone-beside-support",
        "CLONE_IKE_SA and CLONE_IKE_SA_SUPPORTED are written together.",
        &Beside(|it| it.ask.clone_supported &= !it.ask.clone),
    ),
    (
        Kind::Writer,
        "support-beside-any",
        "CLONE_IKE_SA_SUPPORTED is written beside anything.",
        &SupportBesideAny,
    ),
    (
        Kind::Writer,
        "written-clone-exchanged",
        "CLONE_IKE_SA is written for CLONE_IKE_SA_SUPPORTED, and the other way round.",
        &CloneExchanged,
    ),
    (
        Kind::Writer,
        "no-nats-first",
        "NO_NATS_ALLOWED is written before the update.",
        &First(NotifyType::NO_NATS_ALLOWED),
    ),
    (
        Kind::Writer,
        "destination-first",
        "The NAT destination is written before all others.",
        &First(NotifyType::NAT_DETECTION_DESTINATION_IP),
    ),
    (
        Kind::Writer,
        "families-sorted",
        "IPv4 addresses are written before IPv6 ones.",
        &FamiliesSorted,
    ),
    (
        Kind::Writer,
        "list-of-0-none",
        "A list of no addresses is written as NO_ADDITIONAL_ADDRESSES.",
        &ListOf0None,
    ),
    (
        Kind::Writer,
        "written-ports-swapped",
        "The ports of NO_NATS_ALLOWED are written in the other order.",
        &WrittenPortsSwapped,
    ),
    (
        Kind::Writer,
        "ipv6-as-ipv4",
        "IPv6 addresses are written as ADDITIONAL_IP4_ADDRESS.",
        &Ipv6AsIpv4,
    ),
    (Kind::Writer, "next-at-end", "The last payload announces another Notify.", &InLast(0, NOTIFY)),
    (
        Kind::Writer,
        "flag-written",
        "The critical bit of the last payload is set.",
        &InLast(1, 0x80),
    ),
    (
        Kind::Writer,
        "protocol-written",
        "The protocol ID of the last payload is 1.",
        &InLast(HEADER_LENGTH, 1),
    ),
    (
        Kind::Writer,
        "empty-first-41",
        "The first type is 41 where nothing is asked for.",
        &EmptyFirst41,
    ),
    (Kind::Writer, "length-off-by-one", "A length greater by one is told.", &LengthOffByOne),
    (
        Kind::Writer,
        "tail-overwritten",
        "The octet after the request is set to 0.",
        &TailOverwritten,
    ),
    (Kind::Writer, "refusal-clears", "A refusal sets the output to 0.", &RefusalClears),
];

struct RoomFirst;
impl WriterRules for RoomFirst {
    fn order(&self) -> [Check; 2] {
        [Check::Room, Check::Argument]
    }
}

struct LeastOutput(fn(usize) -> usize);
impl WriterRules for LeastOutput {
    fn least_output(&self, needed: usize) -> usize {
        self.0(needed)
    }
}

struct NeedsUpdate;
impl WriterRules for NeedsUpdate {
    fn is_sound(&self, arguments: &Arguments) -> bool {
        let needing = arguments.ask.no_nats || arguments.ask.nat_source;
        (arguments.ask.update || !needing) && Plain.is_sound(arguments)
    }
}

struct UnaskedPair;
impl WriterRules for UnaskedPair {
    fn is_pair_sound(&self, arguments: &Arguments) -> bool {
        arguments.pair.is_sound()
    }
}

struct PairTail;
impl WriterRules for PairTail {
    fn is_pair_sound(&self, arguments: &Arguments) -> bool {
        !arguments.ask.no_nats || octet_count(arguments.pair.family).is_some()
    }
}

struct UnaskedValues;
impl WriterRules for UnaskedValues {
    fn are_values_sound(&self, arguments: &Arguments) -> bool {
        let both = [&arguments.nat_source, &arguments.nat_destination];
        both.iter().all(|value| Plain.allows_value(value)) && Plain.are_values_sound(arguments)
    }
}

struct OneKindWritten;
impl WriterRules for OneKindWritten {
    fn are_values_sound(&self, arguments: &Arguments) -> bool {
        let one = arguments.ask.nat_source != arguments.ask.nat_destination;
        one || Plain.are_values_sound(arguments)
    }
}

struct ValueOf19;
impl WriterRules for ValueOf19 {
    fn allows_value(&self, value: &[u8]) -> bool {
        value.len() == 19 || Plain.allows_value(value)
    }
}

struct NoneWithAddresses;
impl WriterRules for NoneWithAddresses {
    fn is_list_sound(&self, arguments: &Arguments) -> bool {
        let mut ask = arguments.ask;
        ask.no_additional = false;
        Plain.is_list_sound(&Arguments { ask, ..arguments.clone() })
    }
}

struct UnaskedAddress;
impl WriterRules for UnaskedAddress {
    fn is_list_sound(&self, arguments: &Arguments) -> bool {
        arguments.addresses.iter().all(Address::is_sound) && Plain.is_list_sound(arguments)
    }
}

struct FifteenWritten;
impl WriterRules for FifteenWritten {
    fn listed<'a>(&self, arguments: &'a Arguments) -> &'a [Address] {
        let listed = Plain.listed(arguments);
        &listed[..listed.len().min(15)]
    }
}

struct AllowsCount(fn(u16) -> bool);
impl WriterRules for AllowsCount {
    fn allows_count(&self, count: u16) -> bool {
        self.0(count) || Plain.allows_count(count)
    }
}

struct AllowsAddress(fn(&Address) -> bool);
impl WriterRules for AllowsAddress {
    fn is_address_sound(&self, address: &Address) -> bool {
        self.0(address) || Plain.is_address_sound(address)
    }
}

struct AllowsCookie(fn(usize) -> bool);
impl WriterRules for AllowsCookie {
    fn allows_cookie(&self, size: usize) -> bool {
        self.0(size) || Plain.allows_cookie(size)
    }
}

/// Some of what is asked for may stand beside the two of clones.
struct Beside(fn(&mut Arguments));
impl WriterRules for Beside {
    fn is_alone(&self, arguments: &Arguments) -> bool {
        let mut others = arguments.clone();
        self.0(&mut others);
        Plain.is_alone(&others)
    }
}

struct SupportBesideAny;
impl WriterRules for SupportBesideAny {
    fn must_be_alone(&self, ask: &Ask) -> bool {
        ask.clone
    }
}

struct CloneExchanged;
impl WriterRules for CloneExchanged {
    fn notifications(&self, arguments: &Arguments) -> Vec<Notification> {
        let mut ask = arguments.ask;
        (ask.clone, ask.clone_supported) = (ask.clone_supported, ask.clone);
        Plain.notifications(&Arguments { ask, ..arguments.clone() })
    }
}

/// Puts a type before all others.
struct First(NotifyType);
impl WriterRules for First {
    fn notifications(&self, arguments: &Arguments) -> Vec<Notification> {
        let mut notifications = Plain.notifications(arguments);
        notifications.sort_by_key(|(notify_type, _)| *notify_type != self.0);
        notifications
    }
}

struct FamiliesSorted;
impl WriterRules for FamiliesSorted {
    fn notifications(&self, arguments: &Arguments) -> Vec<Notification> {
        let mut sorted = arguments.clone();
        let listed = arguments.listed().len();
        sorted.addresses[..listed].sort_by_key(|address| address.family);
        Plain.notifications(&sorted)
    }
}

struct ListOf0None;
impl WriterRules for ListOf0None {
    fn notifications(&self, arguments: &Arguments) -> Vec<Notification> {
        let mut ask = arguments.ask;
        ask.no_additional |= ask.count == 0;
        Plain.notifications(&Arguments { ask, ..arguments.clone() })
    }
}

struct WrittenPortsSwapped;
impl WriterRules for WrittenPortsSwapped {
    fn path(&self, arguments: &Arguments) -> Vec<u8> {
        let AddressPair { source_port, destination_port, .. } = arguments.pair;
        let (source_port, destination_port) = (destination_port, source_port);
        no_nats_data(&AddressPair { source_port, destination_port, ..arguments.pair })
    }
}

struct Ipv6AsIpv4;
impl WriterRules for Ipv6AsIpv4 {
    fn additional(&self, address: &Address) -> Notification {
        (NotifyType::ADDITIONAL_IP4_ADDRESS, Plain.additional(address).1)
    }
}

/// Writes this octet at this place of the last payload.
struct InLast(usize, u8);
impl WriterRules for InLast {
    fn header(&self, is_last: bool, notify_type: NotifyType, size: usize) -> [u8; NOTIFY_LENGTH] {
        let mut header = Plain.header(is_last, notify_type, size);
        if is_last {
            header[self.0] = self.1;
        }
        header
    }
}

struct EmptyFirst41;
impl WriterRules for EmptyFirst41 {
    fn first_type(&self, _chain: &[u8]) -> u8 {
        NOTIFY
    }
}

struct LengthOffByOne;
impl WriterRules for LengthOffByOne {
    fn length(&self, chain: &[u8]) -> usize {
        chain.len() + 1
    }
}

struct TailOverwritten;
impl WriterRules for TailOverwritten {
    fn output(&self, before: &[u8], chain: &[u8]) -> Vec<u8> {
        Plain.output(before, &[chain, &[0]].concat())
    }
}

struct RefusalClears;
impl WriterRules for RefusalClears {
    fn output_refused(&self, before: &[u8]) -> Vec<u8> {
        vec![0; before.len()]
    }
}
