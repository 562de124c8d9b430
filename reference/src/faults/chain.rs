// Faults of the payload chain's rules.
use super::Row;
use crate::chain::{self, Chain, Class, Exchange, Payload, NOTIFY};
use crate::flaws::{Cause, Flaw};
use crate::kind::Kind;
use crate::notify::{Notify, NotifyType, NOTIFY_LENGTH};
use crate::rules::{ChainRules, Plain};
use crate::summary::{NoNatsAllowed, Part};

pub const FAULTS: &[Row<dyn ChainRules>] = &[
    (Kind::Reader, "long-body", "A body of 4,097 octets is read.", &LongBody),
    (Kind::Reader, "types-49-known", "Types 49 to 54 are skipped as known.", &Types49Known),
    (
        Kind::Reader,
        "critical-reserved",
        "Any bit of the flags makes an unknown payload critical.",
        &CriticalReserved,
    ),
    (
        Kind::Reader,
        "critical-skipped",
        "An unknown critical payload is skipped and tallied.",
        &CriticalSkipped,
    ),
    (
        Kind::Reader,
        "critical-known",
        "A skipped payload with the critical bit gives 7.",
        &CriticalKnown,
    ),
    (
        Kind::Reader,
        "spi-unbounded",
        "An SPI past the Notify's length is cut to it and let through.",
        &SpiUnbounded,
    ),
    (Kind::Reader, "cookie-65", "COOKIE2 may have 65 octets.", &Cookie65),
    (Kind::Reader, "mobike-spi", "MOBIKE_SUPPORTED may have an SPI.", &MobikeSpi),
    (Kind::Reader, "cookie-repeated", "A second COOKIE2 is let through.", &CookieRepeated),
    (
        Kind::Reader,
        "nat-source-once",
        "A second NAT_DETECTION_SOURCE_IP is refused.",
        &NatSourceOnce,
    ),
    (
        Kind::Reader,
        "contradiction-one-way",
        "NO_ADDITIONAL_ADDRESSES with an ADDITIONAL address is let through where the address comes first.",
        &ContradictionOneWay,
    ),
    (Kind::Reader, "malformed-unsplit", "6 is told in place of 61 to 65.", &MalformedUnsplit),
    (Kind::Reader, "short-notify-61", "A Notify under 8 octets gives 61.", &ShortNotify61),
    (
        Kind::Reader,
        "forbidden-spi-63",
        "An SPI that the notify type has none of gives 63.",
        &ForbiddenSpi63,
    ),
    (
        Kind::Reader,
        "ordinal-of-earlier",
        "Of a repeated notification the ordinal of the earlier is told.",
        &OrdinalOfEarlier,
    ),
    (
        Kind::Reader,
        "contradiction-earlier",
        "NO_ADDITIONAL_ADDRESSES with an ADDITIONAL address is told at the earlier of the two.",
        &ContradictionEarlier,
    ),
    (Kind::Reader, "leftover-ignored", "Octets after type 0 are let through.", &LeftoverIgnored),
    (Kind::Reader, "leftover-61", "Octets after the end give 61.", &Leftover61),
    (
        Kind::Reader,
        "missing-at-announcer",
        "A missing or cut payload is told at the offset of the payload before it.",
        &MissingAtAnnouncer,
    ),
    (
        Kind::Reader,
        "cut-header-65",
        "One to three octets where a payload is announced give 65.",
        &CutHeader65,
    ),
    (
        Kind::Reader,
        "last-flaw",
        "Of several flaws the one at the greatest offset is told.",
        &LastFlaw,
    ),
    (
        Kind::Reader,
        "number-before-offset",
        "Of all flaws the one with the lowest number is told, and 7 last.",
        &NumberBeforeOffset,
    ),
    (Kind::Reader, "critical-first", "In one payload 7 is told before 61.", &CriticalFirst),
    (
        Kind::Reader,
        "repetition-before-size",
        "In one payload 64 is told before 62 and 63.",
        &RepetitionBeforeSize,
    ),
    (
        Kind::Reader,
        "payload-ordinal-octet",
        "The low 8 bits of the ordinal are told.",
        &PayloadOrdinalOctet,
    ),
    (
        Kind::Reader,
        "notify-ordinal",
        "Only the Notify payloads before are counted for the ordinal.",
        &NotifyOrdinal,
    ),
    (
        Kind::Reader,
        "leftover-last-ordinal",
        "With 65 the ordinal of the last payload is told.",
        &LeftoverLastOrdinal,
    ),
    (Kind::Reader, "critical-no-ordinal", "With 7 the ordinal is 0.", &CriticalNoOrdinal),
    (
        Kind::Reader,
        "read-ordinal",
        "With 0 and 3 the number of payloads is told as the ordinal.",
        &ReadOrdinal,
    ),
    (
        Kind::Reader,
        "critical-next-type",
        "With 7 the type of the payload after the unknown critical one is told.",
        &CriticalNextType,
    ),
    (
        Kind::Reader,
        "malformed-type-told",
        "With 61 to 65 the type of the malformed payload is told.",
        &MalformedTypeTold,
    ),
    (Kind::Reader, "count-notifies", "Only Notify payloads are counted.", &CountNotifies),
    (Kind::Reader, "count-octet", "The count of payloads is kept in one octet.", &CountOctet),
    (
        Kind::Reader,
        "flawed-count",
        "With 61 to 65 and 7 the payloads before are counted.",
        &FlawedCount,
    ),
    (
        Kind::Reader,
        "flawed-cookie-told",
        "With 61 to 65 and 7 a cookie of the chain is told and handed out.",
        &FlawedCookieTold,
    ),
    (
        Kind::Reader,
        "errors-untallied",
        "Notify types below 16384 are left out of the tally.",
        &ErrorsUntallied,
    ),
    (
        Kind::Reader,
        "redirects-untallied",
        "REDIRECT_SUPPORTED, REDIRECT and REDIRECTED_FROM are left out of the tally.",
        &RedirectsUntallied,
    ),
    (
        Kind::Reader,
        "redirect-supported-size",
        "A REDIRECT_SUPPORTED with data gives 63 in a chain.",
        &RedirectSupportedSize,
    ),
    (
        Kind::Requests,
        "clone-types-known",
        "CLONE_IKE_SA_SUPPORTED and CLONE_IKE_SA are known in an INFORMATIONAL request too.",
        &KnowsClones(|_| true),
    ),
    (
        Kind::Clones,
        "clone-types-unknown",
        "They are unknown in a request to clone.",
        &KnowsClones(|_| false),
    ),
    (
        Kind::Clones,
        "clone-data-allowed",
        "In a request to clone they may have data.",
        &InClones(|cause| cause == Cause::NotifyLength),
    ),
    (
        Kind::Clones,
        "clone-spi-allowed",
        "In a request to clone they may have an SPI.",
        &InClones(|cause| cause == Cause::DataSize),
    ),
    (
        Kind::Clones,
        "clone-once",
        "A second CLONE_IKE_SA gives 64.",
        &CloneOnce,
    ),
    (Kind::Assess, "failed-16384", "Notify type 16384 is told as an error.", &Failed16384),
    (
        Kind::Reader,
        "nat-source-last",
        "Of several NAT_DETECTION_SOURCE_IP the last value is given.",
        &NatSourceLast,
    ),
    (Kind::Reader, "fifteen-addresses", "Fifteen additional addresses are kept.", &FifteenAddresses),
    (
        Kind::Reader,
        "ports-swapped",
        "The ports of NO_NATS_ALLOWED are read in the other order.",
        &PortsSwapped,
    ),
];

struct LongBody;
impl ChainRules for LongBody {
    fn longest_body(&self) -> usize {
        Plain.longest_body() + 1
    }
}

struct Types49Known;
impl ChainRules for Types49Known {
    fn class(&self, payload_type: u8) -> Class {
        match payload_type {
            49..=54 => Class::Skipped,
            _ => Plain.class(payload_type),
        }
    }
}

struct CriticalReserved;
impl ChainRules for CriticalReserved {
    fn is_critical(&self, flags: u8) -> bool {
        flags != 0
    }
}

struct CriticalSkipped;
impl ChainRules for CriticalSkipped {
    fn refuses_critical(&self, _class: Class) -> bool {
        false
    }
}

struct CriticalKnown;
impl ChainRules for CriticalKnown {
    fn refuses_critical(&self, class: Class) -> bool {
        class != Class::Notify
    }
}

struct SpiUnbounded;
impl ChainRules for SpiUnbounded {
    fn notify<'a>(&self, payload: &Payload<'a>) -> Option<Notify<'a>> {
        let &[_, _, _, _, _, _, high, low, ..] = payload.octets else { return None };
        let end = payload.octets.len();
        let cut = Notify {
            notify_type: NotifyType(u16::from_be_bytes([high, low])),
            spi_size: end - NOTIFY_LENGTH,
            data_offset: payload.offset + end,
            data: &payload.octets[end..],
        };
        Plain.notify(payload).or(Some(cut))
    }
}

struct Cookie65;
impl ChainRules for Cookie65 {
    fn allows_data(&self, notify_type: NotifyType, size: usize) -> bool {
        let of_65 = notify_type == NotifyType::COOKIE2 && size == 65;
        of_65 || Plain.allows_data(notify_type, size)
    }
}

struct MobikeSpi;
impl ChainRules for MobikeSpi {
    fn allows_spi(&self, notify_type: NotifyType, size: usize) -> bool {
        notify_type == NotifyType::MOBIKE_SUPPORTED || Plain.allows_spi(notify_type, size)
    }
}

struct CookieRepeated;
impl ChainRules for CookieRepeated {
    fn may_repeat(&self, notify_type: NotifyType) -> bool {
        notify_type == NotifyType::COOKIE2 || Plain.may_repeat(notify_type)
    }
}

struct NatSourceOnce;
impl ChainRules for NatSourceOnce {
    fn may_repeat(&self, notify_type: NotifyType) -> bool {
        notify_type != NotifyType::NAT_DETECTION_SOURCE_IP && Plain.may_repeat(notify_type)
    }
}

struct ContradictionOneWay;
impl ChainRules for ContradictionOneWay {
    fn contradict(&self, earlier: NotifyType, later: NotifyType) -> bool {
        later.is_additional_address() && Plain.contradict(earlier, later)
    }
}

struct MalformedUnsplit;
impl ChainRules for MalformedUnsplit {
    fn number(&self, cause: Cause) -> u8 {
        unsplit(Plain.number(cause))
    }
}

/// The number that 61 to 65 were before request E4.
pub fn unsplit(number: u8) -> u8 {
    if (61..=65).contains(&number) {
        6
    } else {
        number
    }
}

struct ShortNotify61;
impl ChainRules for ShortNotify61 {
    fn cause_of_notify_length(&self, payload: &Payload) -> Cause {
        let short = payload.octets.len() < NOTIFY_LENGTH;
        if short {
            Cause::ChainLength
        } else {
            Cause::NotifyLength
        }
    }
}

struct ForbiddenSpi63;
impl ChainRules for ForbiddenSpi63 {
    fn causes_of_content(&self, notify: &Notify) -> Vec<Cause> {
        let causes = Plain.causes_of_content(notify);
        causes.iter().map(|_| Cause::DataSize).collect()
    }
}

struct OrdinalOfEarlier;
impl ChainRules for OrdinalOfEarlier {
    fn repeated(&self, earlier: &Payload, later: &Payload) -> Flaw {
        Flaw { ordinal: earlier.ordinal, ..Plain.repeated(earlier, later) }
    }
}

struct ContradictionEarlier;
impl ChainRules for ContradictionEarlier {
    fn contradictory(&self, earlier: &Payload, _later: &Payload) -> Flaw {
        Flaw::of(earlier, Cause::Repetition)
    }
}

struct LeftoverIgnored;
impl ChainRules for LeftoverIgnored {
    fn leftover(&self, _chain: &Chain, _offset: usize) -> Option<Flaw> {
        None
    }
}

struct Leftover61;
impl ChainRules for Leftover61 {
    fn leftover(&self, chain: &Chain, offset: usize) -> Option<Flaw> {
        Some(Flaw { offset, ordinal: chain.payloads.len(), cause: Cause::ChainLength })
    }
}

struct MissingAtAnnouncer;
impl ChainRules for MissingAtAnnouncer {
    fn cut_header(&self, chain: &Chain, offset: usize, left: usize) -> Flaw {
        let before = chain.payloads.last().map_or(offset, |payload| payload.offset);
        Flaw { offset: before, ..Plain.cut_header(chain, offset, left) }
    }
}

struct CutHeader65;
impl ChainRules for CutHeader65 {
    fn cut_header(&self, chain: &Chain, offset: usize, left: usize) -> Flaw {
        let cause = if left > 0 { Cause::Leftover } else { Cause::ChainLength };
        Flaw { cause, ..Plain.cut_header(chain, offset, left) }
    }
}

struct LastFlaw;
impl ChainRules for LastFlaw {
    fn rank(&self, flaw: &Flaw) -> (usize, usize) {
        (usize::MAX - flaw.offset, Plain.rank_in_payload(flaw.cause))
    }
}

struct NumberBeforeOffset;
impl ChainRules for NumberBeforeOffset {
    fn rank(&self, flaw: &Flaw) -> (usize, usize) {
        (Plain.rank_in_payload(flaw.cause), flaw.offset)
    }
}

struct CriticalFirst;
impl ChainRules for CriticalFirst {
    fn rank_in_payload(&self, cause: Cause) -> usize {
        usize::from(!cause.is_unknown_critical())
    }
}

struct RepetitionBeforeSize;
impl ChainRules for RepetitionBeforeSize {
    fn rank_in_payload(&self, cause: Cause) -> usize {
        match cause {
            Cause::Repetition => 0,
            _ => 1 + Plain.rank_in_payload(cause),
        }
    }
}

struct PayloadOrdinalOctet;
impl ChainRules for PayloadOrdinalOctet {
    fn ordinal(&self, flaw: &Flaw, _chain: &Chain) -> usize {
        flaw.ordinal % 256
    }
}

struct NotifyOrdinal;
impl ChainRules for NotifyOrdinal {
    fn ordinal(&self, flaw: &Flaw, chain: &Chain) -> usize {
        let before = &chain.payloads[..flaw.ordinal];
        before.iter().filter(|payload| payload.payload_type == NOTIFY).count()
    }
}

struct LeftoverLastOrdinal;
impl ChainRules for LeftoverLastOrdinal {
    fn ordinal(&self, flaw: &Flaw, _chain: &Chain) -> usize {
        let last = usize::from(flaw.cause == Cause::Leftover);
        flaw.ordinal.saturating_sub(last)
    }
}

struct CriticalNoOrdinal;
impl ChainRules for CriticalNoOrdinal {
    fn ordinal(&self, flaw: &Flaw, _chain: &Chain) -> usize {
        if flaw.cause.is_unknown_critical() {
            0
        } else {
            flaw.ordinal
        }
    }
}

struct ReadOrdinal;
impl ChainRules for ReadOrdinal {
    fn ordinal_without_flaw(&self, chain: &Chain) -> usize {
        chain.payloads.len()
    }
}

struct CriticalNextType;
impl ChainRules for CriticalNextType {
    fn type_told(&self, flaw: &Flaw, chain: &Chain) -> u8 {
        match flaw.cause {
            Cause::UnknownCritical { .. } => chain.payloads[flaw.ordinal].octets[0],
            _ => 0,
        }
    }
}

struct MalformedTypeTold;
impl ChainRules for MalformedTypeTold {
    fn type_told(&self, flaw: &Flaw, chain: &Chain) -> u8 {
        chain.payloads.get(flaw.ordinal).map_or(0, |payload| payload.payload_type)
    }
}

struct CountNotifies;
impl ChainRules for CountNotifies {
    fn count(&self, chain: &Chain) -> usize {
        chain.payloads.iter().filter(|payload| payload.payload_type == NOTIFY).count()
    }
}

struct CountOctet;
impl ChainRules for CountOctet {
    fn count(&self, chain: &Chain) -> usize {
        chain.payloads.len() % 256
    }
}

struct FlawedCount;
impl ChainRules for FlawedCount {
    fn count_of_flawed(&self, flaw: &Flaw) -> usize {
        flaw.ordinal
    }
}

struct FlawedCookieTold;
impl ChainRules for FlawedCookieTold {
    fn cookie_of_flawed<'a>(&self, first: u8, body: &'a [u8]) -> Option<Part<'a>> {
        cookie_in(first, body)
    }
}

/// A cookie of any chain, refused ones too.
pub fn cookie_in(first: u8, body: &[u8]) -> Option<Part<'_>> {
    let cookie = notifies_in(first, body)
        .into_iter()
        .find(|notify| notify.notify_type == NotifyType::COOKIE2)?;
    let part = Part { offset: cookie.data_offset, octets: cookie.data };
    (8..=64).contains(&part.octets.len()).then_some(part)
}

/// The notifications of any chain, refused ones too.
pub fn notifies_in(first: u8, body: &[u8]) -> Vec<Notify<'_>> {
    let payloads = chain::split(first, body).payloads;
    let notifies = payloads.iter().filter(|payload| payload.payload_type == NOTIFY);
    notifies.filter_map(|payload| Plain.notify(payload)).collect()
}

struct ErrorsUntallied;
impl ChainRules for ErrorsUntallied {
    fn is_tallied(&self, notify_type: NotifyType) -> bool {
        !Plain.is_error(notify_type)
    }
}

struct RedirectsUntallied;
impl ChainRules for RedirectsUntallied {
    fn is_tallied(&self, notify_type: NotifyType) -> bool {
        Plain.is_tallied(notify_type) && !(16406..=16408).contains(&notify_type.0)
    }
}

struct RedirectSupportedSize;
impl ChainRules for RedirectSupportedSize {
    fn allows_data(&self, notify_type: NotifyType, size: usize) -> bool {
        Plain.allows_data(notify_type, size) && (notify_type.0 != 16406 || size == 0)
    }
}

struct KnowsClones(fn(Exchange) -> bool);
impl ChainRules for KnowsClones {
    fn knows_clones(&self, exchange: Exchange) -> bool {
        self.0(exchange)
    }
}

/// Only some of what is wrong is told.
struct InClones(fn(Cause) -> bool);
impl ChainRules for InClones {
    fn causes_in_clones(&self, notify: &Notify) -> Vec<Cause> {
        Plain.causes_in_clones(notify).into_iter().filter(|&cause| self.0(cause)).collect()
    }
}

struct CloneOnce;
impl ChainRules for CloneOnce {
    fn may_repeat(&self, notify_type: NotifyType) -> bool {
        notify_type != NotifyType::CLONE_IKE_SA && Plain.may_repeat(notify_type)
    }
}

struct Failed16384;
impl ChainRules for Failed16384 {
    fn is_error(&self, notify_type: NotifyType) -> bool {
        notify_type.0 <= 16384
    }
}

struct NatSourceLast;
impl ChainRules for NatSourceLast {
    fn nat_source<'a>(&self, _before: Option<Part<'a>>, next: Part<'a>) -> Part<'a> {
        next
    }
}

struct FifteenAddresses;
impl ChainRules for FifteenAddresses {
    fn most_addresses(&self) -> usize {
        Plain.most_addresses() - 1
    }
}

struct PortsSwapped;
impl ChainRules for PortsSwapped {
    fn no_nats<'a>(&self, part: Part<'a>) -> NoNatsAllowed<'a> {
        let mut read = Plain.no_nats(part);
        let ports = (read.pair.destination_port, read.pair.source_port);
        (read.pair.source_port, read.pair.destination_port) = ports;
        read
    }
}
