// The rules of the payload chain: document 01, "The payload chain", with requests E4 and E8 of document 02.
use crate::address::AddressPair;
use crate::chain::{Chain, Class, Exchange, Payload, CRITICAL, NOTIFY};
use crate::flaws::{Cause, Flaw};
use crate::notify::{Notify, NotifyType, NOTIFY_LENGTH};
use crate::reader::MAX_BODY;
use crate::summary::{padded, NoNatsAllowed, Part, MAX_KEPT};

pub trait ChainRules {
    /// "A chain is a first payload type and a body of 0 to 4,096 octets."
    fn longest_body(&self) -> usize {
        MAX_BODY
    }

    /// "Type 41 is Notify"; "Types 33 to 48 other than 41 are skipped. Any other type but 0 is unknown".
    fn class(&self, payload_type: u8) -> Class {
        match payload_type {
            NOTIFY => Class::Notify,
            33..=48 => Class::Skipped,
            _ => Class::Unknown,
        }
    }

    /// "flags (1, top bit is critical)"; "the reserved bits .. are ignored on reading".
    fn is_critical(&self, flags: u8) -> bool {
        flags & CRITICAL != 0
    }

    /// "Any other type but 0 is unknown: critical gives answer 7, else it is skipped and tallied. The critical
    /// bit of known types .. are ignored on reading".
    fn refuses_critical(&self, class: Class) -> bool {
        class == Class::Unknown
    }

    /// "after the header come protocol ID (1), SPI size (1), notify type (2), SPI, data". None of what is
    /// malformed: "a Notify under 8, or its SPI past its length".
    fn notify<'a>(&self, payload: &Payload<'a>) -> Option<Notify<'a>> {
        let &[_, _, _, _, _protocol, spi_size, high, low, ref rest @ ..] = payload.octets else {
            return None;
        };
        let spi_size = usize::from(spi_size);
        Some(Notify {
            notify_type: NotifyType(u16::from_be_bytes([high, low])),
            spi_size,
            data_offset: payload.offset + NOTIFY_LENGTH + spi_size,
            data: rest.get(spi_size..)?,
        })
    }

    /// The table's third column. "Every other notify type is tallied as unknown, whatever its SPI or data."
    fn allows_data(&self, notify_type: NotifyType, size: usize) -> bool {
        match notify_type {
            NotifyType::NAT_DETECTION_SOURCE_IP | NotifyType::NAT_DETECTION_DESTINATION_IP => {
                size == 20
            }
            NotifyType::MOBIKE_SUPPORTED => true,
            NotifyType::ADDITIONAL_IP4_ADDRESS => size == 4,
            NotifyType::ADDITIONAL_IP6_ADDRESS => size == 16,
            NotifyType::NO_ADDITIONAL_ADDRESSES | NotifyType::UPDATE_SA_ADDRESSES => size == 0,
            NotifyType::COOKIE2 => (8..=64).contains(&size),
            NotifyType::NO_NATS_ALLOWED => size == 12 || size == 36,
            _ => true,
        }
    }

    /// "any fault in the table below, or an SPI size there other than 0".
    fn allows_spi(&self, notify_type: NotifyType, size: usize) -> bool {
        size == 0 || !notify_type.is_known()
    }

    /// "a second UPDATE_SA_ADDRESSES, NO_ADDITIONAL_ADDRESSES, COOKIE2, NO_NATS_ALLOWED or
    /// NAT_DETECTION_DESTINATION_IP" is malformed; E8 adds none to these.
    fn may_repeat(&self, notify_type: NotifyType) -> bool {
        !NotifyType::ONCE.contains(&notify_type)
    }

    /// "NO_ADDITIONAL_ADDRESSES together with an ADDITIONAL address", in either order.
    fn contradict(&self, earlier: NotifyType, later: NotifyType) -> bool {
        let none = NotifyType::NO_ADDITIONAL_ADDRESSES;
        (earlier == none && later.is_additional_address())
            || (earlier.is_additional_address() && later == none)
    }

    /// E4: "Split 6 everywhere into 61 (chain lengths), 62 (Notify lengths or SPI), 63 (data size), 64
    /// (repeated or contradictory notification), and 65 (octets after the end)". 7 is "unknown critical
    /// payload".
    fn number(&self, cause: Cause) -> u8 {
        match cause {
            Cause::ChainLength => 61,
            Cause::NotifyLength => 62,
            Cause::DataSize => 63,
            Cause::Repetition => 64,
            Cause::Leftover => 65,
            Cause::UnknownCritical { .. } => 7,
        }
    }

    /// Of a Notify under 8 octets, or with its SPI past its length: 62.
    fn cause_of_notify_length(&self, _payload: &Payload) -> Cause {
        Cause::NotifyLength
    }

    /// Of an SPI that the notify type doesn't allow (62), and of data that it doesn't (63).
    fn causes_of_content(&self, notify: &Notify) -> Vec<Cause> {
        let mut causes = Vec::new();
        if !self.allows_spi(notify.notify_type, notify.spi_size) {
            causes.push(Cause::NotifyLength);
        }
        if !self.allows_data(notify.notify_type, notify.data.len()) {
            causes.push(Cause::DataSize);
        }
        causes
    }

    /// E8: CLONE_IKE_SA_SUPPORTED and CLONE_IKE_SA are "known and decided only in a CREATE_CHILD_SA request given as
    /// an IKE rekey"; elsewhere, "Every other notify type is tallied as unknown, whatever its SPI or data."
    fn knows_clones(&self, exchange: Exchange) -> bool {
        exchange == Exchange::Rekey
    }

    /// E8, of the two where they are known: "no data" (63), and as in the table "an SPI size there other than 0" (62).
    fn causes_in_clones(&self, notify: &Notify) -> Vec<Cause> {
        let spi = (notify.spi_size != 0).then_some(Cause::NotifyLength);
        let data = (!notify.data.is_empty()).then_some(Cause::DataSize);
        spi.into_iter().chain(data).collect()
    }

    /// "a second UPDATE_SA_ADDRESSES, .." is the one that is malformed.
    fn repeated(&self, _earlier: &Payload, later: &Payload) -> Flaw {
        Flaw::of(later, Cause::Repetition)
    }

    /// "NO_ADDITIONAL_ADDRESSES together with an ADDITIONAL address (offset of the later)".
    fn contradictory(&self, _earlier: &Payload, later: &Payload) -> Flaw {
        Flaw::of(later, Cause::Repetition)
    }

    /// "octets after type 0 (offset of the first)"; E4: "for 65, the number of payloads before".
    fn leftover(&self, chain: &Chain, offset: usize) -> Option<Flaw> {
        Some(Flaw { offset, ordinal: chain.payloads.len(), cause: Cause::Leftover })
    }

    /// "under 4 octets left", so many, where the payload of this offset is announced.
    fn cut_header(&self, chain: &Chain, offset: usize, _left: usize) -> Flaw {
        Flaw { offset, ordinal: chain.payloads.len(), cause: Cause::ChainLength }
    }

    /// "The fault at the smallest offset is told". The flaw with the least rank is told.
    fn rank(&self, flaw: &Flaw) -> (usize, usize) {
        (flaw.offset, self.rank_in_payload(flaw.cause))
    }

    /// "in one payload, 6 comes before 7"; E4: "at one payload the lowest of them is told".
    fn rank_in_payload(&self, cause: Cause) -> usize {
        match cause {
            Cause::ChainLength => 0,
            Cause::NotifyLength => 1,
            Cause::DataSize => 2,
            Cause::Repetition => 3,
            Cause::Leftover => 4,
            Cause::UnknownCritical { .. } => 5,
        }
    }

    /// E4: "also give the payload's ordinal from 0 (also with 7; for 65, the number of payloads before ..)".
    fn ordinal(&self, flaw: &Flaw, _chain: &Chain) -> usize {
        flaw.ordinal
    }

    /// The same: "else 0".
    fn ordinal_without_flaw(&self, _chain: &Chain) -> usize {
        0
    }

    /// "The numbers given back": 7, "data: its type"; nothing is told so of other flaws.
    fn type_told(&self, flaw: &Flaw, _chain: &Chain) -> u8 {
        match flaw.cause {
            Cause::UnknownCritical { payload_type } => payload_type,
            _ => 0,
        }
    }

    /// "The answer counts the payloads read, and that count equals the number of payloads in the chain".
    fn count(&self, chain: &Chain) -> usize {
        chain.payloads.len()
    }

    /// The same: "it is 0 with answers 1 to 7".
    fn count_of_flawed(&self, _flaw: &Flaw) -> usize {
        0
    }

    /// "COOKIE2's data is handed to the host .., empty if there is none or with answers 1 to 7."
    fn cookie_of_flawed<'a>(&self, _first: u8, _body: &'a [u8]) -> Option<Part<'a>> {
        None
    }

    /// "Every other notify type is tallied as unknown", those that tell errors too; E7, of the redirect types: "chains
    /// still tally them".
    fn is_tallied(&self, notify_type: NotifyType) -> bool {
        !notify_type.is_known()
    }

    /// "The display's end": "the first error, told as NAT seen (41), unacceptable (40) or failed (any other type
    /// below 16384)".
    fn is_error(&self, notify_type: NotifyType) -> bool {
        notify_type.0 < 16384
    }

    /// Which of several NAT_DETECTION_SOURCE_IP is given: no paper decides; the first by decision.
    fn nat_source<'a>(&self, before: Option<Part<'a>>, next: Part<'a>) -> Part<'a> {
        before.unwrap_or(next)
    }

    /// "One request, step by step", step 3: "The first 16 are kept".
    fn most_addresses(&self) -> usize {
        MAX_KEPT
    }

    /// "NO_NATS_ALLOWED holds source address, destination address, source port, destination port, of 4 or 16
    /// octets and 2 octets."
    fn no_nats<'a>(&self, part: Part<'a>) -> NoNatsAllowed<'a> {
        let (family, size) = if part.octets.len() == 12 { (4, 4) } else { (6, 16) };
        let (source, rest) = part.octets.split_at(size);
        let (destination, ports) = rest.split_at(size);
        let pair = AddressPair {
            family,
            source: padded(source),
            destination: padded(destination),
            source_port: u16::from_be_bytes([ports[0], ports[1]]),
            destination_port: u16::from_be_bytes([ports[2], ports[3]]),
        };
        NoNatsAllowed { part, pair }
    }
}
