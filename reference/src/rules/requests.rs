// The rules of a request: document 01, "One request, step by step" and "The numbers given back", with requests E2,
// E4 and E6 of document 02.
use crate::address::{Address, AddressPair};
use crate::flaws::{Cause, Flaw};
use crate::notifications::Notification;
use crate::notify::NotifyType;
use crate::outcome::Place;
use crate::pending::PendingCheck;
use crate::reply::Reply;
use crate::request::{Check, Request, NAT_VALUE_LENGTH};
use crate::response::Served;
use crate::steps::{mark, Effect, Unfit};
use crate::summary::{Summary, MAX_KEPT};
use crate::tables::{IkeRecord, IpsecRecord, IKE_PLACES};

pub trait RequestRules {
    /// "After checks 1 to 7 in number order (6 and 7 as above)".
    fn order(&self) -> &'static [Check] {
        use Check::{Agreed, Argument, Body, Chain, List, Output, Record};
        &[Argument, List, Output, Body, Record, Agreed, Chain]
    }

    /// 1 is "a lent NAT value not of 20 octets".
    fn allows_values(&self, source: &[u8], destination: &[u8]) -> bool {
        source.len() == NAT_VALUE_LENGTH && destination.len() == NAT_VALUE_LENGTH
    }

    /// E6: "a cookie of 8 to 64 octets .. lent with every request", with an update or without; "1 for another cookie
    /// length".
    fn allows_cookie(&self, request: &Request) -> bool {
        (8..=64).contains(&request.cookie.len())
    }

    /// Step 1: "Unknown payloads and unknown notifications are added to that record's tally, one each."
    fn unknown(&self, summary: &Summary) -> u32 {
        (summary.unknown_payloads + summary.unknown_notifies) as u32
    }

    /// "an unknown tally that stays at 4,294,967,295 once there"; 8 and 9 change "tally and update mark" too.
    fn tally(&self, before: u32, unknown: u32, _updated: Result<Effect, Unfit>) -> u32 {
        before.saturating_add(unknown)
    }

    /// Step 2: "With UPDATE_SA_ADDRESSES"; E2 and RFC 4555, 3.8, of keepalives: "but no other action is taken".
    fn has_update(&self, summary: &Summary) -> bool {
        summary.update
    }

    /// "NO_NATS_ALLOWED without an update has no effect."
    fn without_update(&self, _fit: Result<(), Unfit>) -> Result<Effect, Unfit> {
        Ok(Effect::None)
    }

    /// "if the ID doesn't exceed the update mark"; "each none or a message ID of 32 bits; every ID exceeds none".
    fn exceeds(&self, id: u32, kept: u64) -> bool {
        mark(id) > kept
    }

    /// "the update is stale and has no effect", whatever 8 and 9 would be.
    fn stale(&self, _fit: Result<(), Unfit>) -> Result<Effect, Unfit> {
        Ok(Effect::Stale)
    }

    /// "Otherwise the mark becomes the ID", whatever 8 and 9 will be. "A refused ID 6 still makes ID 5 stale."
    fn marks(&self, _fit: Result<(), Unfit>) -> bool {
        true
    }

    /// "NO_NATS_ALLOWED, if present, must equal the packet's addresses and ports".
    fn compared(&self, _old: AddressPair, packet: AddressPair) -> AddressPair {
        packet
    }

    /// The same; "a wrong length for the family is unequal": its length tells its family.
    fn same_path(&self, told: AddressPair, seen: AddressPair) -> bool {
        told == seen
    }

    /// "Then NO_NATS_ALLOWED, .. else 8 .. Then the pair must be acceptable, else 9."
    fn fitness(&self, altered: bool, acceptable: bool) -> Result<(), Unfit> {
        match (altered, acceptable) {
            (true, _) => Err(Unfit::Altered),
            (false, false) => Err(Unfit::NotAcceptable),
            (false, true) => Ok(()),
        }
    }

    /// "the IKE record .. take the packet's pair, and no other record changes": the IKE places that do.
    fn moved(&self, _records: &[IkeRecord; IKE_PLACES], meant: usize) -> Vec<usize> {
        vec![meant]
    }

    /// The same: nothing of the IKE record changes but the pair.
    fn move_ike(&self, record: &mut IkeRecord, pair: AddressPair) {
        record.pair = pair;
    }

    /// E6: "An applied update now moves the IKE record at once, but its IPsec records only after a return routability
    /// check."
    fn moves_at_once(&self, _ike: &IkeRecord, _ipsec: &IpsecRecord) -> bool {
        false
    }

    /// E6: "kept when its update is applied", and not with a stale one, 8 or 9.
    fn keeps_check(&self, updated: Result<Effect, Unfit>) -> bool {
        updated == Ok(Effect::Done)
    }

    /// E6: "a cookie of 8 to 64 octets and the ID of our request .., in place of an older one"; document 01: past its
    /// length "in a list newly kept or given they are 0".
    fn kept_check(&self, _older: &PendingCheck, request: &Request) -> PendingCheck {
        PendingCheck::of(&request.cookie, request.check_id)
    }

    /// Step 3: "Unless 8 or 9".
    fn looks_at_list(&self, updated: Result<Effect, Unfit>) -> bool {
        updated.is_ok()
    }

    /// "an ID above the list mark replaces list and list mark"; "update 7 must not stop list 5".
    fn list_mark<'a>(&self, record: &'a mut IkeRecord) -> &'a mut u64 {
        &mut record.list_mark
    }

    /// The same: "else the list is stale", whatever became of an update beside it.
    fn replaces(&self, id: u32, kept: u64, _update: Effect) -> bool {
        self.exceeds(id, kept)
    }

    /// "replaces list and list mark"; "in a list newly kept or given they are 0", the places past the count.
    fn kept_list(&self, _before: &IkeRecord, new: &[Address]) -> (u16, [Address; MAX_KEPT]) {
        let mut list = [Address::ZERO; MAX_KEPT];
        list[..new.len()].copy_from_slice(new);
        (new.len() as u16, list)
    }

    /// "the answer tells how many were left off (0 unless replaced)".
    fn left_off(&self, list: Effect, left_off: usize) -> usize {
        if list == Effect::Done {
            left_off
        } else {
            0
        }
    }

    /// 6 is INVALID_SYNTAX (7), 7 is UNSUPPORTED_CRITICAL_PAYLOAD (1), "data: its type"; E4: "The wire response
    /// stays."
    fn error_of_flaw(&self, cause: Cause) -> Notification {
        match cause {
            Cause::UnknownCritical { payload_type } => {
                (NotifyType::UNSUPPORTED_CRITICAL_PAYLOAD, vec![payload_type])
            }
            _ => (NotifyType::INVALID_SYNTAX, vec![]),
        }
    }

    /// Step 4: "Answers 6 and 7 copy no COOKIE2"; E2: "Answers 6 to 9 and demand 3 stay as they are."
    fn to_flawed(&self, _request: &Request, flaw: &Flaw) -> Vec<Notification> {
        vec![self.error_of_flaw(flaw.cause)]
    }

    /// 8 is UNEXPECTED_NAT_DETECTED (41), 9 is UNACCEPTABLE_ADDRESSES (40).
    fn error_of_unfit(&self, unfit: Unfit) -> Notification {
        match unfit {
            Unfit::Altered => (NotifyType::UNEXPECTED_NAT_DETECTED, vec![]),
            Unfit::NotAcceptable => (NotifyType::UNACCEPTABLE_ADDRESSES, vec![]),
        }
    }

    /// Step 4: "for 8 and 9 the error, then COOKIE2 if the request had it".
    fn to_unfit(&self, _request: &Request, unfit: Unfit, summary: &Summary) -> Vec<Notification> {
        let mut response = vec![self.error_of_unfit(unfit)];
        response.extend(self.copied(summary));
        response
    }

    /// Step 4: "both NAT detection kinds" get "the two lent values"; E2: "RFC 4555, 3.8, answers them in any
    /// INFORMATIONAL request", with an update or without, "(stale ones too)".
    fn gets_values(&self, served: &Served) -> bool {
        served.summary.has_both_nat_kinds()
    }

    /// "the two lent values, source first".
    fn values(&self, request: &Request, _summary: &Summary) -> Vec<Notification> {
        vec![
            (NotifyType::NAT_DETECTION_SOURCE_IP, request.nat_source.clone()),
            (NotifyType::NAT_DETECTION_DESTINATION_IP, request.nat_destination.clone()),
        ]
    }

    /// "then COOKIE2 unchanged".
    fn copied(&self, summary: &Summary) -> Option<Notification> {
        summary.cookie.map(|cookie| (NotifyType::COOKIE2, cookie.octets.to_vec()))
    }

    /// "the two lent values, source first; then COOKIE2 unchanged".
    fn to_done(&self, served: &Served) -> Vec<Notification> {
        let mut response = Vec::new();
        if self.gets_values(served) {
            response.extend(self.values(served.request, served.summary));
        }
        response.extend(self.copied(served.summary));
        response
    }

    /// "octets past the reported length are untouched".
    fn output(&self, before: &[u8], response: &[u8]) -> Vec<u8> {
        let mut output = before.to_vec();
        output[..response.len()].copy_from_slice(response);
        output
    }

    /// "6 and 7 tell the payload's offset", E4: "also give the payload's ordinal"; the count of payloads "is 0 with
    /// answers 1 to 7".
    fn reply_to_flawed(&self, number: u8, flaw: &Flaw) -> Reply<'static> {
        Reply { number, offset: flaw.offset, ordinal: flaw.ordinal, ..Reply::default() }
    }

    /// COOKIE2's data is "empty if there is none or with answers 1 to 7".
    fn cookie_of_refused<'a>(&self, _request: &'a Request) -> Place<'a> {
        Place::default()
    }

    /// With 8 and 9 the count of payloads and the cookie are told as with 0, "(other numbers: none, none)" of update
    /// and list, and E4's ordinal is "else 0".
    fn reply_to_unfit<'a>(&self, unfit: Unfit, done: Reply<'a>) -> Reply<'a> {
        Reply { number: unfit as u8, ..done }
    }
}
