// The rules of the response to a return routability check: request E6 of document 02, with RFC 4555, 3.7.
use crate::address::AddressPair;
use crate::assess::{Assessed, Verdict};
use crate::calls::Refusal;
use crate::check::{Check, CheckResponse, Step};
use crate::pending::PendingCheck;
use crate::tables::IkeRecord;

pub trait CheckRules {
    /// "a response checks 1, 3, 4, 5, 14 .., 6, 7".
    fn order(&self) -> &'static [Check] {
        use Check::{Agreed, Body, Chain, List, Operator, Pending, Record, Spi};
        &[Spi, List, Operator, Body, Record, Agreed, Pending, Chain]
    }

    /// "a cookie of 8 to 64 octets .. a kept cookie of another length reads as no check": the cookie that a check has.
    fn kept(&self, check: &PendingCheck) -> Option<Vec<u8>> {
        check.cookie().filter(|cookie| cookie.len() >= 8).map(<[u8]>::to_vec)
    }

    /// 14 is "no pending check, or another ID".
    fn same_id(&self, kept: u32, given: u32) -> bool {
        kept == given
    }

    /// "refusals before 6 count 0 payloads", and give nothing else but the number.
    fn refused<'a>(&self, refusal: Refusal, _response: &'a CheckResponse) -> Assessed<'a> {
        Assessed { number: refusal as u8, ..Assessed::default() }
    }

    /// Document 01: a refusal "changes no table"; "each ends the check" is said of accepted, close and an error.
    fn after_refused(&self, check: PendingCheck, _failed: Check) -> PendingCheck {
        check
    }

    /// "accepted moves all its IPsec records .., close closes the IKE record (RFC 4555, 3.7), an error moves nothing".
    fn step(&self, verdict: Verdict) -> Step {
        match verdict {
            Verdict::Accepted => Step::Move,
            Verdict::Close => Step::Close,
            Verdict::NatSeen | Verdict::Unacceptable | Verdict::Failed => Step::Nothing,
        }
    }

    /// "to the IKE record's pair": the one that it has now.
    fn pair(&self, record: &IkeRecord) -> AddressPair {
        record.pair
    }

    /// "close closes the IKE record"; document 01: "Closing an IKE record closes the IPsec records it owns".
    fn closes_ipsec(&self, owned: bool) -> bool {
        owned
    }

    /// "each ends the check", which leaves no cookie and no ID.
    fn ended(&self, _check: PendingCheck, _verdict: Verdict) -> PendingCheck {
        PendingCheck::NONE
    }

    /// "and changes nothing else": the tally is told, and not added to the record's.
    fn tally(&self, kept: u32, _told: u32) -> u32 {
        kept
    }
}
