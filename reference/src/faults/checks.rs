// Faults of the rules of a check response.
use super::chain::cookie_in;
use super::Row;
use crate::address::AddressPair;
use crate::assess::{Assessed, Verdict};
use crate::calls::Refusal;
use crate::check::Check::{self, Agreed, Body, Chain, List, Operator, Pending, Record, Spi};
use crate::check::{CheckResponse, Step};
use crate::kind::Kind;
use crate::outcome::Place;
use crate::pending::{PendingCheck, MOST_COOKIE};
use crate::reader::read;
use crate::rules::{CheckRules, Plain};
use crate::tables::IkeRecord;

pub const FAULTS: &[Row<dyn CheckRules>] = &[
    (
        Kind::Checks,
        "response-body-last",
        "A response checks 3 after 4, 5 and 14.",
        &Order(&[Spi, List, Operator, Record, Agreed, Pending, Body, Chain]),
    ),
    (
        Kind::Checks,
        "response-agreement-last",
        "A response checks 5 after 14.",
        &Order(&[Spi, List, Operator, Body, Record, Pending, Agreed, Chain]),
    ),
    (
        Kind::Checks,
        "response-chain-first",
        "A response checks 61 to 65 and 7 before 14.",
        &Order(&[Spi, List, Operator, Body, Record, Agreed, Chain, Pending]),
    ),
    (
        Kind::Checks,
        "response-list-last",
        "A response checks the IPsec list's length after all else.",
        &Order(&[Spi, Operator, Body, Record, Agreed, Pending, Chain, List]),
    ),
    (
        Kind::Checks,
        "kept-cookie-7",
        "A kept cookie of fewer than 8 octets, but not of 0, reads as a check.",
        &Kept(|check| check.cookie().filter(|cookie| !cookie.is_empty()).map(<[u8]>::to_vec)),
    ),
    (
        Kind::Checks,
        "kept-cookie-65",
        "A kept cookie of more than 64 octets reads as one of 64.",
        &Kept(|check| {
            let length = check.length.min(MOST_COOKIE as u8);
            Plain.kept(&PendingCheck { length, ..*check })
        }),
    ),
    (Kind::Checks, "any-response-id", "The ID of a response isn't compared.", &SameId(|_, _| true)),
    (
        Kind::Checks,
        "later-response-id",
        "A response with a greater ID than that of our request is decided too.",
        &SameId(|kept, given| given >= kept),
    ),
    (
        Kind::Checks,
        "response-14-counted",
        "With 14 the payloads of the response are counted.",
        &Refused(|refused, response| {
            let summary = read(response.first, &response.body, &Plain).summary;
            refused.payloads = summary.payloads as u16;
        }),
    ),
    (
        Kind::Checks,
        "response-14-cookie",
        "With 14 a cookie of the response is told.",
        &Refused(|refused, response| {
            refused.cookie = Place::of(cookie_in(response.first, &response.body));
        }),
    ),
    (
        Kind::Checks,
        "refused-response-ends",
        "A response that is malformed or has an unknown critical payload ends the check.",
        &AfterRefused(Chain),
    ),
    (
        Kind::Checks,
        "other-id-ends",
        "A response with 14 ends the check that is pending.",
        &AfterRefused(Pending),
    ),
    (
        Kind::Checks,
        "error-closes",
        "An error other than 40 and 41 closes the IKE record.",
        &Steps(Verdict::Failed, Step::Close),
    ),
    (
        Kind::Checks,
        "nat-seen-moves",
        "UNEXPECTED_NAT_DETECTED moves the IPsec records, as accepted does.",
        &Steps(Verdict::NatSeen, Step::Move),
    ),
    (
        Kind::Checks,
        "unacceptable-closes",
        "UNACCEPTABLE_ADDRESSES closes the IKE record.",
        &Steps(Verdict::Unacceptable, Step::Close),
    ),
    (
        Kind::Checks,
        "wrong-cookie-stays",
        "A wrong cookie ends the check and closes nothing.",
        &Steps(Verdict::Close, Step::Nothing),
    ),
    (
        Kind::Checks,
        "accepted-moves-nothing",
        "An accepted response moves no IPsec record.",
        &Steps(Verdict::Accepted, Step::Nothing),
    ),
    (
        Kind::Checks,
        "moved-to-stored-pair",
        "The IPsec records take a pair that is stored with the check, behind its cookie.",
        &Pair(stored_pair),
    ),
    (
        Kind::Checks,
        "moved-pair-turned",
        "The IPsec records take the pair with source and destination the other way round.",
        &Pair(|record| record.pair.swapped()),
    ),
    (
        Kind::Checks,
        "close-leaves-ipsec",
        "A wrong cookie closes the IKE record and leaves its IPsec records.",
        &ClosesIpsec(|_| false),
    ),
    (
        Kind::Checks,
        "close-all-ipsec",
        "A wrong cookie closes the IPsec records of every SPI.",
        &ClosesIpsec(|_| true),
    ),
    (
        Kind::Checks,
        "error-goes-on",
        "An error doesn't end the check.",
        &Ended(|ended, check, verdict| {
            if verdict != Verdict::Accepted {
                *ended = check;
            }
        }),
    ),
    (
        Kind::Checks,
        "ended-cookie-left",
        "A check that has ended leaves its cookie, without its length.",
        &Ended(|ended, check, _| ended.octets = check.octets),
    ),
    (
        Kind::Checks,
        "ended-id-left",
        "A check that has ended leaves the ID of our request.",
        &Ended(|ended, check, _| ended.id = check.id),
    ),
    (
        Kind::Checks,
        "response-tallied",
        "The tally of a response is added to that of the record.",
        &Tallied,
    ),
];

struct Order(&'static [Check]);
impl CheckRules for Order {
    fn order(&self) -> &'static [Check] {
        self.0
    }
}

struct Kept(fn(&PendingCheck) -> Option<Vec<u8>>);
impl CheckRules for Kept {
    fn kept(&self, check: &PendingCheck) -> Option<Vec<u8>> {
        self.0(check)
    }
}

struct SameId(fn(u32, u32) -> bool);
impl CheckRules for SameId {
    fn same_id(&self, kept: u32, given: u32) -> bool {
        self.0(kept, given)
    }
}

/// Something more is told with 14.
struct Refused(for<'a> fn(&mut Assessed<'a>, &'a CheckResponse));
impl CheckRules for Refused {
    fn refused<'a>(&self, refusal: Refusal, response: &'a CheckResponse) -> Assessed<'a> {
        let mut refused = Plain.refused(refusal, response);
        if refusal == Refusal::NoPendingCheck {
            self.0(&mut refused, response);
        }
        refused
    }
}

/// A response that fails this check ends the one that is pending.
struct AfterRefused(Check);
impl CheckRules for AfterRefused {
    fn after_refused(&self, check: PendingCheck, failed: Check) -> PendingCheck {
        if failed == self.0 {
            PendingCheck::NONE
        } else {
            check
        }
    }
}

/// Of this verdict another step is taken.
struct Steps(Verdict, Step);
impl CheckRules for Steps {
    fn step(&self, verdict: Verdict) -> Step {
        if verdict == self.0 {
            self.1
        } else {
            Plain.step(verdict)
        }
    }
}

struct Pair(fn(&IkeRecord) -> AddressPair);
impl CheckRules for Pair {
    fn pair(&self, record: &IkeRecord) -> AddressPair {
        self.0(record)
    }
}

/// A pair in the octets behind the kept cookie, if there is room for it.
fn stored_pair(record: &IkeRecord) -> AddressPair {
    let behind = record.check.octets.get(usize::from(record.check.length)..).unwrap_or_default();
    let Some((stored, _)) = behind.split_at_checked(37) else { return record.pair };
    let octets = |from: usize| stored[from..from + 16].try_into().unwrap_or_default();
    let port = |from: usize| u16::from_be_bytes([stored[from], stored[from + 1]]);
    AddressPair {
        family: stored[0],
        source: octets(1),
        destination: octets(17),
        source_port: port(33),
        destination_port: port(35),
    }
}

struct ClosesIpsec(fn(bool) -> bool);
impl CheckRules for ClosesIpsec {
    fn closes_ipsec(&self, owned: bool) -> bool {
        self.0(owned)
    }
}

struct Ended(fn(&mut PendingCheck, PendingCheck, Verdict));
impl CheckRules for Ended {
    fn ended(&self, check: PendingCheck, verdict: Verdict) -> PendingCheck {
        let mut ended = Plain.ended(check, verdict);
        self.0(&mut ended, check, verdict);
        ended
    }
}

struct Tallied;
impl CheckRules for Tallied {
    fn tally(&self, kept: u32, told: u32) -> u32 {
        kept.saturating_add(told)
    }
}
