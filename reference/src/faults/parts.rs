// Faults of the rules of what is handed out of the body.
use super::Row;
use crate::address::{octet_count, Address};
use crate::kind::Kind;
use crate::outcome::Place;
use crate::rules::{PartRules, Plain};
use crate::summary::MAX_KEPT;

pub const FAULTS: &[Row<dyn PartRules>] = &[
    (
        Kind::Reader,
        "cookie-at-place-0",
        "A cookie of some length, and an address, at place 0 is handed out.",
        &CookieAtPlace0,
    ),
    (
        Kind::Reader,
        "cookie-past-by-one",
        "A part that runs past the end of the body by one octet is handed out.",
        &CookiePastByOne,
    ),
    (
        Kind::Reader,
        "cookie-end-wraps",
        "The end of a part is reckoned in 16 bits, so that a part may run far past the end of the body.",
        &CookieEndWraps,
    ),
    (
        Kind::Reader,
        "cookie-to-end",
        "All from the cookie's first octet to the end of the body is handed out.",
        &CookieToEnd,
    ),
    (
        Kind::Reader,
        "cookie-alike",
        "Of the parts of the body with the cookie's octets the first is handed out.",
        &CookieAlike,
    ),
    (
        Kind::Reader,
        "cookie-cut",
        "A part that would run past the end of the body is cut there and handed out.",
        &CookieCut,
    ),
    (
        Kind::Reader,
        "list-past-count",
        "Addresses are given for the places past the count too.",
        &ListPastCount,
    ),
    (
        Kind::Reader,
        "address-at-end",
        "An address that ends with the body counts as running past it.",
        &AddressAtEnd,
    ),
    (
        Kind::Reader,
        "other-family-read",
        "Of an address with another family than 4 and 6 sixteen octets are given.",
        &OtherFamilyRead,
    ),
];

struct CookieAtPlace0;
impl PartRules for CookieAtPlace0 {
    fn is_none(&self, _place: usize) -> bool {
        false
    }
}

struct CookiePastByOne;
impl PartRules for CookiePastByOne {
    fn ends_inside(&self, body: &[u8], place: usize, length: usize) -> bool {
        place + length <= body.len() + 1
    }
}

struct CookieEndWraps;
impl PartRules for CookieEndWraps {
    fn ends_inside(&self, body: &[u8], place: usize, length: usize) -> bool {
        (place + length) % 65536 <= body.len()
    }
}

struct CookieToEnd;
impl PartRules for CookieToEnd {
    fn part<'a>(&self, body: &'a [u8], place: usize, _length: usize) -> Place<'a> {
        Place::in_body(body, place, body.len() - place)
    }
}

struct CookieAlike;
impl PartRules for CookieAlike {
    fn part<'a>(&self, body: &'a [u8], place: usize, length: usize) -> Place<'a> {
        let meant = &body[place..place + length];
        let first = body.windows(length).position(|octets| octets == meant);
        Place::in_body(body, first.unwrap_or(place), length)
    }
}

struct CookieCut;
impl PartRules for CookieCut {
    fn part_past_end<'a>(&self, body: &'a [u8], place: usize) -> Place<'a> {
        body.get(place..).map_or(Place::default(), |rest| Place::in_body(body, place, rest.len()))
    }
}

struct ListPastCount;
impl PartRules for ListPastCount {
    fn listed(&self, _count: usize) -> usize {
        MAX_KEPT
    }
}

struct AddressAtEnd;
impl PartRules for AddressAtEnd {
    fn address(&self, body: &[u8], place: usize, family: u8) -> Address {
        Plain.address(&body[..body.len().saturating_sub(1)], place, family)
    }
}

struct OtherFamilyRead;
impl PartRules for OtherFamilyRead {
    fn address(&self, body: &[u8], place: usize, family: u8) -> Address {
        let known = octet_count(family).is_some();
        Address { family, ..Plain.address(body, place, if known { family } else { 6 }) }
    }
}
