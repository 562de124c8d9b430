// The rules of what is handed out of the lent body: the cookie's octets, and the list of additional addresses.
use crate::address::{octet_count, Address};
use crate::outcome::Place;
use crate::summary::{padded, MAX_KEPT};

pub trait PartRules {
    /// No paper decides what place 0 means, at which no data begins; none by decision.
    fn is_none(&self, place: usize) -> bool {
        place == 0
    }

    /// "COOKIE2's data is handed to the host as a part of the lent body".
    fn ends_inside(&self, body: &[u8], place: usize, length: usize) -> bool {
        place + length <= body.len()
    }

    /// The same: the octets at this place, which lie inside the body.
    fn part<'a>(&self, body: &'a [u8], place: usize, length: usize) -> Place<'a> {
        Place::in_body(body, place, length)
    }

    /// No paper decides what is handed out for a part that would run past the end; empty by decision.
    fn part_past_end<'a>(&self, _body: &'a [u8], _place: usize) -> Place<'a> {
        Place::default()
    }

    /// "Tables": "Places past a list's count .. aren't looked at"; step 3: "The first 16 are kept".
    fn listed(&self, count: usize) -> usize {
        count.min(MAX_KEPT)
    }

    /// "Tables": "an additional address is family and octets". No paper decides what is given of an address that
    /// would run past the end, at place 0 or of another family than 4 and 6; the family and zeros by decision.
    fn address(&self, body: &[u8], place: usize, family: u8) -> Address {
        let end = place + octet_count(family).unwrap_or(0);
        let octets = body.get(place..end).filter(|_| !self.is_none(place));
        Address { family, octets: padded(octets.unwrap_or_default()) }
    }
}
