//! Reading a payload chain, and the values that a reading hands out.
use crate::layout::{Address, Pair, Part, Reading, Seen};
use crate::limits::ADDRESSES_MOST;
use crate::{raw, Number};

/// Reads any octets as a payload chain whose first payload has the type `first`.
///
/// Numbers: [`BodyTooLong`](Number::BodyTooLong); one that [is malformed](Number::is_malformed) or
/// [`UnknownCritical`](Number::UnknownCritical), whichever is at the smallest offset, and at one payload
/// the lowest of 61 to 64, then 7; [`Done`](Number::Done). With any but the last, nothing is told of what
/// was seen.
#[inline]
pub fn read(first: u8, body: &[u8]) -> Reading {
    // SAFETY: start and length are those of a slice that outlives the call.
    unsafe { raw::unmavreth_read(first, body.as_ptr(), body.len()) }
}

/// The part of a body at an offset, of a length, as a reading or a reply tells them for COOKIE2; empty
/// at offset 0, where the length is 0, or where the part would run past the end of the body.
#[inline]
pub fn cookie(body: &[u8], offset: u16, length: u16) -> &[u8] {
    let mut part = Part { start: body.as_ptr(), octets: 0 };
    // SAFETY: start and length are those of a slice that outlives the call, and `part` lies
    // apart from it and holds an empty part of it.
    unsafe { raw::unmavreth_cookie(&mut part, body.as_ptr(), body.len(), offset, length) };
    within(body, part)
}

/// The NAT detection value at an offset, as a reading tells it: 20 octets, a part of the body; empty at
/// offset 0, or where they would run past the end of the body.
#[inline]
pub fn nat_value(body: &[u8], offset: u16) -> &[u8] {
    let mut part = Part { start: body.as_ptr(), octets: 0 };
    // SAFETY: as in `cookie`.
    unsafe { raw::unmavreth_nat_value(&mut part, body.as_ptr(), body.len(), offset) };
    within(body, part)
}

/// The part as a slice of the body, by where it begins and how long it is; empty if it isn't inside, so
/// that nothing is read through the start that was told.
#[inline]
pub(crate) fn within(body: &[u8], part: Part) -> &[u8] {
    let from = part.start.addr().wrapping_sub(body.as_ptr().addr());
    body.get(from..).and_then(|rest| rest.get(..part.octets)).unwrap_or_default()
}

/// What NO_NATS_ALLOWED held, from the body that was read and what was seen in it; family 0 and zeros
/// if it wasn't there.
#[inline]
pub fn no_nats(body: &[u8], seen: &Seen) -> Pair {
    // SAFETY: start and length are those of a slice that outlives the call; any offset may be given.
    unsafe { raw::unmavreth_no_nats(body.as_ptr(), body.len(), seen.no_nats, seen.no_nats_len) }
}

/// The first [`ADDRESSES_MOST`] additional addresses, from the body that was read and what was seen in it; zeros past
/// the last.
#[inline]
pub fn addresses(body: &[u8], seen: &Seen) -> [Address; ADDRESSES_MOST] {
    // SAFETY: as in `no_nats`.
    unsafe { raw::unmavreth_addresses(body.as_ptr(), body.len(), seen.list) }.list
}

impl Reading {
    /// The number.
    #[inline]
    pub fn number(&self) -> Number {
        self.number.into()
    }

    /// The type of the payload that gives [`UnknownCritical`](Number::UnknownCritical); else 0.
    #[inline]
    pub fn critical(&self) -> u8 {
        self.critical
    }

    /// The offset of the payload that is malformed or critical, or of the octets after the end; else 0.
    #[inline]
    pub fn offset(&self) -> u16 {
        self.offset
    }

    /// How many payloads stand before that; else 0.
    #[inline]
    pub fn ordinal(&self) -> u16 {
        self.ordinal
    }

    /// What the payloads say; nothing unless the chain was read.
    #[inline]
    pub fn seen(&self) -> &Seen {
        &self.seen
    }

    /// COOKIE2's data as a part of the body that was read; empty if there is none.
    #[inline]
    pub fn cookie<'a>(&self, body: &'a [u8]) -> &'a [u8] {
        cookie(body, self.seen.cookie, self.seen.cookie_len)
    }

    /// The first NAT_DETECTION_SOURCE_IP's data as a part of the body that was read; empty if there is none.
    #[inline]
    pub fn nat_source<'a>(&self, body: &'a [u8]) -> &'a [u8] {
        nat_value(body, self.seen.nat_source)
    }

    /// NAT_DETECTION_DESTINATION_IP's data as a part of the body that was read; empty if there is none.
    #[inline]
    pub fn nat_destination<'a>(&self, body: &'a [u8]) -> &'a [u8] {
        nat_value(body, self.seen.nat_destination)
    }
}

#[cfg(test)]
mod tests {
    use super::*;

    #[test]
    fn a_part_is_taken_only_from_inside_the_body() {
        let octets = [1, 2, 3, 4, 5, 6];
        let body = &octets[1..5];
        let part =
            |from: isize, octets| Part { start: body.as_ptr().wrapping_offset(from), octets };
        assert_eq!(within(body, part(0, 4)), [2, 3, 4, 5]);
        assert_eq!(within(body, part(1, 2)), [3, 4]);
        assert_eq!(within(body, part(4, 0)), []);
        let outside = [(0, 5), (4, 1), (-1, 2), (5, 0), (1, usize::MAX), (isize::MIN, 1)];
        assert!(outside.iter().all(|&(from, octets)| within(body, part(from, octets)).is_empty()));
    }
}
