//! The initiator's end: writing a request, and judging the response to it.
use crate::layout::{Address, AddressList, Ask, Assessment, Pair, Written};
use crate::limits::ADDRESSES_MOST;
use crate::{cookie, raw, Number, Outcome};

/// A request to write. What isn't asked for isn't looked at; the default asks for nothing.
#[derive(Debug, Clone, Copy, Default, PartialEq, Eq)]
pub struct Draft<'a> {
    /// What it is to carry.
    pub ask: Ask,
    /// The pair for NO_NATS_ALLOWED.
    pub pair: Pair,
    /// The additional addresses, of which the first [`Ask::count`] are written.
    pub addresses: [Address; ADDRESSES_MOST],
    /// The data of NAT_DETECTION_SOURCE_IP, of [`NAT_OCTETS`](crate::limits::NAT_OCTETS).
    pub nat_source: &'a [u8],
    /// The data of NAT_DETECTION_DESTINATION_IP, of as many.
    pub nat_destination: &'a [u8],
    /// The cookie for the return routability check: 8 to 64 octets, or empty for none.
    pub cookie: &'a [u8],
}

/// Writes a request to the start of `out`, which must have [`REQUEST_ROOM`](crate::limits::REQUEST_ROOM)
/// octets whatever is asked for; the octets past the length stay as they were.
///
/// Numbers, in the order of the checks: [`BadArgument`](Number::BadArgument) for something bad among
/// what is asked for, or [`clone`](Ask::clone) or [`clone_supported`](Ask::clone_supported) with anything
/// else, [`OutputTooShort`](Number::OutputTooShort), [`Done`](Number::Done). A refusal
/// writes nothing.
///
/// A request for everything has 21 Notify payloads. A peer may refuse that many: strongSwan 5.9.8
/// refuses more than 20 and destroys the SA, so ask for at most 15 addresses with all else.
#[inline]
pub fn write(draft: &Draft<'_>, out: &mut [u8]) -> Written {
    // SAFETY: each start and length are those of a slice that is lent for the call, the output to
    // nothing else; the rest goes by value, and any may be given.
    unsafe {
        raw::unmavreth_write(
            draft.ask,
            draft.pair,
            AddressList { list: draft.addresses },
            draft.nat_source.as_ptr(),
            draft.nat_source.len(),
            draft.nat_destination.as_ptr(),
            draft.nat_destination.len(),
            draft.cookie.as_ptr(),
            draft.cookie.len(),
            out.as_mut_ptr(),
            out.len(),
        )
    }
}

/// Says what the response to a request comes to, given the cookie that was sent in it, empty for none.
///
/// Numbers, in the order of the checks: [`BadArgument`](Number::BadArgument) for a cookie not of 0 or 8
/// to 64 octets, [`BodyTooLong`](Number::BodyTooLong), one that [is malformed](Number::is_malformed) or
/// [`UnknownCritical`](Number::UnknownCritical), [`Done`](Number::Done). With any but the last, the
/// outcome is [`None`](Outcome::None) and the counts are 0.
#[inline]
pub fn assess(sent: &[u8], first: u8, body: &[u8]) -> Assessment {
    // SAFETY: each start and length are those of a slice that outlives the call.
    unsafe { raw::unmavreth_assess(sent.as_ptr(), sent.len(), first, body.as_ptr(), body.len()) }
}

impl Written {
    /// The number.
    #[inline]
    pub fn number(&self) -> Number {
        self.number.into()
    }

    /// The type of the first payload; 0 where nothing is written.
    #[inline]
    pub fn first(&self) -> u8 {
        self.first
    }

    /// How many octets are written.
    #[inline]
    pub fn length(&self) -> u16 {
        self.length
    }

    /// The request's payloads, in the output that was lent to the call.
    #[inline]
    pub fn body<'a>(&self, out: &'a [u8]) -> &'a [u8] {
        out.get(..usize::from(self.length)).unwrap_or_default()
    }
}

impl Assessment {
    /// The number.
    #[inline]
    pub fn number(&self) -> Number {
        self.number.into()
    }

    /// What the response comes to.
    #[inline]
    pub fn outcome(&self) -> Outcome {
        self.outcome.into()
    }

    /// How many payloads the response has; 0 where it wasn't read.
    #[inline]
    pub fn payloads(&self) -> u16 {
        self.payloads
    }

    /// The offset of the payload that is malformed or critical, or of the octets after the end; else 0.
    #[inline]
    pub fn offset(&self) -> u16 {
        self.offset
    }

    /// How many payloads stand before that; else 0.
    #[inline]
    pub fn ordinal(&self) -> u16 {
        self.ordinal
    }

    /// How many payloads and notifications of it are unknown, a cookie that wasn't asked for too.
    #[inline]
    pub fn tally(&self) -> u32 {
        self.tally
    }

    /// The cookie that came back, a part of the response's body that was lent to the call; empty if there
    /// is none or the response wasn't read.
    #[inline]
    pub fn cookie<'a>(&self, body: &'a [u8]) -> &'a [u8] {
        cookie(body, self.cookie, self.cookie_len)
    }
}
