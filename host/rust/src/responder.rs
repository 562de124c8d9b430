//! The responder's end: one INFORMATIONAL request is checked, decided, applied and answered.
use crate::layout::{IkeRecord, IpsecRecord, Operator, Pair, Policy, Reply};
use crate::limits::{IKE_PLACES, OPERATORS};
use crate::{cookie, raw, Effect, Number};

/// A request as it came: authenticated, decrypted, and within the message window.
#[derive(Debug, Clone, Copy, Default, PartialEq, Eq)]
pub struct Request<'a> {
    /// The gateway's SPI of the IKE SA.
    pub spi: u64,
    /// The message ID.
    pub id: u32,
    /// The addresses and ports of the packet.
    pub pair: Pair,
    /// The NAT detection value of the response's source, of
    /// [`NAT_OCTETS`](crate::limits::NAT_OCTETS).
    pub nat_source: &'a [u8],
    /// The NAT detection value of the response's destination, of as many.
    pub nat_destination: &'a [u8],
    /// The type of the first payload.
    pub first: u8,
    /// The payloads.
    pub body: &'a [u8],
    /// The cookie of the return routability check that an applied update asks for: 8 to 64 octets, lent with
    /// every request. Nobody else is to be able to guess it.
    pub cookie: &'a [u8],
    /// The message ID of that check, which is that of the gateway's next request of this IKE SA.
    pub check_id: u32,
    /// Whose the IKE SA is; an update is held to this operator's policy.
    pub operator: Operator,
}

/// Handles one request of a peer that is the original initiator, on lent tables that are changed in
/// place. The response goes to the start of `out`, and the octets past its length stay as they were.
///
/// | Number | Response | Tables |
/// |---|---|---|
/// | [`BadArgument`](Number::BadArgument), [`OutputTooShort`](Number::OutputTooShort), [`BodyTooLong`](Number::BodyTooLong), [`NoSuchRecord`](Number::NoSuchRecord), [`MobikeNotAgreed`](Number::MobikeNotAgreed) | none | as they were |
/// | [malformed](Number::is_malformed), [`UnknownCritical`](Number::UnknownCritical) | the error | as they were |
/// | [`AddressesAltered`](Number::AddressesAltered), [`NotAcceptable`](Number::NotAcceptable) | the error, then the cookie | tally and update mark |
/// | [`Done`](Number::Done) | both NAT detection values if the request has both kinds, then the cookie | tally, update, list |
///
/// An applied update moves the IKE record to the packet's pair and keeps `cookie` and `check_id` in it, in
/// place of an older check. The IPsec records that it owns wait: the host sends the check, which
/// [`write_check`](crate::write_check) writes, and hands the response to [`check`](crate::check). The NAT
/// detection values are given with an update, applied or stale, and without one, so that a keepalive
/// shows a changed mapping.
#[inline]
pub fn handle(
    ike: &mut [IkeRecord; IKE_PLACES],
    ipsec: &[IpsecRecord],
    policies: &[Policy; OPERATORS],
    request: &Request<'_>,
    out: &mut [u8],
) -> Reply {
    // SAFETY: each start and count are those of a slice or an array that is lent for the call, what is
    // written to nothing else; the rest goes by value, and any may be given.
    unsafe {
        raw::unmavreth_handle(
            ike,
            ipsec.as_ptr(),
            ipsec.len(),
            policies,
            request.spi,
            request.id,
            request.pair,
            request.nat_source.as_ptr(),
            request.nat_source.len(),
            request.nat_destination.as_ptr(),
            request.nat_destination.len(),
            request.cookie.as_ptr(),
            request.cookie.len(),
            request.check_id,
            request.first,
            request.body.as_ptr(),
            request.body.len(),
            out.as_mut_ptr(),
            out.len(),
            request.operator,
        )
    }
}

impl Reply {
    /// The number.
    #[inline]
    pub fn number(&self) -> Number {
        self.number.into()
    }

    /// What became of the update.
    #[inline]
    pub fn update(&self) -> Effect {
        self.update.into()
    }

    /// What became of the list of additional addresses.
    #[inline]
    pub fn list(&self) -> Effect {
        self.list.into()
    }

    /// The type of the response's first payload; 0 where nothing is written.
    #[inline]
    pub fn first(&self) -> u8 {
        self.first
    }

    /// The response's length.
    #[inline]
    pub fn length(&self) -> u16 {
        self.length
    }

    /// How many additional addresses past the sixteenth were left off.
    #[inline]
    pub fn left_off(&self) -> u16 {
        self.left_off
    }

    /// How many payloads the request has; 0 where it wasn't read.
    #[inline]
    pub fn payloads(&self) -> u16 {
        self.payloads
    }

    /// The offset of the payload that is malformed or critical, or of the octets after the end; else 0.
    #[inline]
    pub fn offset(&self) -> u16 {
        self.offset
    }

    /// How many payloads stand before that; else 0.
    #[inline]
    pub fn ordinal(&self) -> u16 {
        self.ordinal
    }

    /// COOKIE2's data as a part of the request's body; empty if there is none.
    #[inline]
    pub fn cookie<'a>(&self, body: &'a [u8]) -> &'a [u8] {
        cookie(body, self.cookie, self.cookie_len)
    }

    /// The response, in the output that was lent to the call.
    #[inline]
    pub fn response<'a>(&self, out: &'a [u8]) -> &'a [u8] {
        out.get(..usize::from(self.length)).unwrap_or_default()
    }
}
