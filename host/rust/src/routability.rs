//! The return routability check (RFC 4555, 3.7): the gateway's own request, and the response to it.
use crate::layout::{Assessment, IkeRecord, IpsecRecord, Operator, Reply, Written};
use crate::limits::IKE_PLACES;
use crate::{raw, write, Draft, Effect, Request};

/// A response to a check as it came: authenticated, decrypted, and to a request that is under way.
#[derive(Debug, Clone, Copy, Default, PartialEq, Eq)]
pub struct CheckResponse<'a> {
    /// The gateway's SPI of the IKE SA.
    pub spi: u64,
    /// The message ID, which is that of the gateway's request.
    pub id: u32,
    /// The type of the first payload.
    pub first: u8,
    /// The payloads.
    pub body: &'a [u8],
    /// Whose the IKE SA is.
    pub operator: Operator,
}

/// Writes the check that the reply to this request asks for, COOKIE2 with the request's
/// [`cookie`](Request::cookie) and nothing else, to the start of `out`, as [`write`](crate::write). The host
/// sends it with the message ID [`check_id`](Request::check_id), by the new pair. Unless the update was
/// applied nothing is written: the first type and the length are 0.
#[inline]
pub fn write_check(reply: &Reply, request: &Request<'_>, out: &mut [u8]) -> Written {
    let cookie = if reply.update() == Effect::Applied { request.cookie } else { &[] };
    write(&Draft { cookie, ..Draft::default() }, out)
}

/// Decides the response to a check, on lent tables that are changed in place. It is assessed as by
/// [`assess`](crate::assess), with the cookie that the IKE record keeps.
///
/// Numbers, in the order of the checks: [`BadArgument`](crate::Number::BadArgument) for a list not of 128
/// records, an SPI of 0 or an operator that is neither, [`BodyTooLong`](crate::Number::BodyTooLong),
/// [`NoSuchRecord`](crate::Number::NoSuchRecord), [`MobikeNotAgreed`](crate::Number::MobikeNotAgreed),
/// [`CheckNotPending`](crate::Number::CheckNotPending), one that [is
/// malformed](crate::Number::is_malformed) or [`UnknownCritical`](crate::Number::UnknownCritical),
/// [`Done`](crate::Number::Done). A refusal leaves both tables, and the check goes on.
///
/// | Outcome | Tables |
/// |---|---|
/// | [`Accepted`](crate::Outcome::Accepted) | every IPsec record that the IKE record owns takes the IKE record's pair; no check |
/// | [`NatSeen`](crate::Outcome::NatSeen), [`Unacceptable`](crate::Outcome::Unacceptable), [`Failed`](crate::Outcome::Failed) | no check, and nothing moves |
/// | [`Close`](crate::Outcome::Close) | as after [`close_ike`](crate::close_ike) |
#[inline]
pub fn check(
    ike: &mut [IkeRecord; IKE_PLACES],
    ipsec: &mut [IpsecRecord],
    response: &CheckResponse<'_>,
) -> Assessment {
    // SAFETY: both tables are lent for the call and to nothing else, each count is that of a slice; the rest
    // goes by value, and any may be given.
    unsafe {
        raw::unmavreth_check(
            ike,
            ipsec.as_mut_ptr(),
            ipsec.len(),
            response.spi,
            response.id,
            response.first,
            response.body.as_ptr(),
            response.body.len(),
            response.operator,
        )
    }
}
