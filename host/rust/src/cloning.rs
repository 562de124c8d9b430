//! Cloning an IKE SA (RFC 7791), so that one client has an IKE SA on each of its networks.
use crate::layout::{Ask, CloneReply, IkeRecord, Operator, Written};
use crate::limits::IKE_PLACES;
use crate::{raw, write, Draft, Number};

/// The notify type by which both ends say in IKE_AUTH that the IKE SA may be cloned; it has no data.
pub const CLONE_IKE_SA_SUPPORTED: u16 = 16432;
/// The notify type that makes a rekey of an IKE SA a clone, after which the old one stays; it has no data.
pub const CLONE_IKE_SA: u16 = 16433;

/// A request to clone an IKE SA as it came: a CREATE_CHILD_SA request that rekeys the IKE SA, authenticated,
/// decrypted, and within the message window.
#[derive(Debug, Clone, Copy, Default, PartialEq, Eq)]
pub struct CloneRequest<'a> {
    /// The gateway's SPI of the IKE SA that it came in, the original.
    pub spi: u64,
    /// The SPI that the gateway draws for the new one.
    pub new_spi: u64,
    /// The type of the first payload.
    pub first: u8,
    /// The payloads; those of the key exchange are skipped.
    pub body: &'a [u8],
    /// Whose the IKE SA is, and the clone.
    pub operator: Operator,
}

/// Writes CLONE_IKE_SA_SUPPORTED and nothing else to the start of `out`, as [`write`](crate::write): for the
/// host's IKE_AUTH message.
#[inline]
pub fn write_clone_supported(out: &mut [u8]) -> Written {
    let ask = Ask { clone_supported: true, ..Ask::default() };
    write(&Draft { ask, ..Draft::default() }, out)
}

/// Writes CLONE_IKE_SA and nothing else to the start of `out`, as [`write`](crate::write): for the host's
/// CREATE_CHILD_SA request that rekeys the IKE SA.
#[inline]
pub fn write_clone(out: &mut [u8]) -> Written {
    let ask = Ask { clone: true, ..Ask::default() };
    write(&Draft { ask, ..Draft::default() }, out)
}

/// Decides a request to clone an IKE SA of which our end is the original responder, on a lent table that is
/// changed in place. The response goes to the start of `out`, and the octets past its length stay as they
/// were.
///
/// Numbers, in the order of the checks; with every one but the last the table stays as it was:
///
/// | Number | Response |
/// |---|---|
/// | [`BadArgument`](Number::BadArgument) for an SPI of 0 or an operator that is neither, [`OutputTooShort`](Number::OutputTooShort), [`BodyTooLong`](Number::BodyTooLong), [`NoSuchRecord`](Number::NoSuchRecord), [`CloningNotAgreed`](Number::CloningNotAgreed) | none |
/// | [malformed](Number::is_malformed), [`UnknownCritical`](Number::UnknownCritical) | the error |
/// | [`NoCloneRequest`](Number::NoCloneRequest): a plain rekey | none |
/// | [`CannotCloneNow`](Number::CannotCloneNow) | TEMPORARY_FAILURE |
/// | [`PeerAtLimit`](Number::PeerAtLimit) | NO_ADDITIONAL_SAS |
/// | [`SpiInUse`](Number::SpiInUse), by either operator: the host draws another SPI | none |
/// | [`OperatorAtShare`](Number::OperatorAtShare) | NO_ADDITIONAL_SAS |
/// | [`Done`](Number::Done) | CLONE_IKE_SA |
///
/// The clone is at the lowest free place, with the new SPI and the original's pair and agreements, and owns
/// no IPsec record. The host goes on with the key exchange of the rekey, and does not delete the original.
#[inline]
pub fn clone_ike(
    ike: &mut [IkeRecord; IKE_PLACES],
    request: &CloneRequest<'_>,
    out: &mut [u8],
) -> CloneReply {
    // SAFETY: each start and length are those of a slice or an array that is lent for the call, what is
    // written to nothing else; the rest goes by value, and any may be given.
    unsafe {
        raw::unmavreth_clone(
            ike,
            request.spi,
            request.new_spi,
            request.first,
            request.body.as_ptr(),
            request.body.len(),
            out.as_mut_ptr(),
            out.len(),
            request.operator,
        )
    }
}

impl CloneReply {
    /// The number.
    #[inline]
    pub fn number(&self) -> Number {
        self.number.into()
    }

    /// The type of the response's first payload; 0 where nothing is written.
    #[inline]
    pub fn first(&self) -> u8 {
        self.first
    }

    /// The response's length.
    #[inline]
    pub fn length(&self) -> u16 {
        self.length
    }

    /// How many payloads the request has; 0 where it wasn't read.
    #[inline]
    pub fn payloads(&self) -> u16 {
        self.payloads
    }

    /// The offset of the payload that is malformed or critical, or of the octets after the end; else 0.
    #[inline]
    pub fn offset(&self) -> u16 {
        self.offset
    }

    /// How many payloads stand before that; else 0.
    #[inline]
    pub fn ordinal(&self) -> u16 {
        self.ordinal
    }

    /// The response, in the output that was lent to the call.
    #[inline]
    pub fn response<'a>(&self, out: &'a [u8]) -> &'a [u8] {
        out.get(..usize::from(self.length)).unwrap_or_default()
    }
}
