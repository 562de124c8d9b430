//! Redirects (RFC 5685): a gateway moves its clients to another one, as for maintenance. The data of the
//! three notifications is read and written here, and a client decides on a REDIRECT; the notification around
//! the data, and the chain that it stands in, are the host's.
//!
//! A gateway answers a client's IKE_SA_INIT request with a REDIRECT, which has the nonce of that request, and
//! the client tells the new gateway where it comes from:
//!
//! ```
//! use unmavreth::limits::REDIRECT_ROOM;
//! use unmavreth::redirect::{self, Exchange, Identity, Redirect, Redirects};
//! use unmavreth::Number;
//!
//! // The gateway, which was told by REDIRECT_SUPPORTED that the client can be redirected.
//! let sent = [7; 16];
//! let new = Identity::ipv4(&[192, 0, 2, 2]);
//! let mut out = [0; REDIRECT_ROOM];
//! let length = redirect::write(&new, &sent, &mut out)?;
//!
//! // The client, at second 1000 of its clock. The record is kept from gateway to gateway.
//! let mut record = Redirects::FRESH;
//! let decided = redirect::decide(&mut record, Exchange::SaInit, &sent, 1000, &out[..length])?;
//! assert_eq!(decided, Redirect { identity: new, nonce: &sent });
//!
//! // The client's IKE_SA_INIT request to the new gateway, which reads it.
//! let old = Identity::ipv4(&[192, 0, 2, 1]);
//! let mut from = [0; REDIRECT_ROOM];
//! let length = redirect::write_from(&old, &mut from)?;
//! assert_eq!(redirect::read_from(&from[..length])?, old);
//! # Ok::<(), Number>(())
//! ```
use crate::layout::{DataWritten, Part};
use crate::limits::{IP4_OCTETS, IP6_OCTETS};
use crate::reader::within;
use crate::{raw, Number};

pub use crate::layout::Redirects;

/// The notify type of REDIRECT_SUPPORTED, which has no data: the client can be redirected.
pub const REDIRECT_SUPPORTED: u16 = 16406;
/// The notify type of REDIRECT: the gateway to go to.
pub const REDIRECT: u16 = 16407;
/// The notify type of REDIRECTED_FROM: the gateway that the client comes from.
pub const REDIRECTED_FROM: u16 = 16408;

/// The type of an identity that is an IPv4 address, of 4 octets.
pub const IP4_IDENTITY: u8 = 1;
/// The type of one that is an IPv6 address, of 16 octets.
pub const IP6_IDENTITY: u8 = 2;
/// The type of one that is a name, of 1 to 255 octets; in a REDIRECT only.
pub const FQDN_IDENTITY: u8 = 3;

/// The identity of a gateway. Any type and any octets may be given to a call, which refuses what can't be.
#[derive(Debug, Clone, Copy, PartialEq, Eq)]
pub struct Identity<'a> {
    /// [`IP4_IDENTITY`], [`IP6_IDENTITY`] or [`FQDN_IDENTITY`].
    pub identity_type: u8,
    /// Its octets; no look is taken at those of a name.
    pub octets: &'a [u8],
}

impl<'a> Identity<'a> {
    /// An IPv4 address.
    pub const fn ipv4(octets: &'a [u8; IP4_OCTETS]) -> Self {
        Identity { identity_type: IP4_IDENTITY, octets }
    }

    /// An IPv6 address.
    pub const fn ipv6(octets: &'a [u8; IP6_OCTETS]) -> Self {
        Identity { identity_type: IP6_IDENTITY, octets }
    }

    /// A name.
    pub const fn fqdn(octets: &'a [u8]) -> Self {
        Identity { identity_type: FQDN_IDENTITY, octets }
    }
}

/// What the data of a REDIRECT says.
#[derive(Debug, Clone, Copy, PartialEq, Eq)]
pub struct Redirect<'a> {
    /// The gateway to go to, a part of the data.
    pub identity: Identity<'a>,
    /// The nonce, a part of the data; empty if there is none.
    pub nonce: &'a [u8],
}

/// The message that a REDIRECT came in. A sole IKE_AUTH response is the first or the last, no matter which.
#[derive(Debug, Clone, Copy, PartialEq, Eq)]
pub enum Exchange {
    /// 0: the IKE_SA_INIT response.
    SaInit,
    /// 1: the first IKE_AUTH response.
    FirstAuth,
    /// 2: one between, where no REDIRECT may stand.
    MiddleAuth,
    /// 3: the last IKE_AUTH response.
    LastAuth,
    /// 4: an INFORMATIONAL request of the gateway.
    Informational,
    /// Another one, where no REDIRECT may stand.
    Other(u8),
}

impl From<u8> for Exchange {
    fn from(exchange: u8) -> Self {
        match exchange {
            0 => Exchange::SaInit,
            1 => Exchange::FirstAuth,
            2 => Exchange::MiddleAuth,
            3 => Exchange::LastAuth,
            4 => Exchange::Informational,
            other => Exchange::Other(other),
        }
    }
}

impl From<Exchange> for u8 {
    fn from(exchange: Exchange) -> Self {
        match exchange {
            Exchange::SaInit => 0,
            Exchange::FirstAuth => 1,
            Exchange::MiddleAuth => 2,
            Exchange::LastAuth => 3,
            Exchange::Informational => 4,
            Exchange::Other(other) => other,
        }
    }
}

/// An empty part of the data, for a call to write to.
fn empty(data: &[u8]) -> Part {
    Part { start: data.as_ptr(), octets: 0 }
}

/// Reads the data of a REDIRECT, at the client. Whether it may be followed is for [`decide`] to say.
///
/// Number: [`BadRedirect`](Number::BadRedirect). A nonce of any size is read.
pub fn read(data: &[u8]) -> Result<Redirect<'_>, Number> {
    let (mut identity, mut nonce) = (empty(data), empty(data));
    // SAFETY: start and length are those of a slice that outlives the call; the two parts lie apart from it
    // and from each other, and each holds an empty part of it.
    let told = unsafe {
        raw::unmavreth_read_redirect(&mut identity, &mut nonce, data.as_ptr(), data.len())
    };
    Number::from(told.number).ok()?;
    let identity = Identity { identity_type: told.identity_type, octets: within(data, identity) };
    Ok(Redirect { identity, nonce: within(data, nonce) })
}

/// Reads the data of a REDIRECTED_FROM, at the gateway that a client was moved to: the gateway that it comes
/// from, by its address.
///
/// Number: [`BadRedirect`](Number::BadRedirect).
pub fn read_from(data: &[u8]) -> Result<Identity<'_>, Number> {
    let mut identity = empty(data);
    // SAFETY: as in `read`.
    let told =
        unsafe { raw::unmavreth_read_redirected_from(&mut identity, data.as_ptr(), data.len()) };
    Number::from(told.number).ok()?;
    Ok(Identity { identity_type: told.identity_type, octets: within(data, identity) })
}

/// Reads the data of a REDIRECT_SUPPORTED, at the gateway: there is to be none.
///
/// Number: [`BadRedirect`](Number::BadRedirect).
pub fn read_supported(data: &[u8]) -> Result<(), Number> {
    // SAFETY: start and length are those of a slice that outlives the call.
    let number = unsafe { raw::unmavreth_read_redirect_supported(data.as_ptr(), data.len()) };
    Number::from(number).ok()
}

/// The length of what was written, if it was.
fn written(told: DataWritten) -> Result<usize, Number> {
    Number::from(told.number).ok()?;
    Ok(told.length)
}

/// Writes the data of a REDIRECT to the start of `out`, at the gateway, and tells how many octets it took:
/// for an IKE_SA_INIT response with the nonce of the client's request, else with an empty one, which is none.
/// `out` must have [`REDIRECT_ROOM`](crate::limits::REDIRECT_ROOM) octets whatever is written; those past the
/// length stay as they were.
///
/// Numbers, in the order of the checks: [`OutputTooShort`](Number::OutputTooShort);
/// [`BadRedirect`](Number::BadRedirect) for an identity of a type or a size that can't be, or a nonce not of 0
/// or 16 to 256 octets. A refusal writes nothing.
pub fn write(identity: &Identity<'_>, nonce: &[u8], out: &mut [u8]) -> Result<usize, Number> {
    // SAFETY: each start and length are those of a slice that is lent for the call, the output to nothing
    // else.
    written(unsafe {
        raw::unmavreth_write_redirect(
            identity.identity_type,
            identity.octets.as_ptr(),
            identity.octets.len(),
            nonce.as_ptr(),
            nonce.len(),
            out.as_mut_ptr(),
            out.len(),
        )
    })
}

/// Writes the data of a REDIRECTED_FROM, at the client: the address of the gateway that it comes from, for
/// its IKE_SA_INIT request to the new one. Room, numbers and their order are those of [`write()`].
pub fn write_from(identity: &Identity<'_>, out: &mut [u8]) -> Result<usize, Number> {
    // SAFETY: as in `write`.
    written(unsafe {
        raw::unmavreth_write_redirected_from(
            identity.identity_type,
            identity.octets.as_ptr(),
            identity.octets.len(),
            out.as_mut_ptr(),
            out.len(),
        )
    })
}

/// Writes the data of a REDIRECT_SUPPORTED, at the client, which is none. Still
/// [`OutputTooShort`](Number::OutputTooShort) is told where `out` has under
/// [`REDIRECT_ROOM`](crate::limits::REDIRECT_ROOM) octets.
pub fn write_supported(out: &mut [u8]) -> Result<usize, Number> {
    // SAFETY: start and length are those of a slice that is lent to the call alone.
    written(unsafe { raw::unmavreth_write_redirect_supported(out.as_mut_ptr(), out.len()) })
}

/// Decides, at the client, whether a REDIRECT is to be followed, by its data and the exchange that it came in.
/// `sent` is the nonce of the client's IKE_SA_INIT request, at which only that exchange looks; `time` is now,
/// in seconds, by any clock that doesn't run back. If it is accepted the record keeps the time.
///
/// Numbers, in the order of the checks: [`BadRedirect`](Number::BadRedirect),
/// [`WrongExchange`](Number::WrongExchange), [`WrongNonce`](Number::WrongNonce),
/// [`TimeBeforeLast`](Number::TimeBeforeLast), [`TooManyRedirects`](Number::TooManyRedirects). A refusal
/// leaves the record as it was. From a fresh record on, no sixth is accepted within 300 seconds.
pub fn decide<'a>(
    record: &mut Redirects,
    exchange: Exchange,
    sent: &[u8],
    time: u64,
    data: &'a [u8],
) -> Result<Redirect<'a>, Number> {
    let mut identity = empty(data);
    // SAFETY: each start and length are those of a slice that outlives the call; the record's two fields and
    // the part, which holds an empty part of the data, are lent to nothing else.
    let told = unsafe {
        raw::unmavreth_decide_redirect(
            &mut record.count,
            &mut record.times,
            &mut identity,
            exchange.into(),
            sent.as_ptr(),
            sent.len(),
            time,
            data.as_ptr(),
            data.len(),
        )
    };
    Number::from(told.number).ok()?;
    let identity = Identity { identity_type: told.identity_type, octets: within(data, identity) };
    // The nonce is what stands behind the identity, to the end.
    let nonce = data.get(data.len().saturating_sub(told.nonce_len)..).unwrap_or_default();
    Ok(Redirect { identity, nonce })
}
