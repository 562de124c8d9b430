// Writes the response to a request, of at most 128 octets.
use super::notify::*;

pub const ROOM: usize = 128;

/// INVALID_SYNTAX; gives the length.
#[inline]
pub fn invalid_syntax(out: &mut [u8; ROOM]) -> u16 {
    out[..8].copy_from_slice(&header(0, INVALID_SYNTAX, 0));
    8
}

/// UNSUPPORTED_CRITICAL_PAYLOAD with the payload's type; gives the length.
#[inline]
pub fn unsupported(out: &mut [u8; ROOM], kind: u8) -> u16 {
    out[..8].copy_from_slice(&header(0, UNSUPPORTED_CRITICAL_PAYLOAD, 1));
    out[8] = kind;
    9
}

/// An error, then the cookie if it isn't empty; gives the length.
#[inline]
pub fn error(out: &mut [u8; ROOM], kind: u16, cookie: &[u8]) -> u16 {
    let (error, rest) = out.split_at_mut(8);
    error.copy_from_slice(&header(next(cookie), kind, 0));
    put_cookie(rest, cookie).wrapping_add(8)
}

/// The NAT detection values, then the cookie if it isn't empty; gives the length.
#[inline]
pub fn values(
    out: &mut [u8; ROOM],
    source: &[u8; 20],
    destination: &[u8; 20],
    cookie: &[u8],
) -> u16 {
    let (values, rest) = out.split_at_mut(56);
    values[..8].copy_from_slice(&header(NOTIFY, NAT_DETECTION_SOURCE_IP, 20));
    values[8..28].copy_from_slice(source);
    values[28..36].copy_from_slice(&header(next(cookie), NAT_DETECTION_DESTINATION_IP, 20));
    values[36..56].copy_from_slice(destination);
    put_cookie(rest, cookie).wrapping_add(56)
}

/// The cookie if it isn't empty; gives the length.
#[inline]
pub fn put_cookie(out: &mut [u8], cookie: &[u8]) -> u16 {
    if cookie.is_empty() {
        return 0;
    }
    let (head, rest) = out.split_at_mut(8);
    head.copy_from_slice(&header(0, COOKIE2, cookie.len()));
    rest[..cookie.len()].copy_from_slice(cookie);
    cookie.len().wrapping_add(8) as u16
}

/// The next type of the payload before the cookie.
#[inline]
fn next(cookie: &[u8]) -> u8 {
    if cookie.is_empty() {
        0
    } else {
        NOTIFY
    }
}
