// The notify types and the headers of Notify payloads.
pub const UNSUPPORTED_CRITICAL_PAYLOAD: u16 = 1;
pub const INVALID_SYNTAX: u16 = 7;
pub const NO_ADDITIONAL_SAS: u16 = 35;
pub const UNACCEPTABLE_ADDRESSES: u16 = 40;
pub const UNEXPECTED_NAT_DETECTED: u16 = 41;
pub const TEMPORARY_FAILURE: u16 = 43;
/// Types below it tell errors.
pub const FIRST_STATUS: u16 = 16384;
pub const NAT_DETECTION_SOURCE_IP: u16 = 16388;
pub const NAT_DETECTION_DESTINATION_IP: u16 = 16389;
pub const MOBIKE_SUPPORTED: u16 = 16396;
pub const ADDITIONAL_IP4_ADDRESS: u16 = 16397;
pub const ADDITIONAL_IP6_ADDRESS: u16 = 16398;
pub const NO_ADDITIONAL_ADDRESSES: u16 = 16399;
pub const UPDATE_SA_ADDRESSES: u16 = 16400;
pub const COOKIE2: u16 = 16401;
pub const NO_NATS_ALLOWED: u16 = 16402;
pub const CLONE_IKE_SA_SUPPORTED: u16 = 16432;
pub const CLONE_IKE_SA: u16 = 16433;

/// The payload type of a Notify.
pub const NOTIFY: u8 = 41;

/// The header of a Notify with no SPI and this many data octets.
#[inline]
pub fn header(next: u8, kind: u16, data: usize) -> [u8; 8] {
    let [high, low] = kind.to_be_bytes();
    [next, 0, 0, data.wrapping_add(8) as u8, 0, 0, high, low]
}

/// Whether a cookie may be sent: none, or one of 8 to 64 octets.
#[inline]
pub fn may_be_sent(octets: usize) -> bool {
    octets == 0 || is_cookie(octets)
}

/// Whether a cookie may have so many octets.
#[inline]
pub fn is_cookie(octets: usize) -> bool {
    (8..=64).contains(&octets)
}
