//! What a payload chain says, and what a request of ours is to carry.
use super::Flag;
use crate::limits::ADDRESSES_MOST;

/// How many payloads a chain has, and how many of them are not known.
#[repr(C)]
#[derive(Debug, Clone, Copy, Default, PartialEq, Eq)]
pub struct Tally {
    /// All payloads.
    pub payloads: u16,
    /// Payloads of a type that is not known.
    pub unknown_payloads: u16,
    /// Notifications of a type that is not known.
    pub unknown_notifies: u16,
    /// Those of them below 16384, which are errors.
    pub errors: u16,
    /// The type of the first error.
    pub first_error: u16,
}

/// The additional addresses of a chain: all are counted, the first [`ADDRESSES_MOST`] are told.
#[repr(C)]
#[derive(Debug, Clone, Copy, Default, PartialEq, Eq)]
pub struct Offsets {
    /// How many there are, those past [`ADDRESSES_MOST`] too.
    pub count: u16,
    /// Where the octets of each begin in the body.
    pub offsets: [u16; ADDRESSES_MOST],
    /// The family of each.
    pub families: [u8; ADDRESSES_MOST],
}

/// What the payloads of a chain say. Data is told by the offset in the body at which it
/// begins; 0 means none.
#[repr(C)]
#[derive(Debug, Clone, Copy, Default, PartialEq, Eq)]
pub struct Seen {
    /// The counts.
    pub tally: Tally,
    /// UPDATE_SA_ADDRESSES is there.
    pub update: Flag,
    /// NO_ADDITIONAL_ADDRESSES is there.
    pub no_additional: Flag,
    /// Where the 20 octets of the first NAT_DETECTION_SOURCE_IP begin.
    pub nat_source: u16,
    /// Where the 20 octets of NAT_DETECTION_DESTINATION_IP begin.
    pub nat_destination: u16,
    /// Where the data of NO_NATS_ALLOWED begins.
    pub no_nats: u16,
    /// Its length.
    pub no_nats_len: u16,
    /// Where the data of COOKIE2 begins.
    pub cookie: u16,
    /// Its length.
    pub cookie_len: u16,
    /// The additional addresses.
    pub list: Offsets,
}

/// What [`read`](crate::read) gives.
#[repr(C)]
#[must_use = "its number may be a refusal"]
#[derive(Debug, Clone, Copy, PartialEq, Eq)]
pub struct Reading {
    pub(crate) number: u8,
    pub(crate) critical: u8,
    pub(crate) offset: u16,
    pub(crate) ordinal: u16,
    pub(crate) seen: Seen,
}

/// What a request of ours is to carry. The library only reads it, so that its flags, octets in C, are
/// `bool` here. Each of the last two is asked for alone: with nothing else here, and no cookie.
#[repr(C)]
#[derive(Debug, Clone, Copy, Default, PartialEq, Eq)]
pub struct Ask {
    /// UPDATE_SA_ADDRESSES.
    pub update: bool,
    /// NO_NATS_ALLOWED, with the pair of the request.
    pub no_nats: bool,
    /// NAT_DETECTION_SOURCE_IP; both kinds or neither.
    pub nat_source: bool,
    /// NAT_DETECTION_DESTINATION_IP; both kinds or neither.
    pub nat_destination: bool,
    /// NO_ADDITIONAL_ADDRESSES; not with additional addresses.
    pub no_additional: bool,
    /// How many of the additional addresses, at most [`ADDRESSES_MOST`].
    pub count: u16,
    /// CLONE_IKE_SA_SUPPORTED, for IKE_AUTH.
    pub clone_supported: bool,
    /// CLONE_IKE_SA, for a rekey of the IKE SA.
    pub clone: bool,
}

laid_out!(Tally, size 10, align 2, {
    payloads: 0, unknown_payloads: 2, unknown_notifies: 4, errors: 6, first_error: 8,
});
laid_out!(Offsets, size 50, align 2, { count: 0, offsets: 2, families: 34 });
laid_out!(Seen, size 74, align 2, {
    tally: 0, update: 10, no_additional: 11, nat_source: 12, nat_destination: 14, no_nats: 16,
    no_nats_len: 18, cookie: 20, cookie_len: 22, list: 24,
});
laid_out!(Reading, size 80, align 2, { number: 0, critical: 1, offset: 2, ordinal: 4, seen: 6 });
laid_out!(Ask, size 10, align 2, {
    update: 0, no_nats: 1, nat_source: 2, nat_destination: 3, no_additional: 4, count: 6,
    clone_supported: 8, clone: 9,
});
