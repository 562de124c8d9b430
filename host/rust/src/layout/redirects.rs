//! What reading, writing and deciding a redirect give back, and the record of accepted ones.
use crate::limits::REDIRECTS_MOST;

/// What is told of data that was read.
#[repr(C)]
#[derive(Clone, Copy)]
pub(crate) struct GatewayRead {
    pub(crate) number: u8,
    pub(crate) identity_type: u8,
}

/// How many octets the data took.
#[repr(C)]
#[derive(Clone, Copy)]
pub(crate) struct DataWritten {
    pub(crate) number: u8,
    pub(crate) length: usize,
}

/// What is told of a decision.
#[repr(C)]
#[derive(Clone, Copy)]
pub(crate) struct RedirectDecision {
    pub(crate) number: u8,
    pub(crate) identity_type: u8,
    pub(crate) nonce_len: usize,
}

/// What a client keeps of the redirects that it accepted, from gateway to gateway. The default is a fresh
/// record.
#[repr(C)]
#[derive(Debug, Clone, Copy, Default, PartialEq, Eq)]
pub struct Redirects {
    /// How many places of `times` hold one; over [`REDIRECTS_MOST`] it reads as that.
    pub count: u8,
    /// The times of the last accepted ones, in seconds, oldest first; zeros past the count.
    pub times: [u64; REDIRECTS_MOST],
}

laid_out!(GatewayRead, size 2, align 1, { number: 0, identity_type: 1 });
laid_out!(DataWritten, size 16, align 8, { number: 0, length: 8 });
laid_out!(RedirectDecision, size 16, align 8, { number: 0, identity_type: 1, nonce_len: 8 });
laid_out!(Redirects, size 48, align 8, { count: 0, times: 8 });

impl Redirects {
    /// No redirect was accepted yet.
    pub const FRESH: Redirects = Redirects { count: 0, times: [0; REDIRECTS_MOST] };
}
