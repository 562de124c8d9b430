// The library's assessment of responses: its C interface, and its answers as they are compared.
use super::cookie::hand_out;
use reference::assess::Assessed;
use reference::outcome::Place;
use std::mem::{offset_of, size_of};

#[repr(C)]
pub struct CAssessed {
    number: u8,
    outcome: u8,
    payloads: u16,
    offset: u16,
    ordinal: u16,
    tally: u32,
    cookie: u16,
    cookie_len: u16,
}

const _: () = assert!(size_of::<CAssessed>() == 16);
const _: () = assert!(offset_of!(CAssessed, payloads) == 2 && offset_of!(CAssessed, tally) == 8);
const _: () =
    assert!(offset_of!(CAssessed, ordinal) == 6 && offset_of!(CAssessed, cookie_len) == 14);

#[link(name = "unmavreth", kind = "static")]
extern "C" {
    fn unmavreth_assess(
        sent: *const u8,
        sent_len: usize,
        first: u8,
        body: *const u8,
        body_len: usize,
    ) -> CAssessed;
}

/// Assesses a response by the library.
pub fn assess<'a>(sent: &[u8], first: u8, body: &'a [u8]) -> Assessed<'a> {
    // SAFETY: each start and length are those of a slice that outlives the call.
    let told =
        unsafe { unmavreth_assess(sent.as_ptr(), sent.len(), first, body.as_ptr(), body.len()) };
    assessed(told, body)
}

pub fn assessed(told: CAssessed, body: &[u8]) -> Assessed<'_> {
    let CAssessed { number, outcome, payloads, offset, ordinal, tally, cookie, cookie_len } = told;
    let handed_out = hand_out(body, cookie, cookie_len);
    let cookie = Place::in_body(body, usize::from(cookie), usize::from(cookie_len));
    Assessed { number, outcome, payloads, offset, ordinal, tally, cookie, handed_out }
}
