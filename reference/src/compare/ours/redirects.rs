// The library's calls on redirects: its C interface, and what they give as it is compared.
use super::cookie::{part, COctets};
use reference::outcome::Place;
use reference::redirect::data::{DataRead, Writing, Written};
use reference::redirect::decision::{Decided, Redirect, Redirects, MOST_TIMES};
use reference::redirect::program::Redirecting;
use reference::redirect::Notification;
use std::cell::Cell;
use std::mem::{offset_of, size_of};

#[repr(C)]
struct CRead {
    number: u8,
    identity_type: u8,
}

#[repr(C)]
struct CWritten {
    number: u8,
    length: usize,
}

#[repr(C)]
struct CDecided {
    number: u8,
    identity_type: u8,
    nonce_len: usize,
}

const _: () = assert!(size_of::<CRead>() == 2 && offset_of!(CRead, identity_type) == 1);
const _: () = assert!(size_of::<CWritten>() == 16 && offset_of!(CWritten, length) == 8);
const _: () = assert!(size_of::<CDecided>() == 16 && offset_of!(CDecided, nonce_len) == 8);
const _: () = assert!(size_of::<Redirects>() == 48 && offset_of!(Redirects, times) == 8);

#[link(name = "unmavreth", kind = "static")]
extern "C" {
    fn unmavreth_read_redirect(
        identity: *mut COctets,
        nonce: *mut COctets,
        data: *const u8,
        data_len: usize,
    ) -> CRead;
    fn unmavreth_read_redirected_from(
        identity: *mut COctets,
        data: *const u8,
        data_len: usize,
    ) -> CRead;
    fn unmavreth_read_redirect_supported(data: *const u8, data_len: usize) -> u8;
    fn unmavreth_write_redirect(
        identity_type: u8,
        identity: *const u8,
        identity_len: usize,
        nonce: *const u8,
        nonce_len: usize,
        out: *mut u8,
        out_len: usize,
    ) -> CWritten;
    fn unmavreth_write_redirected_from(
        identity_type: u8,
        identity: *const u8,
        identity_len: usize,
        out: *mut u8,
        out_len: usize,
    ) -> CWritten;
    fn unmavreth_write_redirect_supported(out: *mut u8, out_len: usize) -> CWritten;
    fn unmavreth_decide_redirect(
        count: *mut u8,
        times: *mut [u64; MOST_TIMES],
        identity: *mut COctets,
        exchange: u8,
        sent: *const u8,
        sent_len: usize,
        time: u64,
        data: *const u8,
        data_len: usize,
    ) -> CDecided;
}

/// The library.
#[derive(Default)]
pub struct Ours {
    /// Whether it changed what is around an output that was lent to it.
    changed_around: Cell<bool>,
}

/// How many octets stand on each side of an output.
const AROUND: usize = 16;
const OCTET: u8 = 0x3c;

impl Ours {
    pub fn kept_around(&self) -> bool {
        !self.changed_around.get()
    }
}

/// A part that holds something before the call, so that a call which doesn't set it is noticed.
fn whole(data: &[u8]) -> COctets {
    COctets { start: data.as_ptr(), length: data.len() }
}

impl Redirecting for Ours {
    fn read<'a>(&self, of: Notification, data: &'a [u8]) -> DataRead<'a> {
        let (mut identity, mut nonce) = (whole(data), whole(data));
        let (start, length) = (data.as_ptr(), data.len());
        // SAFETY: start and length are those of a slice that outlives the call, and so is what both parts hold.
        let read = unsafe {
            match of {
                Notification::Redirect => {
                    unmavreth_read_redirect(&mut identity, &mut nonce, start, length)
                }
                Notification::RedirectedFrom => {
                    nonce.length = 0;
                    unmavreth_read_redirected_from(&mut identity, start, length)
                }
                Notification::RedirectSupported => {
                    (identity.length, nonce.length) = (0, 0);
                    let number = unmavreth_read_redirect_supported(start, length);
                    CRead { number, identity_type: 0 }
                }
            }
        };
        let CRead { number, identity_type } = read;
        DataRead { number, identity_type, identity: part(data, identity), nonce: part(data, nonce) }
    }

    fn write(&self, of: Notification, writing: &Writing) -> Written {
        let Writing { identity_type, identity, nonce, output } = writing;
        let mut longer = [&[OCTET; AROUND], &output[..], &[OCTET; AROUND]].concat();
        let middle = &mut longer[AROUND..][..output.len()];
        let (out, room) = (middle.as_mut_ptr(), middle.len());
        let named = (identity.as_ptr(), identity.len());
        // SAFETY: each start and length are those of a slice that outlives the call, and no two of them overlap; any
        // type is allowed.
        let written = unsafe {
            match of {
                Notification::Redirect => unmavreth_write_redirect(
                    *identity_type,
                    named.0,
                    named.1,
                    nonce.as_ptr(),
                    nonce.len(),
                    out,
                    room,
                ),
                Notification::RedirectedFrom => {
                    unmavreth_write_redirected_from(*identity_type, named.0, named.1, out, room)
                }
                Notification::RedirectSupported => unmavreth_write_redirect_supported(out, room),
            }
        };
        let CWritten { number, length } = written;
        let output = middle.to_vec();
        let around = [&longer[..AROUND], &longer[AROUND + output.len()..]];
        if around != [[OCTET; AROUND]; 2] {
            self.changed_around.set(true);
        }
        Written { number, length, output }
    }

    fn decide<'a>(&self, record: &mut Redirects, redirect: &'a Redirect) -> Decided<'a> {
        let Redirect { exchange, sent, time, data } = redirect;
        let mut identity = whole(data);
        let Redirects { count, times } = record;
        // SAFETY: each start and length are those of a slice that outlives the call, those of the record are its
        // fields, and no two of these overlap; the rest goes by value, and any is allowed.
        let decided = unsafe {
            unmavreth_decide_redirect(
                count,
                times,
                &mut identity,
                *exchange,
                sent.as_ptr(),
                sent.len(),
                *time,
                data.as_ptr(),
                data.len(),
            )
        };
        let CDecided { number, identity_type, nonce_len } = decided;
        let identity: Place = part(data, identity);
        Decided { number, identity_type, identity, nonce_length: nonce_len }
    }
}
