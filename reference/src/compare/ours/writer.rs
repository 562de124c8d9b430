// The library's request writer: its C interface, and what it gives back as it is compared.
use super::reader::CAddressList;
use reference::address::AddressPair;
use reference::asking::{Arguments, Ask};
use reference::writer::Written;
use std::mem::{offset_of, size_of};

#[repr(C)]
struct CWritten {
    number: u8,
    first: u8,
    length: u16,
}

/// Yes or no is an octet, of which 0 is no.
#[repr(C)]
struct CAsk {
    update: u8,
    no_nats: u8,
    nat_source: u8,
    nat_destination: u8,
    no_additional: u8,
    count: u16,
    clone_supported: u8,
    clone: u8,
}

const _: () = assert!(size_of::<CAsk>() == 10 && offset_of!(CAsk, count) == 6);
const _: () = assert!(offset_of!(CAsk, clone_supported) == 8 && offset_of!(CAsk, clone) == 9);
const _: () = assert!(size_of::<CWritten>() == 4 && offset_of!(CWritten, length) == 2);

#[link(name = "unmavreth", kind = "static")]
extern "C" {
    fn unmavreth_write(
        ask: CAsk,
        pair: AddressPair,
        addresses: CAddressList,
        nat_source: *const u8,
        nat_source_len: usize,
        nat_destination: *const u8,
        nat_destination_len: usize,
        cookie: *const u8,
        cookie_len: usize,
        out: *mut u8,
        out_len: usize,
    ) -> CWritten;
}

/// What is asked for, with octets other than 1 for yes, by how long the cookie is.
fn as_octets(ask: Ask, cookie: usize) -> CAsk {
    let octet =
        |yes: bool, place: u8| if yes { (cookie as u8).wrapping_mul(51) | place } else { 0 };
    CAsk {
        update: octet(ask.update, 1),
        no_nats: octet(ask.no_nats, 2),
        nat_source: octet(ask.nat_source, 4),
        nat_destination: octet(ask.nat_destination, 8),
        no_additional: octet(ask.no_additional, 128),
        count: ask.count,
        clone_supported: octet(ask.clone_supported, 64),
        clone: octet(ask.clone, 255),
    }
}

/// Writes a request by the library.
pub fn write(arguments: &Arguments) -> Written {
    let Arguments { ask, pair, addresses, nat_source, nat_destination, cookie, output } = arguments;
    let mut output = output.clone();
    // SAFETY: each start and length are those of a slice that outlives the call, and no two of the
    // slices overlap; the rest goes by value, and any is allowed.
    let written = unsafe {
        unmavreth_write(
            as_octets(*ask, cookie.len()),
            *pair,
            CAddressList { list: *addresses },
            nat_source.as_ptr(),
            nat_source.len(),
            nat_destination.as_ptr(),
            nat_destination.len(),
            cookie.as_ptr(),
            cookie.len(),
            output.as_mut_ptr(),
            output.len(),
        )
    };
    let CWritten { number, first, length } = written;
    Written { number, first, length: usize::from(length), output }
}
