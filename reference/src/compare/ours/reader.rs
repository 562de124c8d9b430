// The library's reader: its C interface, and its readings in the form in which they are compared.
use super::cookie::{hand_out, nat_value};
use reference::address::{Address, AddressPair};
use reference::cookie::handed_out;
use reference::given_list::{given_lists, SeenList};
use reference::outcome::{Outcome, Place};
use std::mem::{offset_of, size_of};

/// The two flags are octets here, so that any value the library leaves there may be looked at.
#[repr(C)]
#[derive(Clone, Copy)]
struct CSeen {
    payloads: u16,
    unknown_payloads: u16,
    unknown_notifies: u16,
    errors: u16,
    first_error: u16,
    update: u8,
    no_additional: u8,
    nat_source: u16,
    nat_destination: u16,
    no_nats: u16,
    no_nats_len: u16,
    cookie: u16,
    cookie_len: u16,
    list: COffsets,
}

#[repr(C)]
#[derive(Clone, Copy)]
struct COffsets {
    count: u16,
    offsets: [u16; 16],
    families: [u8; 16],
}

#[repr(C)]
struct CReading {
    number: u8,
    critical_type: u8,
    offset: u16,
    ordinal: u16,
    seen: CSeen,
}

#[repr(C)]
pub(super) struct CAddressList {
    pub(super) list: [Address; 16],
}

const _: () = assert!(size_of::<CSeen>() == 74);
const _: () = assert!(offset_of!(CSeen, update) == 10 && offset_of!(CSeen, nat_source) == 12);
const _: () = assert!(offset_of!(CSeen, list) == 24 && size_of::<COffsets>() == 50);
const _: () = assert!(offset_of!(COffsets, offsets) == 2 && offset_of!(COffsets, families) == 34);
const _: () = assert!(size_of::<CReading>() == 80 && offset_of!(CReading, critical_type) == 1);
const _: () = assert!(offset_of!(CReading, offset) == 2 && offset_of!(CReading, ordinal) == 4);
const _: () = assert!(offset_of!(CReading, seen) == 6);
const _: () = assert!(size_of::<AddressPair>() == 38);
const _: () = assert!(offset_of!(AddressPair, source_port) == 34);
const _: () = assert!(size_of::<CAddressList>() == 272 && size_of::<Address>() == 17);

#[link(name = "unmavreth", kind = "static")]
extern "C" {
    fn unmavreth_read(first: u8, body: *const u8, len: usize) -> CReading;
    fn unmavreth_no_nats(body: *const u8, len: usize, at: u16, no_nats_len: u16) -> AddressPair;
    fn unmavreth_addresses(body: *const u8, len: usize, list: COffsets) -> CAddressList;
}

/// Reads a chain by the library.
pub fn read(first: u8, body: &[u8]) -> Outcome<'_> {
    let (start, length) = (body.as_ptr(), body.len());
    // SAFETY: start and length are those of a slice that outlives each call.
    let (reading, no_nats_pair) = unsafe {
        let reading = unmavreth_read(first, start, length);
        let CSeen { no_nats, no_nats_len, .. } = reading.seen;
        let no_nats_pair = unmavreth_no_nats(start, length, no_nats, no_nats_len);
        (reading, no_nats_pair)
    };
    outcome(body, reading, no_nats_pair)
}

/// The list that the library gives for these additional addresses.
fn give(body: &[u8], list: SeenList) -> [Address; 16] {
    let SeenList { count, offsets, families } = list;
    let list = COffsets { count, offsets, families };
    // SAFETY: start and length are those of a slice that outlives the call.
    unsafe { unmavreth_addresses(body.as_ptr(), body.len(), list) }.list
}

fn outcome(body: &[u8], reading: CReading, no_nats_pair: AddressPair) -> Outcome<'_> {
    let seen = reading.seen;
    let COffsets { count, offsets, families } = seen.list;
    let told = SeenList { count, offsets, families };
    let place = |offset, length| Place::in_body(body, usize::from(offset), usize::from(length));
    let cookie = place(seen.cookie, seen.cookie_len);
    Outcome {
        number: reading.number,
        offset: usize::from(reading.offset),
        ordinal: usize::from(reading.ordinal),
        critical_type: reading.critical_type,
        payloads: usize::from(seen.payloads),
        unknown_payloads: usize::from(seen.unknown_payloads),
        unknown_notifies: usize::from(seen.unknown_notifies),
        errors: usize::from(seen.errors),
        first_error: seen.first_error,
        update: seen.update,
        no_additional: seen.no_additional,
        nat_source: nat_value(body, seen.nat_source),
        nat_destination: nat_value(body, seen.nat_destination),
        cookie,
        handed_out: handed_out(body, cookie, |at, length| hand_out(body, at, length)),
        no_nats: place(seen.no_nats, seen.no_nats_len),
        no_nats_pair,
        addresses: usize::from(count),
        address_offsets: offsets.map(usize::from),
        address_families: families,
        address_list: give(body, told),
        given_lists: given_lists(body, told, |list| give(body, list)),
    }
}
