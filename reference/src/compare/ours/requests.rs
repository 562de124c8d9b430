// The library's request handler: its C interface, and its replies as they are compared.
use super::cookie::hand_out;
use reference::address::AddressPair;
use reference::lent::{LentTables, NO_SPI_GIVEN};
use reference::operator::OPERATORS;
use reference::outcome::Place;
use reference::policy::Policy;
use reference::reply::{Handled, Reply};
use reference::request::Request;
use reference::tables::{IkeRecord, IpsecRecord, Tables};
use std::mem::{offset_of, size_of};

#[repr(C)]
struct CReply {
    number: u8,
    update: u8,
    list: u8,
    first: u8,
    left_off: u16,
    payloads: u16,
    offset: u16,
    ordinal: u16,
    cookie: u16,
    cookie_len: u16,
    length: u16,
}

const _: () = assert!(size_of::<CReply>() == 18 && offset_of!(CReply, left_off) == 4);
const _: () = assert!(offset_of!(CReply, ordinal) == 10 && offset_of!(CReply, cookie) == 12);

#[link(name = "unmavreth", kind = "static")]
extern "C" {
    fn unmavreth_handle(
        ike: *mut IkeRecord,
        ipsec: *const IpsecRecord,
        ipsec_len: usize,
        policies: *const [Policy; OPERATORS],
        spi: u64,
        id: u32,
        pair: AddressPair,
        nat_source: *const u8,
        nat_source_len: usize,
        nat_destination: *const u8,
        nat_destination_len: usize,
        cookie: *const u8,
        cookie_len: usize,
        check_id: u32,
        first: u8,
        body: *const u8,
        body_len: usize,
        out: *mut u8,
        out_len: usize,
        operator: u8,
    ) -> CReply;
}

/// Handles the request by the library, which changes the tables; also whether what is around the
/// lent ones and the policies is kept.
pub fn handle<'a>(request: &'a Request, tables: &mut Tables) -> (Handled<'a>, bool) {
    let Request {
        spi,
        id,
        pair,
        nat_source,
        nat_destination,
        cookie,
        check_id,
        operator,
        first,
        body,
        output,
    } = request;
    let mut output = output.clone();
    let mut lent = LentTables::new(tables, (*spi, NO_SPI_GIVEN), *operator);
    let ipsec_length = lent.ipsec().len();
    // SAFETY: each start and length are those of a slice that outlives the call, that of the IKE
    // records has its 32, that of the policies two, and no two of these overlap; the rest goes by
    // value, and any is allowed.
    let told = unsafe {
        unmavreth_handle(
            lent.ike().as_mut_ptr(),
            lent.ipsec().as_ptr(),
            ipsec_length,
            lent.policies(),
            *spi,
            *id,
            *pair,
            nat_source.as_ptr(),
            nat_source.len(),
            nat_destination.as_ptr(),
            nat_destination.len(),
            cookie.as_ptr(),
            cookie.len(),
            *check_id,
            *first,
            body.as_ptr(),
            body.len(),
            output.as_mut_ptr(),
            output.len(),
            *operator,
        )
    };
    (Handled { reply: reply(told, body), output }, lent.give_back(tables))
}

fn reply(reply: CReply, body: &[u8]) -> Reply<'_> {
    Reply {
        number: reply.number,
        update: reply.update,
        list: reply.list,
        left_off: usize::from(reply.left_off),
        payloads: usize::from(reply.payloads),
        offset: usize::from(reply.offset),
        ordinal: usize::from(reply.ordinal),
        cookie: Place::in_body(body, usize::from(reply.cookie), usize::from(reply.cookie_len)),
        handed_out: hand_out(body, reply.cookie, reply.cookie_len),
        first: reply.first,
        length: usize::from(reply.length),
    }
}
