// What the listed requests start from: tables in which no field is 0, and requests that pass.
use super::super::super::reader::draft::{ChainDraft, Draft};
use super::super::super::tables::listed::contents;
use super::super::super::tables::spis;
use super::super::{starts, Case};
use crate::address::AddressPair;
use crate::notify::NotifyType;
use crate::operator::OPERATORS;
use crate::policy::Policy;
use crate::request::Request;
use crate::tables::{IkeRecord, Tables, IKE_PLACES};

/// The place of the record that is meant, which is A's; place 0 has an SPI with the same low 32 bits.
pub const PLACE: usize = 1;

/// The marks of that record tell this message ID.
pub const MARKED_ID: u32 = 5;
pub const NEW_ID: u32 = 6;

/// The ID of our request, other than the one that the record has kept.
pub const CHECK_ID: u32 = 0x0102_0304;

/// A cookie to keep, of so many octets.
pub fn lent_cookie(length: usize) -> Vec<u8> {
    (0..length).map(|place| 0xa0 ^ place as u8).collect()
}

pub fn spi() -> u64 {
    spis::ike(PLACE)
}

thread_local! {
    /// Made once, since the cases share what they don't change.
    static TABLES: Tables = made_tables();
}

/// All places in use, and all pairs acceptable.
pub fn tables() -> Tables {
    TABLES.with(Tables::clone)
}

fn made_tables() -> Tables {
    let mut tables = contents::full();
    tables.policies.iter_mut().for_each(starts::open);
    let record = &mut tables.ike_mut()[PLACE];
    record.unknown = 9;
    (record.update_mark, record.list_mark) = (u64::from(MARKED_ID) + 1, u64::from(MARKED_ID) + 1);
    tables
}

/// The same, but that nothing is acceptable.
pub fn closed_tables() -> Tables {
    Tables { policies: [Policy::EMPTY; OPERATORS], ..tables() }
}

/// The same, with this done to the record that is meant.
pub fn tables_with(change: impl Fn(&mut IkeRecord)) -> Tables {
    let mut tables = tables();
    change(&mut tables.ike_mut()[PLACE]);
    tables
}

/// A packet's pair that no record has.
pub fn packet(family: u8) -> AddressPair {
    let mut pair = AddressPair { family, ..contents::pair(60) };
    if family == 4 {
        pair.source[4..].fill(0);
        pair.destination[4..].fill(0);
    }
    pair
}

/// A request with a new ID and a chain of these payloads.
pub fn request(payloads: &[Draft]) -> Request {
    let chain = ChainDraft::of(payloads.to_vec()).assemble();
    Request {
        spi: spi(),
        id: NEW_ID,
        pair: packet(6),
        nat_source: (0x20..0x34).collect(),
        nat_destination: (0x60..0x74).collect(),
        cookie: lent_cookie(11),
        check_id: CHECK_ID,
        operator: contents::operator(PLACE),
        first: chain.first,
        body: chain.body,
        output: (0..=255).chain(0..44).collect(),
    }
}

/// One of which every part has an effect.
pub fn moving() -> Request {
    request(&[vec![update(), unknown(), cookie(8)], list(2)].concat())
}

/// For nothing, of which every part has an effect, without an update, stale, for 8, 6, 7, 4 and 2.
pub fn each_effect() -> Vec<Request> {
    let altered = Draft::notify(NotifyType::NO_NATS_ALLOWED, &[1; 36]);
    vec![
        request(&[]),
        moving(),
        request(&[vec![unknown(), cookie(8)], list(2)].concat()),
        Request { id: MARKED_ID, ..moving() },
        request(&[update(), altered, unknown(), cookie(8)]),
        request(&[update(), cookie(8), update()]),
        request(&[update(), cookie(8), unknown_critical()]),
        Request { spi: spis::ike(IKE_PLACES), ..moving() },
        Request { output: vec![0xa5; 127], ..moving() },
    ]
}

/// This request on the tables above.
pub fn case(request: Request) -> Case {
    Case { tables: tables(), request }
}

pub fn update() -> Draft {
    Draft::notify(NotifyType::UPDATE_SA_ADDRESSES, &[])
}

pub fn cookie(size: usize) -> Draft {
    let data: Vec<u8> = (1..=size as u8).collect();
    Draft::notify(NotifyType::COOKIE2, &data)
}

/// An unknown payload, not critical.
pub fn unknown() -> Draft {
    Draft::payload(200, 0, vec![])
}

pub fn unknown_critical() -> Draft {
    Draft::payload(200, 0x80, vec![])
}

/// As many ADDITIONAL addresses, of families that take turns; for 0, NO_ADDITIONAL_ADDRESSES.
pub fn list(size: usize) -> Vec<Draft> {
    let address = |place: usize| {
        let octets: Vec<u8> = (0..16).map(|octet| (place + octet) as u8 | 1).collect();
        match place % 2 {
            0 => Draft::notify(NotifyType::ADDITIONAL_IP4_ADDRESS, &octets[..4]),
            _ => Draft::notify(NotifyType::ADDITIONAL_IP6_ADDRESS, &octets),
        }
    };
    match size {
        0 => vec![Draft::notify(NotifyType::NO_ADDITIONAL_ADDRESSES, &[])],
        _ => (0..size).map(address).collect(),
    }
}
