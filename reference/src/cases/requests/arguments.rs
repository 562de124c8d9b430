// Random requests, drawn to suit the tables and the record that their SPI means.
use super::super::operators;
use super::super::tables::{pairs, pending, rules, scripts};
use super::chains;
use crate::address::{octet_count, AddressPair};
use crate::request::{Request, LEAST_OUTPUT, NAT_VALUE_LENGTH};
use crate::rng::Rng;
use crate::rules::Plain;
use crate::tables::{find, IkeRecord, Record, Tables};

/// Mostly that of a record; else one that is hardly in use, or 0.
pub fn spi(rng: &mut Rng, tables: &Tables) -> u64 {
    scripts::ike_spi(rng, tables, 24)
}

pub fn request(rng: &mut Rng, tables: &Tables, spi: u64) -> Request {
    let place = find(&tables.ike.records, spi, &Plain);
    let record = place.map_or(IkeRecord::FREE, |place| tables.ike.records[place]);
    let pair = packet_pair(rng, tables, &record);
    let chain = chains::chain(rng, &pair, &record.pair);
    Request {
        spi,
        id: id(rng, &record),
        pair,
        nat_source: lent_value(rng),
        nat_destination: lent_value(rng),
        cookie: lent_cookie(rng),
        check_id: pending::id(rng),
        operator: operators::drawn(rng, operators::of_ike(tables, spi)),
        first: chain.first,
        body: chain.body,
        output: output(rng),
    }
}

/// As `request`, but that it passes checks 1 and 2, names the record's operator, and its chain has no flaw.
pub fn plain_request(rng: &mut Rng, tables: &Tables, spi: u64) -> Request {
    let mut request = request(rng, tables, spi);
    request.pair = sound(request.pair);
    request.nat_source = rng.octets(NAT_VALUE_LENGTH);
    request.nat_destination = rng.octets(NAT_VALUE_LENGTH);
    request.cookie = pending::cookie(rng);
    request.operator = operators::of_ike(tables, spi).unwrap_or_else(|| operators::one(rng));
    request.output = rng.octets(LEAST_OUTPUT);
    let chain = chains::asking(rng, &request.pair, &request.pair).assemble();
    (request.first, request.body) = (chain.first, chain.body);
    request
}

/// About the marks of the record, about the least and the greatest, or small.
fn id(rng: &mut Rng, record: &IkeRecord) -> u32 {
    let mark = rng.pick(&[record.update_mark, record.list_mark]);
    let before = mark.saturating_sub(2);
    let small = rng.below(12) as u64;
    let about = before.saturating_add(rng.below(4) as u64);
    let id = rng.pick_weighted(&[(6, about), (3, small), (1, 0), (1, u64::from(u32::MAX))]);
    id.min(u64::from(u32::MAX)) as u32
}

fn packet_pair(rng: &mut Rng, tables: &Tables, record: &IkeRecord) -> AddressPair {
    match rng.below(10) {
        0..=3 => {
            let policy = &tables.policies[usize::from(record.agreed.operator.min(1))];
            sound(rules::pair_near(rng, policy))
        }
        4..=7 => pairs::pair(rng),
        8 => sound(record.pair),
        _ => pairs::any_pair(rng),
    }
}

/// The pair with an allowed family, and zero past its octets.
fn sound(mut pair: AddressPair) -> AddressPair {
    if octet_count(pair.family).is_none() {
        pair.family = 6;
    }
    let count = octet_count(pair.family).unwrap_or(16);
    pair.source[count..].fill(0);
    pair.destination[count..].fill(0);
    pair
}

fn lent_value(rng: &mut Rng) -> Vec<u8> {
    let length = rng.pick_weighted(&[(60, NAT_VALUE_LENGTH), (1, 0), (1, 19), (1, 21)]);
    rng.octets(length)
}

/// Mostly of an allowed length.
fn lent_cookie(rng: &mut Rng) -> Vec<u8> {
    let length =
        rng.pick_weighted(&[(60, None), (1, Some(0)), (1, Some(7)), (1, Some(65)), (1, Some(264))]);
    match length {
        None => pending::cookie(rng),
        Some(length) => rng.octets(length),
    }
}

fn output(rng: &mut Rng) -> Vec<u8> {
    let length =
        rng.pick_weighted(&[(16, LEAST_OUTPUT), (8, 129), (8, 300), (1, LEAST_OUTPUT - 1), (1, 0)]);
    rng.octets(length)
}
