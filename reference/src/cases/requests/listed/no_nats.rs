// NO_NATS_ALLOWED: equal to the packet's pair, to another one, or off by one bit, with each effect.
use super::super::super::reader::draft::Draft;
use super::setting::{self, cookie, list, packet, request, update};
use super::Case;
use crate::address::AddressPair;
use crate::notifications::no_nats_data;
use crate::notify::NotifyType;
use crate::request::Request;
use crate::tables::Tables;

pub fn all() -> Vec<Case> {
    let mut cases = Vec::new();
    for family in [4, 6] {
        let pair = packet(family);
        for data in off_by_a_bit(&pair) {
            cases.push(Case {
                tables: setting::tables(),
                request: telling(pair, &data, &[update()]),
            });
        }
        for told in others(&pair) {
            cases.extend(in_each_effect(pair, &no_nats_data(&told)));
        }
    }
    cases.extend(equal_to_old());
    cases
}

fn telling(pair: AddressPair, data: &[u8], others: &[Draft]) -> Request {
    let no_nats = Draft::notify(NotifyType::NO_NATS_ALLOWED, data);
    Request { pair, ..request(&[&[no_nats], others].concat()) }
}

/// Each octet with its first and with its last bit changed.
fn off_by_a_bit(pair: &AddressPair) -> Vec<Vec<u8>> {
    let data = no_nats_data(pair);
    let changed = |place: usize, bit: u8| {
        let mut data = data.clone();
        data[place] ^= bit;
        data
    };
    (0..data.len()).flat_map(|place| [changed(place, 1), changed(place, 0x80)]).collect()
}

/// The pair itself, turned round in whole and in part, of the other family, and of a record.
fn others(pair: &AddressPair) -> Vec<AddressPair> {
    let turned = pair.swapped();
    let ports = (turned.source_port, turned.destination_port);
    let ports_turned = AddressPair { source_port: ports.0, destination_port: ports.1, ..*pair };
    let AddressPair { source, destination, .. } = turned;
    let addresses_turned = AddressPair { source, destination, ..*pair };
    let other_family = AddressPair { family: 10 - pair.family, ..*pair };
    let records = setting::tables().ike.records[setting::PLACE].pair;
    vec![*pair, turned, ports_turned, addresses_turned, other_family, records]
}

/// With and without an update, new and stale, acceptable and not, a list and a cookie beside it.
fn in_each_effect(pair: AddressPair, data: &[u8]) -> Vec<Case> {
    let with_update = [vec![update(), cookie(8)], list(3)].concat();
    let new = telling(pair, data, &with_update);
    let stale = Request { id: setting::MARKED_ID, ..new.clone() };
    let alone = telling(pair, data, &with_update[1..]);
    let mut cases = Vec::new();
    for tables in [setting::tables(), setting::closed_tables()] {
        for request in [&new, &stale, &alone] {
            cases.push(Case { tables: tables.clone(), request: request.clone() });
        }
    }
    cases
}

/// The record's pair is told, and is the packet's too or isn't.
fn equal_to_old() -> Vec<Case> {
    let with_pair =
        |pair: AddressPair| -> Tables { setting::tables_with(|record| record.pair = pair) };
    let mut cases = Vec::new();
    for (old, new) in [(4, 4), (4, 6), (6, 4), (6, 6)] {
        let old = AddressPair { source_port: 77, ..packet(old) };
        let tables = with_pair(old);
        for (told, pair) in [(old, packet(new)), (packet(new), packet(new)), (old, old)] {
            let request = telling(pair, &no_nats_data(&told), &[update(), cookie(8)]);
            cases.push(Case { tables: tables.clone(), request });
        }
    }
    cases
}
