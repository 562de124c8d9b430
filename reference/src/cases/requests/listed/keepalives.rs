// Keepalives: NAT detection kinds without an update, with all that may stand beside them.
use super::super::super::reader::draft::Draft;
use super::responses::nat_detection;
use super::setting::{self, case, cookie, list, packet, request, update};
use super::Case;
use crate::address::AddressPair;
use crate::notifications::no_nats_data;
use crate::notify::NotifyType;
use crate::request::Request;
use crate::tables::Tables;

/// None, each alone, both, and several sources.
const KINDS: [&[usize]; 9] =
    [&[], &[0], &[1], &[0, 1], &[1, 0], &[0, 0], &[0, 0, 1], &[0, 1, 0], &[1, 0, 0]];

const BOTH: [&[usize]; 2] = [&[0, 1], &[1, 0]];

const IDS: [u32; 3] = [0, setting::MARKED_ID, setting::NEW_ID];

pub fn all() -> Vec<Case> {
    let mut cases = beside_all(&KINDS, 6, &IDS);
    cases.extend(beside_all(&BOTH, 4, &[setting::NEW_ID]));
    cases.extend(stale_updates());
    cases.extend(flawed());
    cases
}

/// These kinds in packets of a family, before and behind all that may stand beside them, with each
/// ID and on each of the tables.
fn beside_all(kinds: &[&[usize]], family: u8, ids: &[u32]) -> Vec<Case> {
    let pair = packet(family);
    let tables = tables(pair);
    let mut cases = Vec::new();
    for detection in kinds.iter().map(|kinds| nat_detection(kinds)) {
        for others in beside(&pair) {
            let chains = [[&detection[..], &others].concat(), [&others[..], &detection].concat()];
            for request in chains.iter().map(|chain| request(chain)) {
                for &id in ids {
                    let request = Request { id, pair, ..request.clone() };
                    let on =
                        |tables: &Tables| Case { tables: tables.clone(), request: request.clone() };
                    cases.extend(tables.iter().map(on));
                }
            }
        }
    }
    cases
}

/// All acceptable, none, no marks, and a record that has the packet's pair already.
fn tables(pair: AddressPair) -> Vec<Tables> {
    vec![
        setting::tables(),
        setting::closed_tables(),
        setting::tables_with(|record| (record.update_mark, record.list_mark) = (0, 0)),
        setting::tables_with(|record| record.pair = pair),
    ]
}

/// What else a chain may hold but an update.
fn beside(pair: &AddressPair) -> Vec<Vec<Draft>> {
    let no_nats = |told| Draft::notify(NotifyType::NO_NATS_ALLOWED, &no_nats_data(&told));
    let other_family = AddressPair { family: 10 - pair.family, ..*pair };
    let altered = no_nats(pair.swapped());
    vec![
        vec![],
        vec![cookie(8)],
        vec![cookie(64)],
        list(0),
        list(2),
        list(17),
        [vec![cookie(9)], list(1)].concat(),
        vec![no_nats(*pair)],
        vec![altered.clone()],
        vec![no_nats(other_family)],
        [vec![altered, cookie(8)], list(3)].concat(),
        vec![setting::unknown(), Draft::notify(NotifyType(16384), &[1])],
        vec![Draft::notify(NotifyType::MOBIKE_SUPPORTED, &[])],
        vec![Draft::payload(33, 0, vec![1, 2, 3])],
    ]
}

/// The same kinds, with an update that is stale, acceptable or not, altered or not.
fn stale_updates() -> Vec<Case> {
    let pair = packet(6);
    let tables = [setting::tables(), setting::closed_tables()];
    let mut cases = Vec::new();
    for detection in KINDS.map(nat_detection) {
        for others in beside(&pair) {
            let chain = [&detection[..], &others, &[update()]].concat();
            let request = Request { id: setting::MARKED_ID, pair, ..request(&chain) };
            let on = |tables: &Tables| Case { tables: tables.clone(), request: request.clone() };
            cases.extend(tables.iter().map(on));
        }
    }
    cases
}

/// Both kinds in chains that are malformed or critical, before and behind the flaw.
fn flawed() -> Vec<Case> {
    let flaws = [
        nat_detection(&[1]).swap_remove(0),
        Draft::notify(NotifyType::NAT_DETECTION_SOURCE_IP, &[1; 19]),
        Draft::notify(NotifyType::NAT_DETECTION_DESTINATION_IP, &[1; 21]),
        Draft::payload(41, 0, vec![0; 3]),
        cookie(7),
        setting::unknown_critical(),
    ];
    let mut cases = Vec::new();
    for flaw in flaws {
        for detection in BOTH.map(nat_detection) {
            let before = [&[flaw.clone(), cookie(8)], &detection[..]].concat();
            let behind = [&detection[..], &[flaw.clone(), cookie(8)]].concat();
            cases.extend([before, behind].map(|chain| case(request(&chain))));
        }
    }
    cases
}
