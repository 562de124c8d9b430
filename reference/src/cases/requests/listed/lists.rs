// Address lists of every size that matters: replaced, stale and refused, over lists kept before.
use super::super::super::reader::draft::Draft;
use super::setting::{self, cookie, list, packet, request, update};
use super::Case;
use crate::address::{Address, AddressPair};
use crate::notify::NotifyType;
use crate::request::Request;
use crate::summary::MAX_KEPT;
use crate::tables::Tables;

pub fn all() -> Vec<Case> {
    let mut cases = Vec::new();
    for chain in chains() {
        for tables in tables() {
            for id in [setting::MARKED_ID, setting::NEW_ID] {
                let alone = Request { id, ..request(&chain) };
                let with_update = [&chain[..], &[update()]].concat();
                let with_update = Request { id, ..request(&with_update) };
                for request in [alone, with_update] {
                    cases.push(Case { tables: tables.clone(), request });
                }
            }
        }
    }
    cases
}

fn chains() -> Vec<Vec<Draft>> {
    let ipv4 = |size| vec![Draft::notify(NotifyType::ADDITIONAL_IP4_ADDRESS, &[9, 8, 7, 6]); size];
    let ipv6 = |size| vec![Draft::notify(NotifyType::ADDITIONAL_IP6_ADDRESS, &[5; 16]); size];
    let mut chains: Vec<Vec<Draft>> =
        [0, 1, 2, 14, 15, 16, 17, 18, 20, 32].into_iter().map(list).collect();
    chains.extend([ipv4(341), ipv4(340), ipv4(272), ipv6(170), vec![], vec![cookie(8)]]);
    chains.push([list(16), vec![cookie(64)]].concat());
    // The record's own pair may be in its list.
    let AddressPair { source, .. } = packet(6);
    chains.push(vec![Draft::notify(NotifyType::ADDITIONAL_IP6_ADDRESS, &source)]);
    chains
}

/// The record has a list of each size or none, and marks that one or both of the IDs exceed.
fn tables() -> Vec<Tables> {
    let with = |count: u16, list_mark: u64, update_mark: u64| {
        setting::tables_with(|record| {
            (record.count, record.list_mark, record.update_mark) = (count, list_mark, update_mark);
        })
    };
    let mut empty = with(0, 0, 0);
    empty.ike_mut()[setting::PLACE].addresses = [Address::ZERO; MAX_KEPT];
    let mut closed = with(3, 6, 6);
    closed.policies[0].count = 0;
    vec![empty, with(16, 6, 8), with(65535, 8, 6), with(1, 6, 6), closed]
}
