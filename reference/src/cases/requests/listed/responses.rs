// Responses: NAT detection kinds in every combination, cookies of every size, all effects.
use super::super::super::reader::draft::Draft;
use super::setting::{self, cookie, list, request, update};
use super::Case;
use crate::notify::NotifyType;
use crate::request::Request;

pub fn all() -> Vec<Case> {
    [nat_kinds(), cookies(), flawed_with_cookie()].concat()
}

/// NAT detection payloads in this order: 0 for a source, 1 for a destination.
pub fn nat_detection(kinds: &[usize]) -> Vec<Draft> {
    let types = [NotifyType::NAT_DETECTION_SOURCE_IP, NotifyType::NAT_DETECTION_DESTINATION_IP];
    let draft =
        |(place, &kind): (usize, &usize)| Draft::notify(types[kind], &[0xc0 + place as u8; 20]);
    kinds.iter().enumerate().map(draft).collect()
}

/// Without an update, and with one that is applied, stale, altered or not acceptable.
fn effects(payloads: &[Draft]) -> Vec<Case> {
    let altered = Draft::notify(NotifyType::NO_NATS_ALLOWED, &[1; 36]);
    let new = request(&[&[update()], payloads].concat());
    let stale = Request { id: setting::MARKED_ID, ..new.clone() };
    let requests = [request(payloads), stale, request(&[payloads, &[update(), altered]].concat())];
    let mut cases: Vec<Case> = requests.into_iter().map(setting::case).collect();
    let tables = [setting::tables(), setting::closed_tables()];
    cases.extend(tables.map(|tables| Case { tables, request: new.clone() }));
    cases
}

fn nat_kinds() -> Vec<Case> {
    let orders: [&[usize]; 9] =
        [&[], &[0], &[1], &[0, 1], &[1, 0], &[0, 0], &[0, 0, 1], &[0, 1, 0], &[1, 0, 0]];
    let mut cases = Vec::new();
    for kinds in orders {
        let detection = nat_detection(kinds);
        cases.extend(effects(&detection));
        cases.extend(effects(&[&detection[..], &[cookie(8)]].concat()));
        cases.extend(effects(&[&[cookie(64)], &detection[..], &list(2)].concat()));
    }
    cases
}

/// Every size, with every bit of the flags and the protocol ID set or none.
fn cookies() -> Vec<Case> {
    let mut cases = Vec::new();
    for size in 7..=65 {
        for ignored in [0, 0xff] {
            let mut cookie = cookie(size);
            (cookie.flags, cookie.content[0]) = (ignored, ignored);
            cases.extend(effects(&[cookie.clone()]));
            cases.extend(effects(&[&[cookie], &nat_detection(&[0, 1])[..]].concat()));
        }
    }
    cases
}

/// Chains with a sound cookie that are malformed, or critical, before or behind it.
fn flawed_with_cookie() -> Vec<Case> {
    let flaws = [
        Draft::payload(41, 0, vec![0; 3]),
        Draft::notify(NotifyType::UPDATE_SA_ADDRESSES, &[0]),
        setting::unknown_critical(),
        Draft::payload(1, 0xff, vec![1, 2, 3]),
        Draft::payload(255, 0x80, vec![]),
    ];
    let chains = flaws.into_iter().flat_map(|flaw| {
        [vec![cookie(8), flaw.clone(), update()], vec![update(), flaw, cookie(64)]]
    });
    chains.map(|chain| setting::case(request(&chain))).collect()
}
