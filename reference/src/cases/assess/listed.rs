// The cases every run begins with: sizes and octets of cookies, orders of errors, tallies, chains.
use super::super::reader::draft::{sequences, ChainDraft, Draft};
use super::super::reader::{self, atoms};
use super::Case;
use crate::notify::NotifyType;
use crate::reader::MAX_BODY;
use std::slice::from_ref;

/// Notify types that come in every order of up to three: errors, and two that aren't.
const ORDERED: [u16; 8] = [40, 41, 7, 1, 0, 16383, 16384, 16403];

pub fn all() -> Vec<Case> {
    [
        sent_sizes(),
        cookie_octets(),
        cookie_sizes(),
        errors_in_order(),
        notify_types(),
        tallies(),
        known_types(),
        body_sizes(),
        listed_chains(),
    ]
    .concat()
}

/// Octets of a cookie: 1, 2, 3 and so on, as in the reader's listed chains.
fn octets(size: usize) -> Vec<u8> {
    (1..=255).cycle().take(size).collect()
}

fn cookie(octets: &[u8]) -> Draft {
    Draft::notify(NotifyType::COOKIE2, octets)
}

fn notify(notify_type: u16) -> Draft {
    Draft::notify(NotifyType(notify_type), &[])
}

fn unknown() -> Draft {
    Draft::payload(200, 0, vec![])
}

fn case(sent: &[u8], payloads: &[Draft]) -> Case {
    Case::of(sent.to_vec(), ChainDraft::of(payloads.to_vec()).assemble())
}

/// Every size about those allowed, with nothing, the cookie, an error, 3, 6 and 7.
fn sent_sizes() -> Vec<Case> {
    let mut cases = Vec::new();
    for size in (0..=72).chain([127, 128, 255, 256, 264, 320, 4096, 4097, 65536, 65544]) {
        let sent = octets(size);
        let cut = Draft::payload(41, 0, vec![]);
        let critical = Draft::payload(200, 0x80, vec![]);
        cases.push(case(&sent, &[]));
        cases.push(case(&sent, &[cookie(&sent[..size.min(300)])]));
        cases.push(case(&sent, &[notify(40)]));
        cases.push(case(&sent, &[unknown(), cut]));
        cases.push(case(&sent, &[unknown(), critical]));
        cases.push(Case { sent, first: 41, body: vec![0; MAX_BODY + 1] });
    }
    cases
}

/// Cookies of several sizes, each octet changed, alone and beside an error.
fn cookie_octets() -> Vec<Case> {
    let mut cases = Vec::new();
    for size in [8, 9, 16, 63, 64] {
        let sent = octets(size);
        for (place, bit) in (0..size).flat_map(|place| [(place, 1), (place, 0x80)]) {
            let mut other = sent.clone();
            other[place] ^= bit;
            cases.push(case(&sent, &[cookie(&other)]));
            cases.push(case(&sent, &[notify(41), cookie(&other)]));
            cases.push(case(&sent, &[cookie(&other), notify(7)]));
        }
    }
    cases
}

/// Every size of a cookie sent with every size of the one there, the shorter a part of the longer.
fn cookie_sizes() -> Vec<Case> {
    let sizes = (8..=64).flat_map(|sent| (8..=64).map(move |there| (sent, there)));
    sizes.map(|(sent, there)| case(&octets(sent), &[cookie(&octets(there))])).collect()
}

/// No cookie, the one sent or another, before and after up to three notifications, or none sent.
fn errors_in_order() -> Vec<Case> {
    let (sent, other) = (octets(8), octets(9));
    let mut cases = Vec::new();
    for order in sequences(&ORDERED.map(notify), 3) {
        for sent in [&[], &sent[..]] {
            cases.push(case(sent, &order));
            for there in [cookie(&octets(8)), cookie(&other)] {
                cases.push(case(sent, &[from_ref(&there), &order[..]].concat()));
                cases.push(case(sent, &[&order[..], &[there]].concat()));
            }
        }
    }
    cases
}

/// Every small notify type and those about the first that tells no error.
fn notify_types() -> Vec<Case> {
    let types = (0..=300).chain(16380..=16410).chain([8192, 16425, 16424, 32809, 40960, 65535]);
    let sent = octets(8);
    types
        .filter(|&number| !NotifyType(number).is_known())
        .flat_map(|number| {
            let with_spi = Draft::notify_with_spi(NotifyType(number), 4, &[0; 9]);
            [
                case(&[], &[notify(number)]),
                case(&sent, &[notify(number)]),
                case(&sent, &[with_spi, cookie(&octets(8))]),
            ]
        })
        .collect()
}

/// Unknown payloads and notifications, few and many, with each outcome, 6 and 7.
fn tallies() -> Vec<Case> {
    let unknowns = [
        vec![],
        vec![unknown()],
        vec![notify(16384)],
        vec![notify(7), unknown(), notify(7), notify(65535)],
        vec![notify(14); 256],
        vec![notify(16403); 257],
        vec![unknown(); 1000],
    ];
    let (same, other) = (cookie(&octets(8)), cookie(&octets(64)));
    let endings = [
        vec![],
        vec![same.clone()],
        vec![other.clone()],
        vec![notify(41)],
        vec![notify(40), same.clone()],
        vec![other.clone(), notify(40)],
        vec![Draft::payload(41, 0, vec![])],
        vec![Draft::payload(200, 0x80, vec![])],
        vec![same, other],
    ];
    let mut cases = Vec::new();
    for (unknowns, ending) in
        unknowns.iter().flat_map(|unknowns| endings.iter().map(move |ending| (unknowns, ending)))
    {
        for sent in [&[], &octets(8)[..], &octets(64)[..], &octets(65)[..]] {
            cases.push(case(sent, &[&unknowns[..], &ending[..]].concat()));
            cases.push(case(sent, &[&ending[..], &unknowns[..]].concat()));
        }
    }
    cases
}

/// Each known notify type with each size it allows, alone and with an error.
fn known_types() -> Vec<Case> {
    let mut cases = Vec::new();
    for known in NotifyType::KNOWN {
        for &size in atoms::allowed_sizes(known) {
            let payload = Draft::notify(known, &octets(size));
            for sent in [&[], &octets(8)[..]] {
                cases.push(case(sent, from_ref(&payload)));
                cases.push(case(sent, &[payload.clone(), notify(40)]));
                cases.push(case(sent, &[cookie(&octets(8)), payload.clone()]));
            }
        }
    }
    cases
}

/// An answer that a skipped or unknown payload fills up to about the longest body.
fn body_sizes() -> Vec<Case> {
    let mut cases = Vec::new();
    let same = cookie(&octets(8));
    for answer in [vec![], vec![same.clone()], vec![notify(41)], vec![notify(40), same]] {
        let taken: usize = answer.iter().map(Draft::size).sum();
        for size in MAX_BODY - 1..=MAX_BODY + 1 {
            for payload_type in [33, 200] {
                let filler = Draft::payload(payload_type, 0, vec![0; size - taken - 4]);
                for sent in [&[], &octets(8)[..]] {
                    cases.push(case(sent, &[&answer[..], from_ref(&filler)].concat()));
                    cases.push(case(sent, &[from_ref(&filler), &answer[..]].concat()));
                }
            }
        }
    }
    cases
}

/// The reader's listed chains, without a cookie sent and with the one that most of them hold.
fn listed_chains() -> Vec<Case> {
    let chains = reader::listed::all().into_iter();
    chains.flat_map(|chain| [vec![], octets(8)].map(|sent| Case::of(sent, chain.clone()))).collect()
}
