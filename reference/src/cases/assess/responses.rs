// Random responses: those that answer a cookie or tell errors, changed or flawed ones, any other.
use super::super::reader::draft::{ChainDraft, Draft};
use super::super::reader::{self, atoms, damage::Damage, mutation, well_formed};
use super::Case;
use crate::notify::NotifyType;
use crate::reader::read;
use crate::rng::Rng;
use crate::rules::Plain;

const ERRORS: [u16; 9] = [40, 41, 40, 41, 7, 1, 14, 0, 16383];
const STATUSES: [u16; 5] = [16384, 16385, 16403, 40960, 65535];

pub fn random(rng: &mut Rng) -> Case {
    let sent = cookie_sent(rng);
    to(rng, sent)
}

/// To a request with this cookie, or another one that is in the response.
pub fn to(rng: &mut Rng, sent: Vec<u8>) -> Case {
    match rng.below(16) {
        0 => any_chain(rng, sent),
        1 => {
            let mut chain = answering(rng, &sent);
            Damage::any(rng).apply(rng, &mut chain);
            Case::of(sent, chain.assemble())
        }
        2 => {
            let mut response = answering(rng, &sent).assemble();
            mutation::mutate(rng, &mut response);
            Case::of(sent, response)
        }
        3 => Case::of(sent.clone(), long(rng, &sent)),
        _ => {
            let chain = answering(rng, &sent);
            Case::of(sent, chain.assemble())
        }
    }
}

fn cookie_sent(rng: &mut Rng) -> Vec<u8> {
    let allowed = rng.between(8, 64);
    let any = rng.between(0, 70);
    let lengths = [(16, 0), (1, 7), (12, 8), (6, 64), (1, 65), (12, allowed), (2, any), (1, 300)];
    let length = rng.pick_weighted(&lengths);
    rng.octets(length)
}

/// One of the reader's chains; often the cookie in it is the one that was sent.
fn any_chain(rng: &mut Rng, sent: Vec<u8>) -> Case {
    let response = reader::random(rng);
    let summary = read(response.first, &response.body, &Plain).summary;
    let there = summary.cookie.map(|cookie| cookie.octets.to_vec());
    let sent = there.filter(|_| rng.one_in(2)).unwrap_or(sent);
    Case::of(sent, response)
}

/// A chain without a flaw: errors or none, a cookie or none, and more around them.
pub fn answering(rng: &mut Rng, sent: &[u8]) -> ChainDraft {
    let mut payloads = Vec::new();
    payloads.extend(cookie(rng, sent));
    for _ in 0..rng.pick(&[0, 0, 0, 1, 1, 2, 3]) {
        let error = NotifyType(rng.pick(&ERRORS));
        let size = rng.pick(&[0, 0, 1, 4]);
        payloads.push(Draft::notify(error, &rng.octets(size)));
    }
    if rng.one_in(3) {
        let known = rng.pick(&NotifyType::KNOWN);
        let known = if known == NotifyType::COOKIE2 { NotifyType::MOBIKE_SUPPORTED } else { known };
        payloads.push(atoms::known_notify(rng, known));
    }
    for _ in 0..rng.pick(&[0, 0, 0, 1, 2, 3]) {
        payloads.push(match rng.below(4) {
            0 => atoms::skipped(rng),
            1 => atoms::unknown_notify(rng),
            2 => Draft::notify(NotifyType(rng.pick(&STATUSES)), &[]),
            _ => atoms::unknown_payload(rng),
        });
    }
    rng.shuffle(&mut payloads);
    ChainDraft::of(payloads)
}

/// The cookie sent, one that differs in an octet or in length, any other, or none.
fn cookie(rng: &mut Rng, sent: &[u8]) -> Option<Draft> {
    if sent.is_empty() {
        return rng.one_in(3).then(|| atoms::known_notify(rng, NotifyType::COOKIE2));
    }
    let mut there = sent.to_vec();
    match rng.below(16) {
        0..=6 => {}
        7 => *there.last_mut()? ^= 1 << rng.below(8),
        8 => there[0] ^= 1 << rng.below(8),
        9 => there[rng.below(sent.len())] ^= 1 << rng.below(8),
        10 if there.len() > 8 => there.truncate(rng.between(8, sent.len() - 1)),
        10 | 11 if there.len() < 64 => there.push(rng.octet()),
        12 => return Some(atoms::known_notify(rng, NotifyType::COOKIE2)),
        _ => return None,
    }
    Some(Draft::notify(NotifyType::COOKIE2, &there))
}

/// An answer after one of the reader's chains without a flaw, or a body about the longest.
fn long(rng: &mut Rng, sent: &[u8]) -> reader::Case {
    if rng.one_in(2) {
        return well_formed::full_body(rng);
    }
    let mut chain = well_formed::chain(rng);
    chain.remove(NotifyType::COOKIE2);
    let mut payloads = Vec::new();
    payloads.extend(cookie(rng, sent));
    payloads.push(Draft::notify(NotifyType(rng.pick(&ERRORS)), &[]));
    for payload in payloads {
        let place = rng.between(0, chain.payloads.len());
        chain.payloads.insert(place, payload);
    }
    chain.assemble()
}
