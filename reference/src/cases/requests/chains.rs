// Random chains of requests: those that ask for something, changed or flawed ones, and any other.
use super::super::reader::draft::{ChainDraft, Draft};
use super::super::reader::{self, atoms, damage::Damage, mutation};
use crate::address::AddressPair;
use crate::notifications::no_nats_data;
use crate::notify::NotifyType;
use crate::rng::Rng;

/// How many addresses a list has; 0 stands for NO_ADDITIONAL_ADDRESSES.
const LIST_SIZES: [usize; 10] = [0, 0, 1, 1, 2, 15, 16, 17, 20, 24];

/// A chain of a packet with this pair, to a record with the old one.
pub fn chain(rng: &mut Rng, pair: &AddressPair, old: &AddressPair) -> reader::Case {
    match rng.below(16) {
        0 => reader::random(rng),
        1 => {
            let mut chain = asking(rng, pair, old);
            Damage::any(rng).apply(rng, &mut chain);
            chain.assemble()
        }
        2 => {
            let mut chain = asking(rng, pair, old).assemble();
            mutation::mutate(rng, &mut chain);
            chain
        }
        3 => long(rng),
        _ => asking(rng, pair, old).assemble(),
    }
}

/// A chain without a flaw: an update or none, a list or none, a cookie or none, and more.
pub fn asking(rng: &mut Rng, pair: &AddressPair, old: &AddressPair) -> ChainDraft {
    let mut payloads = Vec::new();
    if !rng.one_in(4) {
        payloads.push(Draft::notify(NotifyType::UPDATE_SA_ADDRESSES, &[]));
    }
    if rng.one_in(3) {
        payloads.push(Draft::notify(NotifyType::NO_NATS_ALLOWED, &no_nats(rng, pair, old)));
    }
    payloads.extend(nat_detection(rng));
    if rng.one_in(2) {
        payloads.push(atoms::known_notify(rng, NotifyType::COOKIE2));
    }
    if rng.one_in(2) {
        let size = rng.pick(&LIST_SIZES);
        payloads.extend(list(rng, size));
    }
    for _ in 0..rng.pick(&[0, 0, 1, 2, 3]) {
        payloads.push(match rng.below(4) {
            0 => atoms::skipped(rng),
            1 => atoms::known_notify(rng, NotifyType::MOBIKE_SUPPORTED),
            2 => atoms::unknown_notify(rng),
            _ => atoms::unknown_payload(rng),
        });
    }
    rng.shuffle(&mut payloads);
    ChainDraft::of(payloads)
}

/// As many addresses or unknown payloads as a body holds, nearly so many or one more, and an update or none.
fn long(rng: &mut Rng) -> reader::Case {
    let mut payloads = if rng.one_in(2) {
        let count = rng.between(339, 342);
        vec![Draft::notify(NotifyType::ADDITIONAL_IP4_ADDRESS, &rng.octets(4)); count]
    } else {
        let count = rng.between(1010, 1025);
        vec![Draft::payload(200, 0, vec![]); count]
    };
    if rng.one_in(2) {
        payloads.push(Draft::notify(NotifyType::UPDATE_SA_ADDRESSES, &[]));
    }
    ChainDraft::of(payloads).assemble()
}

fn nat_detection(rng: &mut Rng) -> Vec<Draft> {
    let both = [NotifyType::NAT_DETECTION_SOURCE_IP, NotifyType::NAT_DETECTION_DESTINATION_IP];
    let two_sources = [both[0], both[0], both[1]];
    let kinds: &[NotifyType] = match rng.below(8) {
        0 => &both[..1],
        1 => &both[1..],
        2 => &two_sources,
        3 | 4 => &[],
        _ => &both,
    };
    kinds.iter().map(|&kind| atoms::known_notify(rng, kind)).collect()
}

fn list(rng: &mut Rng, size: usize) -> Vec<Draft> {
    match size {
        0 => vec![atoms::known_notify(rng, NotifyType::NO_ADDITIONAL_ADDRESSES)],
        _ => (0..size).map(|_| atoms::address(rng)).collect(),
    }
}

/// The data of NO_NATS_ALLOWED: the packet's, nearly so, the record's, or of the other family.
fn no_nats(rng: &mut Rng, pair: &AddressPair, old: &AddressPair) -> Vec<u8> {
    let mut told = no_nats_data(pair);
    match rng.below(10) {
        0 => {
            let place = rng.below(told.len());
            told[place] ^= 1 << rng.below(8);
        }
        1 => {
            let place = rng.between(told.len() - 4, told.len() - 1);
            told[place] ^= 1 << rng.below(8);
        }
        2 => told = no_nats_data(old),
        3 => told = no_nats_data(&AddressPair { family: 10 - pair.family.clamp(4, 6), ..*pair }),
        4 => told = no_nats_data(&pair.swapped()),
        _ => {}
    }
    told
}
