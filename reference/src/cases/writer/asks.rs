// Random asks: sound ones with anything in what isn't asked for, unsound ones, and any at all.
use super::super::tables::pairs;
use crate::address::AddressOctets;
use crate::asking::{Arguments, Ask, LEAST_OUTPUT};
use crate::request::NAT_VALUE_LENGTH;
use crate::rng::Rng;
use crate::summary::MAX_KEPT;
use std::array;

/// What makes check 1 fail.
#[derive(Debug, Clone, Copy)]
enum Flaw {
    Pair,
    OneNatKind,
    NatValue,
    Count,
    Contradiction,
    Address,
    Cookie,
    /// One of the two of clones beside something else.
    NotAlone,
}

const FLAWS: [Flaw; 8] = [
    Flaw::Pair,
    Flaw::OneNatKind,
    Flaw::NatValue,
    Flaw::Count,
    Flaw::Contradiction,
    Flaw::Address,
    Flaw::Cookie,
    Flaw::NotAlone,
];

const SHORT_OUTPUTS: [usize; 6] = [0, 1, 128, 500, LEAST_OUTPUT - 2, LEAST_OUTPUT - 1];

pub fn random(rng: &mut Rng) -> Arguments {
    let mut arguments = sound(rng);
    let flaws = rng.pick(&[0, 0, 0, 0, 0, 1, 1, 1, 2]);
    for _ in 0..flaws {
        rng.pick(&FLAWS).apply(rng, &mut arguments);
    }
    if rng.one_in(16) {
        arguments = any(rng);
    }
    if rng.one_in(5) {
        let room = rng.pick(&SHORT_OUTPUTS);
        arguments.output.truncate(room);
    }
    arguments
}

/// Arguments that pass both checks.
pub fn sound(rng: &mut Rng) -> Arguments {
    let nat_kinds = rng.one_in(2);
    let (no_additional, count) = list(rng);
    let mut arguments = Arguments {
        ask: Ask {
            update: rng.one_in(2),
            no_nats: rng.one_in(2),
            nat_source: nat_kinds,
            nat_destination: nat_kinds,
            no_additional,
            count,
            ..Ask::default()
        },
        pair: pairs::pair(rng),
        addresses: array::from_fn(|_| pairs::address(rng)),
        nat_source: rng.octets(NAT_VALUE_LENGTH),
        nat_destination: rng.octets(NAT_VALUE_LENGTH),
        cookie: cookie(rng),
        output: vec![],
    };
    if rng.one_in(8) {
        arguments.ask = of_clones(rng);
        arguments.cookie.clear();
    }
    let room = rng.pick_weighted(&[(12, LEAST_OUTPUT), (4, LEAST_OUTPUT + 1), (4, 700), (1, 4096)]);
    arguments.output = rng.octets(room);
    if rng.one_in(2) {
        fill_unasked(rng, &mut arguments);
    }
    arguments
}

/// One of the two of clones alone.
fn of_clones(rng: &mut Rng) -> Ask {
    let clone = rng.one_in(2);
    Ask { clone, clone_supported: !clone, ..Ask::default() }
}

/// NO_ADDITIONAL_ADDRESSES or not, and how many addresses.
fn list(rng: &mut Rng) -> (bool, u16) {
    let some = rng.between(1, MAX_KEPT);
    let counts = [(4, 0), (2, 1), (1, 2), (1, MAX_KEPT - 1), (2, MAX_KEPT), (3, some)];
    let count = rng.pick_weighted(&counts) as u16;
    (count == 0 && rng.one_in(2), count)
}

fn cookie(rng: &mut Rng) -> Vec<u8> {
    let some = rng.between(8, 64);
    let length = rng.pick_weighted(&[(4, 0), (1, 8), (1, 64), (3, some)]);
    rng.octets(length)
}

/// Puts anything where nothing is to be looked at.
fn fill_unasked(rng: &mut Rng, arguments: &mut Arguments) {
    if !arguments.ask.no_nats {
        arguments.pair = pairs::any_pair(rng);
        arguments.pair.family = pairs::any_family(rng);
    }
    if !arguments.ask.nat_source {
        arguments.nat_source = any_value(rng);
        arguments.nat_destination = any_value(rng);
    }
    for unasked in &mut arguments.addresses[usize::from(arguments.ask.count)..] {
        *unasked = pairs::any_address(rng);
    }
}

fn any_value(rng: &mut Rng) -> Vec<u8> {
    let length = rng.pick(&[0, 1, 19, 19, 20, 21, 40, 276]);
    rng.octets(length)
}

/// Asks for these, by the bits of the set, and for so many addresses.
pub fn of_set(set: u8, count: u16) -> Ask {
    let asks = |bit: u8| set >> bit & 1 == 1;
    Ask {
        update: asks(0),
        no_nats: asks(1),
        nat_source: asks(2),
        nat_destination: asks(3),
        no_additional: asks(4),
        count,
        clone_supported: asks(5),
        clone: asks(6),
    }
}

/// Arguments that have nothing to do with one another.
fn any(rng: &mut Rng) -> Arguments {
    let count = rng.pick(&[0, 1, 2, 16, 17, 255, 256, 257, 272, 65535]);
    Arguments {
        ask: of_set(rng.octet(), count),
        pair: pairs::any_pair(rng),
        addresses: array::from_fn(|_| pairs::any_address(rng)),
        nat_source: any_value(rng),
        nat_destination: any_value(rng),
        cookie: any_cookie(rng),
        output: rng.octets(600),
    }
}

fn any_cookie(rng: &mut Rng) -> Vec<u8> {
    let length = rng.between(0, 72);
    rng.octets(length)
}

impl Flaw {
    /// Asks for what is flawed, and for what else the flaw needs.
    fn apply(self, rng: &mut Rng, arguments: &mut Arguments) {
        match self {
            Flaw::Pair => spoil_pair(rng, arguments),
            Flaw::OneNatKind => {
                let source = rng.one_in(2);
                (arguments.ask.nat_source, arguments.ask.nat_destination) = (source, !source);
            }
            Flaw::NatValue => {
                (arguments.ask.nat_source, arguments.ask.nat_destination) = (true, true);
                let first = rng.one_in(2);
                let value =
                    if first { &mut arguments.nat_source } else { &mut arguments.nat_destination };
                value.resize(rng.pick(&[0, 19, 19, 21, 40, 276]), 0);
            }
            Flaw::Count => {
                let count = rng.pick(&[17, 17, 18, 32, 255, 256, 257, 272, 65535]);
                (arguments.ask.no_additional, arguments.ask.count) = (false, count);
            }
            Flaw::Contradiction => {
                arguments.ask.no_additional = true;
                arguments.ask.count = rng.between(1, MAX_KEPT) as u16;
            }
            Flaw::Address => spoil_address(rng, arguments),
            Flaw::Cookie => {
                let length = rng.pick(&[1, 6, 7, 7, 65, 65, 66, 128, 256, 264]);
                arguments.cookie = rng.octets(length);
            }
            Flaw::NotAlone => beside_clone(rng, arguments),
        }
    }
}

/// Asks for one of the two of clones beside all else, or beside one other thing.
fn beside_clone(rng: &mut Rng, arguments: &mut Arguments) {
    let Ask { clone, clone_supported, .. } = of_clones(rng);
    if rng.one_in(3) {
        (arguments.ask.clone, arguments.ask.clone_supported) = (clone, clone_supported);
        return;
    }
    arguments.ask = Ask { clone, clone_supported, ..Ask::default() };
    arguments.cookie.clear();
    match rng.below(8) {
        0 => arguments.ask.update = true,
        1 => (arguments.ask.no_nats, arguments.pair) = (true, pairs::pair(rng)),
        2 => (arguments.ask.nat_source, arguments.ask.nat_destination) = (true, true),
        3 => arguments.ask.no_additional = true,
        4 => arguments.ask.count = rng.between(1, MAX_KEPT) as u16,
        5 => (arguments.ask.clone, arguments.ask.clone_supported) = (true, true),
        6 => arguments.ask.nat_source = true,
        _ => arguments.cookie = rng.octets(8),
    }
}

/// Families that aren't allowed, and IPv4, of which an octet past the fourth is set.
const FLAWED_FAMILIES: [u8; 5] = [4, 4, 0, 5, 255];

/// Makes the tail of IPv4 octets not zero.
fn set_tail(rng: &mut Rng, octets: &mut AddressOctets) {
    let tail = &mut octets[rng.between(4, 15)];
    *tail = (*tail).max(1);
}

fn spoil_pair(rng: &mut Rng, arguments: &mut Arguments) {
    let pair = &mut arguments.pair;
    arguments.ask.no_nats = true;
    pair.family = rng.pick(&FLAWED_FAMILIES);
    let source = rng.one_in(2);
    set_tail(rng, if source { &mut pair.source } else { &mut pair.destination });
}

/// Spoils one of the addresses that are asked for.
fn spoil_address(rng: &mut Rng, arguments: &mut Arguments) {
    let count = rng.between(1, MAX_KEPT);
    (arguments.ask.no_additional, arguments.ask.count) = (false, count as u16);
    let address = &mut arguments.addresses[rng.pick(&[0, count - 1, count / 2])];
    address.family = rng.pick(&FLAWED_FAMILIES);
    set_tail(rng, &mut address.octets);
}
