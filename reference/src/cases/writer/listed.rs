// The asks every run begins with: every set of them, and boundary values of all arguments.
use super::asks::of_set;
use crate::address::{Address, AddressOctets, AddressPair};
use crate::asking::{Arguments, Ask, LEAST_OUTPUT};
use crate::request::NAT_VALUE_LENGTH;
use crate::summary::MAX_KEPT;
use std::array;

/// Outputs about the least that is enough, and those whose length is lost in 16 bits.
const ROOMS: [usize; 17] =
    [0, 1, 8, 127, 128, 255, 500, 562, 563, 564, 565, 1000, 4096, 65535, 65536, 66099, 66100];

pub fn all() -> Vec<Arguments> {
    [
        every_set(),
        rooms(),
        cookies(),
        nat_values(),
        pair_families(),
        pair_octets(),
        ports(),
        counts(),
        address_families(),
        address_tails(),
        mixed_families(),
        flaws_together(),
        unasked(),
        of_clones(),
        of_clones_unasked(),
    ]
    .concat()
}

fn octets(start: u8, size: usize) -> Vec<u8> {
    (start..=255).cycle().take(size).collect()
}

/// Sixteen octets, none of them 0; of IPv4, zero past the fourth.
fn address_octets(family: u8, start: u8) -> AddressOctets {
    let size = if family == 4 { 4 } else { 16 };
    array::from_fn(|place| if place < size { start + place as u8 } else { 0 })
}

fn pair(family: u8) -> AddressPair {
    AddressPair {
        family,
        source: address_octets(family, 0x10),
        destination: address_octets(family, 0x40),
        source_port: 0x0102,
        destination_port: 0x0304,
    }
}

fn address(family: u8, place: usize) -> Address {
    Address { family, octets: address_octets(family, 0x50 + place as u8) }
}

/// Nothing is asked for, and whatever is lent is sound and differs from all else.
fn nothing() -> Arguments {
    Arguments {
        ask: Ask::default(),
        pair: pair(6),
        addresses: array::from_fn(|place| address(6, place)),
        nat_source: octets(0x80, NAT_VALUE_LENGTH),
        nat_destination: octets(0xa0, NAT_VALUE_LENGTH),
        cookie: vec![],
        output: octets(0xc0, LEAST_OUTPUT),
    }
}

/// The longest request.
fn everything() -> Arguments {
    Arguments { ask: of_set(0b1111, 16), cookie: octets(1, 64), ..nothing() }
}

/// A short request, and the longest one.
fn short_and_long() -> [Arguments; 2] {
    [Arguments { ask: of_set(1, 0), ..nothing() }, everything()]
}

fn with(base: &Arguments, change: impl FnOnce(&mut Arguments)) -> Arguments {
    let mut arguments = base.clone();
    change(&mut arguments);
    arguments
}

/// Every set of what can be asked for, with lists, cookies and outputs that are enough or not.
fn every_set() -> Vec<Arguments> {
    let mut cases = Vec::new();
    for set in 0..32 {
        for count in [0, 1, 2, 15, 16, 17] {
            for (size, room) in [(0, 563), (0, 564), (8, 564), (64, 563), (64, 564), (64, 600)] {
                let (cookie, output) = (octets(1, size), octets(0xc0, room));
                cases.push(Arguments { ask: of_set(set, count), cookie, output, ..nothing() });
            }
        }
    }
    cases
}

/// Outputs of all sizes that matter, for nothing, little, all, and what check 1 refuses.
fn rooms() -> Vec<Arguments> {
    let refused = with(&nothing(), |it| it.cookie = octets(1, 7));
    let mut cases = Vec::new();
    for room in ROOMS {
        for base in [&nothing(), &refused].into_iter().chain(&short_and_long()) {
            cases.push(with(base, |it| it.output = octets(0xc0, room)));
        }
    }
    cases
}

fn cookies() -> Vec<Arguments> {
    let sizes = (0..=72).chain([127, 128, 255, 256, 264, 320, 4096, 65536, 65544, 65600]);
    let mut cases = Vec::new();
    for size in sizes {
        for base in [nothing()].iter().chain(&short_and_long()) {
            for room in [563, 564, 700] {
                let output = octets(0xc0, room);
                cases.push(Arguments { cookie: octets(1, size), output, ..base.clone() });
            }
        }
    }
    cases
}

/// Every two lengths about the allowed one, with both kinds, neither, and each alone.
fn nat_values() -> Vec<Arguments> {
    let lengths = [0, 1, 18, 19, 20, 21, 40, 255, 256, 276, 65556];
    let mut cases = Vec::new();
    for (source, destination) in lengths.iter().flat_map(|&one| lengths.map(|other| (one, other))) {
        for set in [0b0000, 0b0100, 0b1000, 0b1100] {
            cases.push(Arguments {
                ask: of_set(set, 0),
                nat_source: octets(0x80, source),
                nat_destination: octets(0xa0, destination),
                ..nothing()
            });
        }
    }
    cases
}

/// Every family of a pair, asked for and not.
fn pair_families() -> Vec<Arguments> {
    let families = (0..=255).flat_map(|family| [0b00, 0b10].map(|set| (family, set)));
    let of = |(family, set)| Arguments {
        ask: of_set(set, 0),
        pair: AddressPair { family, ..pair(4) },
        ..nothing()
    };
    families.map(of).collect()
}

/// Pairs of each family with each octet changed, so also past those of IPv4.
fn pair_octets() -> Vec<Arguments> {
    let mut cases = Vec::new();
    for (family, place) in [4, 6].iter().flat_map(|&family| (0..16).map(move |at| (family, at))) {
        for set in [0b00, 0b10, 0b11] {
            let base = Arguments { ask: of_set(set, 0), pair: pair(family), ..nothing() };
            for bit in [1, 0x80] {
                cases.push(with(&base, |it| it.pair.source[place] ^= bit));
                cases.push(with(&base, |it| it.pair.destination[place] ^= bit));
            }
        }
    }
    cases
}

fn ports() -> Vec<Arguments> {
    let ports = [0, 1, 255, 256, 500, 4500, 65535];
    let mut cases = Vec::new();
    for (from, to) in ports.iter().flat_map(|&from| ports.map(|to| (from, to))) {
        for family in [4, 6] {
            let pair = AddressPair { source_port: from, destination_port: to, ..pair(family) };
            cases.push(Arguments { ask: of_set(0b10, 0), pair, ..nothing() });
        }
    }
    cases
}

/// Counts about the greatest and those that are small in one octet, with and without a list.
fn counts() -> Vec<Arguments> {
    let counts = (0..=40).chain(254..=275).chain([511, 512, 513, 4096, 32768, 65296, 65535]);
    let mut cases = Vec::new();
    for count in counts {
        for set in [0b00000, 0b10000, 0b00011, 0b11111] {
            cases.push(Arguments { ask: of_set(set, count), ..everything() });
        }
    }
    cases
}

/// Each place with each sort of family, as the first past the count, the last below it, or amid.
fn address_families() -> Vec<Arguments> {
    let mut cases = Vec::new();
    for place in 0..MAX_KEPT {
        for family in [0, 1, 3, 4, 5, 6, 7, 10, 255] {
            for count in [place, place + 1, MAX_KEPT] {
                let base = Arguments { ask: of_set(1, count as u16), ..nothing() };
                let octets = address_octets(4, 0x70);
                cases.push(with(&base, |it| it.addresses[place] = Address { family, octets }));
            }
        }
    }
    cases
}

/// An IPv4 address in each place with each octet past the fourth set, past the count and below it.
fn address_tails() -> Vec<Arguments> {
    let mut cases = Vec::new();
    for place in 0..MAX_KEPT {
        for octet in 4..16 {
            for count in [place, place + 1] {
                let base = Arguments { ask: of_set(0, count as u16), ..nothing() };
                let mut flawed = address(4, place);
                flawed.octets[octet] = 1;
                cases.push(with(&base, |it| it.addresses[place] = flawed));
            }
        }
    }
    cases
}

/// Lists of every count, of one family or both in several orders.
fn mixed_families() -> Vec<Arguments> {
    let is_ipv4 = [
        |_: usize| true,
        |place: usize| place.is_multiple_of(2),
        |place: usize| !place.is_multiple_of(2),
        |place: usize| place < 3,
        |place: usize| place >= 3,
    ];
    let mut cases = Vec::new();
    for count in 0..=MAX_KEPT {
        for is_ipv4 in is_ipv4 {
            let family = |place| if is_ipv4(place) { 4 } else { 6 };
            let addresses = array::from_fn(|place| address(family(place), place));
            for base in short_and_long() {
                cases.push(with(&base, |it| {
                    (it.ask.count, it.addresses) = (count as u16, addresses)
                }));
            }
        }
    }
    cases
}

/// Each case with every set of these changes made.
fn with_every_set(mut cases: Vec<Arguments>, changes: &[fn(&mut Arguments)]) -> Vec<Arguments> {
    for change in changes {
        let changed: Vec<_> = cases.iter().map(|case| with(case, change)).collect();
        cases.extend(changed);
    }
    cases
}

/// Every set of the ways to fail of one request.
fn flaws_together() -> Vec<Arguments> {
    let flaws: [fn(&mut Arguments); 8] = [
        |it| it.pair.family = 5,
        |it| it.nat_source = octets(1, 19),
        |it| it.nat_destination.push(0),
        |it| it.ask.nat_destination = false,
        |it| it.ask.count += 1,
        |it| it.addresses[3].family = 4,
        |it| it.cookie.push(0),
        |it| it.output.truncate(LEAST_OUTPUT - 1),
    ];
    with_every_set(vec![everything()], &flaws)
}

/// Every set of flawed arguments with every set of what is asked for.
fn unasked() -> Vec<Arguments> {
    let flaws: [fn(&mut Arguments); 4] = [
        |it| it.pair = AddressPair { family: 4, ..it.pair },
        |it| it.nat_source = vec![],
        |it| it.nat_destination = octets(1, 21),
        |it| it.addresses[2..].fill(Address { family: 9, octets: [9; 16] }),
    ];
    let asks = (0..32).flat_map(|set| [0, 2, 3].map(|count| of_set(set, count)));
    let cases = asks.map(|ask| Arguments { ask, ..nothing() }).collect();
    with_every_set(cases, &flaws)
}

/// Either of the two of clones, or both, with every set of what else can be asked for, with lists, cookies and outputs
/// that are enough or not.
fn of_clones() -> Vec<Arguments> {
    let mut cases = Vec::new();
    for set in (0..32).flat_map(|set| [0b010_0000, 0b100_0000, 0b110_0000].map(|two| set | two)) {
        for count in [0, 1, 256] {
            for (size, room) in [(0, 563), (0, 564), (8, 564), (7, 600)] {
                let (cookie, output) = (octets(1, size), octets(0xc0, room));
                cases.push(Arguments { ask: of_set(set, count), cookie, output, ..nothing() });
            }
        }
    }
    for set in [0b010_0000, 0b100_0000] {
        for size in (0..=72).chain([255, 256, 264, 65536]) {
            let cookie = octets(1, size);
            cases.push(Arguments { ask: of_set(set, 0), cookie, ..nothing() });
        }
        for room in ROOMS {
            let output = octets(0xc0, room);
            cases.push(Arguments { ask: of_set(set, 0), output, ..nothing() });
        }
    }
    cases
}

/// Every set of flawed arguments for what isn't asked for beside one of the two.
fn of_clones_unasked() -> Vec<Arguments> {
    let flaws: [fn(&mut Arguments); 4] = [
        |it| it.pair = AddressPair { family: 5, ..it.pair },
        |it| it.nat_source = vec![],
        |it| it.nat_destination = octets(1, 21),
        |it| it.addresses.fill(Address { family: 9, octets: [9; 16] }),
    ];
    let asks = [0b010_0000, 0b100_0000].map(|set| of_set(set, 0));
    let cases = asks.map(|ask| Arguments { ask, ..nothing() }).to_vec();
    with_every_set(cases, &flaws)
}
