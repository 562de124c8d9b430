// Random addresses and address pairs, sound and not, many of which meet again or nearly do.
use crate::address::{octet_count, Address, AddressOctets, AddressPair};
use crate::rng::Rng;

/// Two addresses that differ in their first bit, and one next to each; IPv4 are their first octets.
const BASES: [AddressOctets; 4] = [
    [32, 1, 13, 184, 0, 1, 0, 2, 0, 3, 0, 4, 0, 5, 0, 6],
    [32, 1, 13, 185, 0, 1, 0, 2, 0, 3, 0, 4, 0, 5, 0, 7],
    [160, 1, 13, 184, 255, 1, 0, 2, 0, 3, 0, 4, 0, 5, 0, 6],
    [160, 1, 13, 184, 255, 1, 0, 2, 128, 3, 0, 4, 0, 5, 0, 6],
];

const FAMILIES: [u8; 5] = [0, 4, 5, 6, 255];

const PORTS: [u16; 6] = [0, 1, 500, 4500, 0x1194, 65535];

/// Sixteen octets as any family might have them.
pub fn octets(rng: &mut Rng) -> AddressOctets {
    if rng.one_in(4) {
        let halves = [rng.next_u64(), rng.next_u64()];
        (u128::from(halves[0]) << 64 | u128::from(halves[1])).to_be_bytes()
    } else {
        rng.pick(&BASES)
    }
}

/// Sixteen octets, zero past those of the family.
pub fn sound_octets(rng: &mut Rng, family: u8) -> AddressOctets {
    let mut octets = octets(rng);
    octets[octet_count(family).unwrap_or(16)..].fill(0);
    octets
}

pub fn family(rng: &mut Rng) -> u8 {
    rng.pick(&[4, 6])
}

pub fn any_family(rng: &mut Rng) -> u8 {
    rng.pick(&FAMILIES)
}

pub fn address(rng: &mut Rng) -> Address {
    let family = family(rng);
    Address { family, octets: sound_octets(rng, family) }
}

pub fn any_address(rng: &mut Rng) -> Address {
    Address { family: any_family(rng), octets: octets(rng) }
}

pub fn pair(rng: &mut Rng) -> AddressPair {
    let family = family(rng);
    AddressPair {
        family,
        source: sound_octets(rng, family),
        destination: sound_octets(rng, family),
        source_port: rng.pick(&PORTS),
        destination_port: rng.pick(&PORTS),
    }
}

/// Often a sound pair; else of any family, or with an octet changed that may be past its family's.
pub fn any_pair(rng: &mut Rng) -> AddressPair {
    let mut pair = pair(rng);
    if rng.one_in(4) {
        pair.family = any_family(rng);
    }
    if rng.one_in(4) {
        let place = rng.below(16);
        let octets = if rng.one_in(2) { &mut pair.source } else { &mut pair.destination };
        octets[place] ^= 1 << rng.below(8);
    }
    pair
}
