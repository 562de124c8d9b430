// Tables for the listed cases: in every place no field is 0 but the SPI of a free one, and the octet that names A.
use super::super::agreements::YES;
use super::super::{spis, Case};
use crate::address::{Address, AddressPair};
use crate::agreed::Agreed;
use crate::calls::Call;
use crate::opening_both::Opening;
use crate::pending::PendingCheck;
use crate::policy::{Policy, Rule};
use crate::tables::{
    IkeRecord, IkeTable, IpsecRecord, IpsecTable, Tables, IKE_PLACES, IPSEC_PLACES,
};
use std::array;
use std::rc::Rc;

/// SPIs that no place has.
pub const NEW_IKE: u64 = u64::MAX - 1;
pub const NEW_IPSEC: u32 = u32::MAX - 1;

/// What an opening gives, where a case doesn't say it.
pub const AGREED: Agreed = Agreed { mobike: 1, cloning: 2, operator: 0, peer: 0x0102_0304 };

/// Opens both, with MOBIKE agreed.
pub fn open_both(spi: u64, pair: AddressPair, child: u32) -> Call {
    Call::OpenBoth(Opening { spi, agreed: AGREED, pair, child })
}

/// Sixteen octets that differ from place to place.
fn octets(place: usize) -> [u8; 16] {
    array::from_fn(|octet| (3 * place + octet + 1) as u8 | 1)
}

pub fn pair(place: usize) -> AddressPair {
    AddressPair {
        family: 6,
        source: octets(place),
        destination: octets(place + 1),
        source_port: 500 + place as u16,
        destination_port: 4500 + place as u16,
    }
}

/// A sound pair of IPv4 addresses.
pub fn ipv4_pair() -> AddressPair {
    let (mut source, mut destination) = ([0; 16], [0; 16]);
    source[..4].copy_from_slice(&[192, 0, 2, 1]);
    destination[..4].copy_from_slice(&[198, 51, 100, 255]);
    AddressPair { family: 4, source, destination, source_port: 4500, destination_port: 500 }
}

pub fn ike_record(place: usize, spi: u64) -> IkeRecord {
    let address = |number| Address { family: 6, octets: octets(place + number) };
    IkeRecord {
        spi,
        agreed: Agreed {
            mobike: yes(place),
            cloning: yes(place + 3),
            operator: operator(place),
            peer: !(place as u32),
        },
        pair: pair(place),
        update_mark: u64::MAX - place as u64,
        list_mark: 1 + place as u64,
        count: 1 + place as u16,
        addresses: array::from_fn(address),
        unknown: u32::MAX - place as u32,
        check: pending(place),
        deleting: yes(place + 5),
    }
}

/// Of the records in an odd place A, of the others B, so that each has half of full tables.
pub fn operator(place: usize) -> u8 {
    1 - (place % 2) as u8
}

/// Octets that say yes, in turn.
fn yes(place: usize) -> u8 {
    YES[place % YES.len()]
}

/// A check with a cookie of an allowed length, and octets other than 0 past it.
fn pending(place: usize) -> PendingCheck {
    let octet = |at: usize| (5 * place + at + 1) as u8 | 1;
    PendingCheck { length: (8 + place) as u8, octets: array::from_fn(octet), id: 1 + place as u32 }
}

pub fn ipsec_record(place: usize, spi: u32, owner: u64) -> IpsecRecord {
    IpsecRecord { spi, owner, pair: pair(place) }
}

/// Rules that are sound but for some lengths, and a count that no list can be set with; others for each operator.
fn policy(operator: usize) -> Policy {
    let rule = |place| Rule {
        family: 6,
        source: octets(place + 20 * operator),
        destination: octets(place + 20 * operator + 1),
        source_length: 120 + place as u8,
        destination_length: 121 + place as u8,
    };
    Policy { count: 20 + operator as u16, rules: array::from_fn(rule) }
}

/// The tables whose places have these SPIs; the IPsec records' owners are the IKE SPIs in turn.
fn tables(ike_spi: impl Fn(usize) -> u64, ipsec_spi: impl Fn(usize) -> u32) -> Tables {
    let ike = |place| ike_record(place, ike_spi(place));
    let ipsec = |place| ipsec_record(place, ipsec_spi(place), spis::ike(place % IKE_PLACES));
    Tables {
        ike: Rc::new(IkeTable { records: array::from_fn(ike) }),
        ipsec: Rc::new(IpsecTable { records: (0..IPSEC_PLACES).map(ipsec).collect() }),
        policies: array::from_fn(policy),
    }
}

/// All places in use, no SPI twice; those of a place are `spis::ike(place)`, `spis::ipsec(place)`.
pub fn full() -> Tables {
    tables(spis::ike, spis::ipsec)
}

/// All places free, and none of them cleared.
pub fn leftovers() -> Tables {
    tables(|_| 0, |_| 0)
}

/// Full but for these places of the IKE table and of the IPsec list, which are not cleared.
pub fn with_free(ike_places: &[usize], ipsec_places: &[usize]) -> Tables {
    let ike = |place| if ike_places.contains(&place) { 0 } else { spis::ike(place) };
    let ipsec = |place| if ipsec_places.contains(&place) { 0 } else { spis::ipsec(place) };
    tables(ike, ipsec)
}

/// Full but for these places of the IPsec list, which are not cleared.
pub fn with_free_ipsec(places: &[usize]) -> Tables {
    with_free(&[], places)
}

/// An IPsec record of each of the few SPIs, and the calls for it and for each that may be given.
pub fn of_like_ipsec_spis(calls: impl Fn(u32, u32) -> Vec<Call>) -> Vec<Case> {
    let mut cases = Vec::new();
    for there in spis::FEW_IPSEC {
        for given in spis::FEW_IPSEC {
            let mut tables = Tables::empty();
            tables.ike_mut()[1] = ike_record(1, spis::ike(1));
            tables.ipsec_mut()[1] = ipsec_record(1, there, spis::ike(1));
            cases.push(Case { tables, calls: calls(there, given) });
        }
    }
    cases
}
