// Openings of both records: every family and tail, every set of failing checks, and what may be in
// the tables besides.
use super::super::super::operators::divide;
use super::super::{spis, Case};
use super::contents::{
    self, ike_record, ipsec_record, ipv4_pair, open_both, AGREED, NEW_IKE, NEW_IPSEC,
};
use crate::address::AddressPair;
use crate::agreed::Agreed;
use crate::calls::Call;
use crate::opening_both::Opening;
use crate::shares::Held;
use crate::tables::{Tables, IKE_PLACES, IPSEC_PLACES};
use std::rc::Rc;

pub fn all() -> Vec<Case> {
    [
        families(),
        tails(),
        checks(),
        checks_with_other_lists(),
        one_record_each(),
        neither_stays(),
        twins(),
        orphans(),
        orphans_in_each_place(),
        same_numbers(),
        policies(),
    ]
    .concat()
}

/// Every family, with addresses that are sound in both.
fn families() -> Vec<Case> {
    let opening = |family: u8| {
        let number = usize::from(family % 8);
        let pair = AddressPair { family, ..ipv4_pair() };
        open_both(spis::ike(number), pair, spis::ipsec(number))
    };
    (0..32)
        .map(|eight: u8| {
            let calls = (0..8).map(|family| opening(8 * eight + family)).collect();
            Case { tables: Tables::empty(), calls }
        })
        .collect()
}

/// A bit in each octet of each address, as IPv4 and as IPv6.
fn tails() -> Vec<Case> {
    let case = |octet: usize| {
        let mut calls = Vec::new();
        for family in [4, 6] {
            let (mut one, mut other) = (ipv4_pair(), ipv4_pair());
            one.source[octet] ^= 0x80;
            other.destination[octet] ^= 1;
            for pair in [one, other] {
                let (spi, child) = (spis::ike(calls.len()), spis::ipsec(calls.len()));
                calls.push(open_both(spi, AddressPair { family, ..pair }, child));
            }
        }
        Case { tables: Tables::empty(), calls }
    };
    (0..16).map(case).collect()
}

/// Each table empty, full, full but for two places, nothing but leftovers, and the last but one and the full one with
/// so many records of A that it is at its share, with each of the other, and the list with orphans too.
fn tables_to_open_in() -> Vec<Tables> {
    let free_at_ends = contents::with_free(&[0, 31], &[0, 127]);
    let at_share = |mut tables: Tables| {
        divide(tables.ike_mut(), 21);
        // Of the first place in which there is always a record of A.
        tables.ipsec_mut().iter_mut().for_each(|record| record.owner = spis::ike(1));
        tables
    };
    let shares = [contents::full(), free_at_ends.clone()].map(at_share);
    let each = [Tables::empty(), contents::full(), free_at_ends, contents::leftovers()];
    let each = [&each[..], &shares].concat();
    let orphans = [1, 2].map(|place| {
        let mut tables = each[place].clone();
        tables.ipsec_mut().iter_mut().for_each(|record| record.owner = NEW_IKE - 1);
        tables
    });
    let lists = [&each[..], &orphans].concat();
    let with =
        |ike: &Tables, ipsec: &Tables| Tables { ipsec: Rc::clone(&ipsec.ipsec), ..ike.clone() };
    each.iter().flat_map(|ike| lists.iter().map(|ipsec| with(ike, ipsec))).collect()
}

/// 0, in use or not according to the tables, and one that no record has.
const IKE_NUMBERS: [Option<usize>; 3] = [Some(1), Some(31), None];
const IPSEC_NUMBERS: [Option<usize>; 3] = [Some(1), Some(127), None];

fn ike_spis() -> Vec<u64> {
    [0].into_iter().chain(IKE_NUMBERS.map(|it| it.map_or(NEW_IKE, spis::ike))).collect()
}

fn children() -> Vec<u32> {
    [0].into_iter().chain(IPSEC_NUMBERS.map(|it| it.map_or(NEW_IPSEC, spis::ipsec))).collect()
}

/// Sound ones of both families, and each flaw.
fn pairs() -> [AddressPair; 5] {
    let bad_family = AddressPair { family: 5, ..ipv4_pair() };
    let (mut bad_source, mut bad_destination) = (ipv4_pair(), ipv4_pair());
    (bad_source.source[15], bad_destination.destination[4]) = (1, 1);
    [ipv4_pair(), contents::pair(99), bad_family, bad_source, bad_destination]
}

/// Every set of failing checks but that of the list's length; with fewer pairs where an operator is at its share.
fn checks() -> Vec<Case> {
    let mut cases = Vec::new();
    for tables in tables_to_open_in() {
        let Held { ikes, ipsecs, .. } = Held::of(&tables, 0);
        let some: &[usize] = if ikes < 20 && ipsecs < 80 { &[0, 1, 2, 3, 4] } else { &[0, 2] };
        for spi in ike_spis() {
            for child in children() {
                for &number in some {
                    let (pair, mobike) = (pairs()[number], [1, 0, 255, 2, 0][number]);
                    let agreed = Agreed { mobike, ..AGREED };
                    let of_none = Agreed { operator: 2 + (cases.len() % 254) as u8, ..agreed };
                    let calls = [of_none, agreed]
                        .map(|agreed| Call::OpenBoth(Opening { spi, agreed, pair, child }))
                        .to_vec();
                    cases.push(Case { tables: tables.clone(), calls });
                }
            }
        }
    }
    cases
}

/// The same with lists of other lengths, of which nothing is opened; a sound pair, and one that isn't.
fn checks_with_other_lists() -> Vec<Case> {
    let [sound, .., unsound] = pairs();
    let mut calls = Vec::new();
    for (spi, pair) in ike_spis().into_iter().flat_map(|it| [(it, sound), (it, unsound)]) {
        for child in children() {
            let call = open_both(spi, pair, child);
            let mut of_none = call.clone();
            *of_none.operator_mut() = 255;
            calls.extend([of_none, call]);
        }
    }
    let mut cases = Vec::new();
    for tables in tables_to_open_in() {
        for length in [0, 127, 129] {
            let tables = tables.with_ipsec_length(length);
            cases.push(Case { tables, calls: calls.clone() });
        }
    }
    cases
}

/// Only one place in use in each table, with the SPI that is given or another.
fn one_record_each() -> Vec<Case> {
    let mut cases = Vec::new();
    for (ike_place, ipsec_place) in [(0, 0), (0, 127), (31, 0), (31, 127), (16, 64)] {
        for (spi, child) in [(1, 1), (1, 2), (2, 1), (2, 2)] {
            let mut tables = Tables::empty();
            tables.ike_mut()[ike_place] = ike_record(ike_place, spis::ike(1));
            tables.ipsec_mut()[ipsec_place] =
                ipsec_record(ipsec_place, spis::ipsec(1), spis::ike(1));
            let call = open_both(spis::ike(spi), ipv4_pair(), spis::ipsec(child));
            cases.push(Case { tables, calls: vec![call.clone(), call] });
        }
    }
    cases
}

/// Refused for the one record, then made again as soon as it can be: 11 must not come for the other.
fn neither_stays() -> Vec<Case> {
    let opening = open_both(NEW_IKE, ipv4_pair(), NEW_IPSEC);
    let case = |ike_free: &[usize], ipsec_free: &[usize], freeing: Call| {
        let tables = contents::with_free(ike_free, ipsec_free);
        let calls =
            vec![opening.clone(), opening.clone(), freeing, opening.clone(), opening.clone()];
        Case { tables, calls }
    };
    let ipsec = |place| Call::CloseIpsec { spi: spis::ipsec(place), operator: 0 };
    let ike = |place| Call::CloseIke { spi: spis::ike(place), operator: 0 };
    let mut cases = Vec::new();
    for (ike_place, ipsec_place) in [(0, 0), (0, 127), (31, 0), (31, 127), (9, 40)] {
        cases.push(case(&[ike_place], &[], ipsec(ipsec_place)));
        cases.push(case(&[], &[ipsec_place], ike(ike_place)));
        cases.push(case(&[], &[], ike(ike_place)));
    }
    let in_use = open_both(NEW_IKE, ipv4_pair(), spis::ipsec(5));
    let calls = vec![in_use.clone(), opening.clone(), ipsec(5), in_use];
    cases.push(Case { tables: contents::with_free(&[3, 4], &[3, 4]), calls });
    let in_use = open_both(spis::ike(5), ipv4_pair(), NEW_IPSEC);
    let calls = vec![in_use.clone(), opening, ike(5), in_use];
    cases.push(Case { tables: contents::with_free(&[3, 4], &[3, 4]), calls });
    cases
}

/// Two records of one SPI in either table: that SPI is in use, until both are closed.
fn twins() -> Vec<Case> {
    let mut cases = Vec::new();
    for (low, high) in [(0, 1), (0, 31), (5, 9), (30, 31)] {
        let mut tables = contents::with_free(&[3, 20], &[3, 20]);
        let (spi, child) = (spis::ike(low), spis::ipsec(low));
        tables.ike_mut()[high].spi = spi;
        tables.ipsec_mut()[high].spi = child;
        let with_ike_twins = open_both(spi, ipv4_pair(), NEW_IPSEC);
        let with_child_twins = open_both(NEW_IKE, ipv4_pair(), child);
        let (close_ike, close_child) =
            (Call::CloseIke { spi, operator: 0 }, Call::CloseIpsec { spi: child, operator: 0 });
        let calls = vec![
            with_ike_twins.clone(),
            with_child_twins.clone(),
            close_ike.clone(),
            with_ike_twins.clone(),
            close_ike,
            with_ike_twins,
            close_child.clone(),
            with_child_twins.clone(),
            close_child,
            with_child_twins,
        ];
        cases.push(Case { tables, calls });
    }
    cases
}

/// IPsec records and free places that name the SPI already, among others and in every place.
fn orphans() -> Vec<Case> {
    let case = |owned: &dyn Fn(usize) -> bool, free: &[usize]| {
        let mut tables = contents::with_free(&[2, 7], free);
        for (place, record) in tables.ipsec_mut().iter_mut().enumerate() {
            if owned(place) {
                record.owner = NEW_IKE;
            }
        }
        let calls = vec![
            open_both(NEW_IKE, ipv4_pair(), NEW_IPSEC),
            open_both(NEW_IKE - 1, contents::pair(70), NEW_IPSEC - 1),
            Call::CloseIke { spi: NEW_IKE, operator: 0 },
            open_both(NEW_IKE, contents::pair(71), NEW_IPSEC),
        ];
        Case { tables, calls }
    };
    let mut cases = Vec::new();
    for free in [&[][..], &[0], &[64], &[127], &[5, 6, 7, 100]] {
        cases.push(case(&|_| true, free));
        cases.push(case(&|place| free.contains(&place), free));
        cases.push(case(&|place| !free.contains(&place), free));
        cases.push(case(&|place| place % 3 == 0, free));
    }
    cases
}

/// The one orphan of an SPI, in each place.
fn orphans_in_each_place() -> Vec<Case> {
    let case = |place: usize| {
        let mut tables = Tables::empty();
        tables.ike_mut()[place % IKE_PLACES] = ike_record(place, spis::ike(1));
        tables.ipsec_mut()[place] = ipsec_record(place, spis::ipsec(0), NEW_IKE);
        let calls = vec![
            open_both(NEW_IKE, ipv4_pair(), spis::ipsec(0)),
            open_both(NEW_IKE, ipv4_pair(), NEW_IPSEC),
            Call::CloseIke { spi: NEW_IKE, operator: 0 },
        ];
        Case { tables, calls }
    };
    (0..IPSEC_PLACES).map(case).collect()
}

/// A number that is in use in the other table, or is given for both.
fn same_numbers() -> Vec<Case> {
    let tables = contents::with_free(&[2, 3], &[2, 3]);
    let case = |spi: u64, child: u32| {
        let call = open_both(spi, ipv4_pair(), child);
        Case { tables: tables.clone(), calls: vec![call.clone(), call] }
    };
    let as_child = spis::ike(5) as u32;
    vec![
        case(u64::from(spis::ipsec(6)), NEW_IPSEC),
        case(NEW_IKE, as_child),
        case(u64::from(spis::ipsec(6)), as_child),
        case(u64::from(NEW_IPSEC), NEW_IPSEC),
        case(u64::from(NEW_IPSEC) + (1 << 32), NEW_IPSEC),
    ]
}

/// Whatever the policy says of the pair, and whether or not MOBIKE is agreed.
fn policies() -> Vec<Case> {
    let mut cases = Vec::new();
    for tables in [Tables::empty(), contents::with_free(&[4], &[4])] {
        for pair in [ipv4_pair(), contents::pair(0), contents::pair(15), contents::pair(99)] {
            for mobike in [1, 0] {
                let agreed = Agreed { mobike, ..AGREED };
                let opening = Opening { spi: NEW_IKE, agreed, pair, child: NEW_IPSEC };
                let calls = vec![Call::OpenBoth(opening), Call::Acceptable { pair, operator: 0 }];
                cases.push(Case { tables: tables.clone(), calls });
            }
        }
    }
    cases
}
