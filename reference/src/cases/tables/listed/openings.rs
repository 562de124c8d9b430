// Openings of another IPsec record: failing checks together, every free place, SPIs nearly alike.
use super::super::{spis, Case};
use super::contents::{self, NEW_IKE, NEW_IPSEC};
use crate::calls::Call;
use crate::opening::Adding;
use crate::tables::{Tables, IPSEC_PLACES};

pub fn all() -> Vec<Case> {
    [checks(), owners(), places(), look_alikes()].concat()
}

fn checks() -> Vec<Case> {
    let mut cases = Vec::new();
    for tables in tables_to_open_in() {
        for spi in [0, spis::ipsec(1), spis::ipsec(127), NEW_IPSEC] {
            for owner in [0, spis::ike(0), spis::ike(1), spis::ike(31), NEW_IKE] {
                let calls = vec![Call::OpenIpsec(Adding { spi, owner, operator: 0 })];
                cases.push(Case { tables: tables.clone(), calls });
            }
        }
    }
    cases
}

/// Empty, full, nothing but leftovers, each table full but for two places, and no IPsec record.
fn tables_to_open_in() -> Vec<Tables> {
    vec![
        Tables::empty(),
        contents::full(),
        contents::leftovers(),
        contents::with_free(&[0, 31], &[]),
        contents::with_free_ipsec(&[0, 127]),
        Tables { ipsec: Tables::empty().ipsec, ..contents::full() },
    ]
}

/// Owners without MOBIKE, of a family not allowed, with tails, and numbers used in both tables.
fn owners() -> Vec<Case> {
    let mut tables = contents::with_free_ipsec(&[5, 6, 7, 8]);
    let records = tables.ike_mut();
    records[9].agreed.mobike = 0;
    records[10].pair.family = 5;
    records[11].pair.family = 4;
    records[12].spi = u64::from(NEW_IPSEC);
    let opening = |number, place: usize| {
        let owner = tables.ike.records[place].spi;
        Call::OpenIpsec(Adding { spi: NEW_IPSEC - number, owner, operator: 0 })
    };
    let calls = [9, 10, 11, 12].into_iter().zip(0..).map(|(place, number)| opening(number, place));
    vec![
        Case { calls: calls.collect(), tables: tables.clone() },
        Case { calls: vec![opening(0, 12), opening(1, 12)], tables },
    ]
}

/// One place free or two; the third opening finds none.
fn places() -> Vec<Case> {
    let case = |places: &[usize]| {
        let opening = |number| {
            Call::OpenIpsec(Adding { spi: NEW_IPSEC - number, owner: spis::ike(3), operator: 0 })
        };
        Case { tables: contents::with_free_ipsec(places), calls: (0..3).map(opening).collect() }
    };
    let lows = 0..IPSEC_PLACES;
    lows.flat_map(|low| [case(&[low]), case(&[low, IPSEC_PLACES - 1])]).collect()
}

fn look_alikes() -> Vec<Case> {
    contents::of_like_ipsec_spis(|there, given| {
        vec![
            Call::OpenIpsec(Adding { spi: given, owner: spis::ike(1), operator: 0 }),
            Call::CloseIpsec { spi: given, operator: 0 },
            Call::CloseIpsec { spi: there, operator: 0 },
        ]
    })
}
