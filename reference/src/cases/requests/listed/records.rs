// Which records an update moves: each place, twins, alike SPIs, shared pairs, free places.
use super::super::super::tables::listed::contents;
use super::super::super::tables::spis;
use super::setting;
use super::Case;
use crate::policy::{Policy, Rule};
use crate::request::Request;
use crate::tables::{Tables, IKE_PLACES, IPSEC_PLACES};

pub fn all() -> Vec<Case> {
    [ike_places(), ipsec_places(), twins(), alike(), shared_pair(), free_places(), policies()]
        .concat()
}

fn moving(spi: u64) -> Request {
    Request { spi, ..setting::moving() }
}

/// Tables of which every IKE record is served with any ID.
fn served() -> Tables {
    let mut tables = setting::tables();
    for record in tables.ike_mut() {
        (record.update_mark, record.list_mark) = (0, 0);
    }
    tables
}

fn ike_places() -> Vec<Case> {
    let case = |place| Case { tables: served(), request: moving(spis::ike(place)) };
    (0..IKE_PLACES + 2).map(case).collect()
}

/// One IPsec record alone has the owner, all have, or none has.
fn ipsec_places() -> Vec<Case> {
    let case = |owned: &dyn Fn(usize) -> bool| {
        let mut tables = setting::tables();
        for (place, record) in tables.ipsec_mut().iter_mut().enumerate() {
            record.owner = if owned(place) { setting::spi() } else { spis::ike(0) };
        }
        Case { tables, request: moving(setting::spi()) }
    };
    let single = (0..IPSEC_PLACES).map(|place| case(&|other_place| other_place == place));
    single.chain([case(&|_| true), case(&|_| false)]).collect()
}

/// Two or three IKE records of one SPI, of which the lowest is meant, agreed or not.
fn twins() -> Vec<Case> {
    let mut cases = Vec::new();
    for (low, high) in [(0, 1), (0, 31), (5, 9), (15, 16), (30, 31)] {
        for agreed in [(0, 0), (0, 1), (0, 255), (2, 0), (1, 1)] {
            let mut tables = served();
            let spi = tables.ike.records[low].spi;
            let records = tables.ike_mut();
            records[high].spi = spi;
            (records[low].agreed.mobike, records[high].agreed.mobike) = agreed;
            cases.push(Case { tables, request: moving(spi) });
        }
    }
    cases
}

/// SPIs and owners that are alike in one half of their bits, asked for alone and with others.
fn alike() -> Vec<Case> {
    let mut cases = Vec::new();
    for there in spis::FEW_IKE {
        for asked in spis::FEW_IKE.into_iter().chain([0]) {
            let mut tables = served();
            let places = tables.ike_mut().iter_mut().enumerate();
            places.for_each(|(place, record)| record.spi = if place == 9 { there } else { 0 });
            let owners = tables.ipsec_mut().iter_mut().enumerate();
            owners.for_each(|(place, record)| record.owner = spis::FEW_IKE[place % 8]);
            cases.push(Case { tables, request: moving(asked) });
        }
    }
    cases
}

/// All records behind one pair; one IKE record's IPsec records have other pairs, and no others.
fn shared_pair() -> Vec<Case> {
    let mut shared = served();
    shared.ike_mut().iter_mut().for_each(|record| record.pair = contents::pair(0));
    shared.ipsec_mut().iter_mut().for_each(|record| record.pair = contents::pair(0));
    let mut strangers = shared.clone();
    let owned = strangers.ipsec_mut().iter_mut().filter(|it| it.owner == setting::spi());
    owned.for_each(|record| record.pair = contents::pair(99));
    let mut already = moving(setting::spi());
    already.pair = contents::pair(0);
    let mut cases = Vec::new();
    for tables in [shared, strangers] {
        for request in [moving(setting::spi()), already.clone()] {
            cases.push(Case { tables: tables.clone(), request });
        }
    }
    cases
}

/// Free places that still name the owner, or still hold the rest of an IKE record.
fn free_places() -> Vec<Case> {
    let mut cases = Vec::new();
    for free_in in [1, 2, 3, 5, 127] {
        let mut tables = served();
        for (place, record) in tables.ipsec_mut().iter_mut().enumerate() {
            record.owner = setting::spi();
            if place % free_in == 0 {
                record.spi = 0;
            }
        }
        cases.push(Case { tables: tables.clone(), request: moving(setting::spi()) });
        tables.ike_mut()[setting::PLACE].spi = 0;
        cases.push(Case { tables: tables.clone(), request: moving(setting::spi()) });
        cases.push(Case { tables, request: moving(0) });
    }
    cases.push(Case { tables: contents::leftovers(), request: moving(setting::spi()) });
    cases.push(Case { tables: Tables::empty(), request: moving(setting::spi()) });
    cases
}

/// A single rule that matches, in and past the count, with lengths and families not allowed.
fn policies() -> Vec<Case> {
    let all = Rule { family: 6, ..Rule::ZERO };
    let too_long = Rule { destination_length: 129, ..all };
    let mut cases = Vec::new();
    for count in [0, 1, 15, 16, 17, 256, 65535] {
        for place in [0, 1, 14, 15] {
            for rule in [all, too_long, Rule { family: 4, ..all }, Rule { family: 5, ..all }] {
                let mut tables = served();
                tables.policies = [Policy { count, ..Policy::EMPTY }, Policy::EMPTY];
                tables.policies[0].rules[place] = rule;
                cases.push(Case { tables, request: moving(setting::spi()) });
            }
        }
    }
    cases
}
