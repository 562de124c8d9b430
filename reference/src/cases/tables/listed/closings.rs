// Closings: every place, every owned place, twins, orphans, and free places that name an owner.
use super::super::{spis, Case};
use super::contents::{self, ike_record, ipsec_record, NEW_IPSEC};
use crate::calls::Call;
use crate::opening::Adding;
use crate::tables::{Tables, IKE_PLACES, IPSEC_PLACES};

pub fn all() -> Vec<Case> {
    [
        zero_spis(),
        ike_places(),
        ipsec_places(),
        owned_places(),
        free_places_with_owner(),
        ike_twins(),
        ipsec_twins(),
        orphans(),
        shared_pair(),
    ]
    .concat()
}

fn zero_spis() -> Vec<Case> {
    let calls =
        vec![Call::CloseIke { spi: 0, operator: 0 }, Call::CloseIpsec { spi: 0, operator: 0 }];
    [Tables::empty(), contents::full(), contents::leftovers()]
        .map(|tables| Case { tables, calls: calls.clone() })
        .to_vec()
}

/// Each IKE record of full tables, closed twice.
fn ike_places() -> Vec<Case> {
    let case = |place| {
        let closing = Call::CloseIke { spi: spis::ike(place), operator: 0 };
        Case { tables: contents::full(), calls: vec![closing.clone(), closing] }
    };
    (0..IKE_PLACES).map(case).collect()
}

/// Each IPsec record of full tables, eight of them in a row and the last once more.
fn ipsec_places() -> Vec<Case> {
    let case = |eight: usize| {
        let places = (8 * eight..8 * eight + 8).chain([8 * eight + 7]);
        let calls =
            places.map(|place| Call::CloseIpsec { spi: spis::ipsec(place), operator: 0 }).collect();
        Case { tables: contents::full(), calls }
    };
    (0..IPSEC_PLACES / 8).map(case).collect()
}

/// One IKE record that owns the IPsec record of a single place, all, or none.
fn owned_places() -> Vec<Case> {
    let (closed, other) = (spis::ike(0), spis::ike(1));
    let case = |owned: &dyn Fn(usize) -> bool| {
        let mut tables = contents::full();
        for (place, record) in tables.ipsec_mut().iter_mut().enumerate() {
            record.owner = if owned(place) { closed } else { other };
        }
        Case { tables, calls: vec![Call::CloseIke { spi: closed, operator: 0 }] }
    };
    let single = (0..IPSEC_PLACES).map(|place| case(&|other_place| other_place == place));
    single.chain([case(&|_| true), case(&|_| false)]).collect()
}

/// Free IPsec places that still name the IKE record that is closed, among records or alone.
fn free_places_with_owner() -> Vec<Case> {
    let case = |free_in: usize| {
        let mut tables = contents::full();
        for (place, record) in tables.ipsec_mut().iter_mut().enumerate() {
            record.owner = spis::ike(place % 2);
            if place % free_in == 0 {
                record.spi = 0;
            }
        }
        let calls = vec![
            Call::CloseIke { spi: spis::ike(0), operator: 0 },
            Call::OpenIpsec(Adding { spi: NEW_IPSEC, owner: spis::ike(1), operator: 0 }),
            Call::CloseIke { spi: spis::ike(1), operator: 0 },
        ];
        Case { tables, calls }
    };
    [1, 2, 3, 4, 5, 127].map(case).to_vec()
}

/// Two IKE records of one SPI: the lower is meant, and its IPsec records close with it.
fn ike_twins() -> Vec<Case> {
    let case = |(low, high): (usize, usize)| {
        let mut tables = contents::with_free_ipsec(&[77]);
        let spi = tables.ike.records[low].spi;
        let twin = &mut tables.ike_mut()[high];
        (twin.spi, twin.agreed.mobike) = (spi, 0);
        let closing = Call::CloseIke { spi, operator: 0 };
        let opening = Call::OpenIpsec(Adding { spi: NEW_IPSEC, owner: spi, operator: 0 });
        let calls = vec![opening.clone(), closing.clone(), opening, closing.clone(), closing];
        Case { tables, calls }
    };
    [(0, 1), (0, 31), (5, 9), (15, 16), (30, 31)].map(case).to_vec()
}

/// Two IPsec records of one SPI, of one owner or of two, closed by SPI or with their owner.
fn ipsec_twins() -> Vec<Case> {
    let mut cases = Vec::new();
    for (low, high) in [(0, 1), (0, 127), (0, 32), (63, 64), (40, 104), (126, 127)] {
        let mut tables = contents::full();
        let record = tables.ipsec.records[low];
        tables.ipsec_mut()[high].spi = record.spi;
        let by_spi = vec![Call::CloseIpsec { spi: record.spi, operator: 0 }; 3];
        cases.push(Case { tables: tables.clone(), calls: by_spi });
        let with_owner = vec![Call::CloseIke { spi: record.owner, operator: 0 }];
        cases.push(Case { tables: tables.clone(), calls: with_owner.clone() });
        tables.ipsec_mut()[high].owner = record.owner;
        cases.push(Case { tables, calls: with_owner });
    }
    cases
}

/// IPsec records without an IKE record, until one is opened with the SPI that they name.
fn orphans() -> Vec<Case> {
    let owner = spis::ike(4);
    let mut tables = Tables::empty();
    tables.ike_mut()[3] = ike_record(3, spis::ike(3));
    for place in [0, 64, 127] {
        tables.ipsec_mut()[place] = ipsec_record(place, spis::ipsec(place), owner);
    }
    let mut with_leftover = tables.clone();
    with_leftover.ike_mut()[0] = ike_record(0, 0);
    let calls = vec![
        Call::CloseIke { spi: owner, operator: 0 },
        Call::OpenIpsec(Adding { spi: spis::ipsec(64), owner, operator: 0 }),
        Call::OpenIpsec(Adding { spi: spis::ipsec(64), owner: spis::ike(3), operator: 0 }),
        Call::CloseIpsec { spi: spis::ipsec(64), operator: 0 },
        Call::CloseIke { spi: spis::ike(3), operator: 0 },
        contents::open_both(owner, contents::pair(50), spis::ipsec(127)),
        contents::open_both(owner, contents::pair(50), spis::ipsec(65)),
        Call::OpenIpsec(Adding { spi: spis::ipsec(64), owner, operator: 0 }),
        Call::CloseIke { spi: owner, operator: 0 },
    ];
    [tables, with_leftover].map(|tables| Case { tables, calls: calls.clone() }).to_vec()
}

/// All records behind one pair of addresses.
fn shared_pair() -> Vec<Case> {
    let mut tables = contents::full();
    tables.ike_mut().iter_mut().for_each(|record| record.pair = contents::pair(0));
    tables.ipsec_mut().iter_mut().for_each(|record| record.pair = contents::pair(0));
    let calls = [3, 30].map(|place| Call::CloseIke { spi: spis::ike(place), operator: 0 }).to_vec();
    vec![Case { tables, calls }]
}
