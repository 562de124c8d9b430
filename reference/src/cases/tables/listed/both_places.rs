// Openings of both records: every free place of either table, SPIs nearly alike, places used again.
use super::super::{spis, Case};
use super::contents::{self, ike_record, ipsec_record, ipv4_pair, open_both, NEW_IKE, NEW_IPSEC};
use crate::calls::Call;
use crate::opening::Adding;
use crate::tables::{Tables, IKE_PLACES, IPSEC_PLACES};

pub fn all() -> Vec<Case> {
    [
        ike_places(),
        ipsec_places(),
        places_of_both(),
        ike_look_alikes(),
        ipsec_look_alikes(),
        reused_places(),
        filled_tables(),
    ]
    .concat()
}

/// Three openings, each with other SPIs.
fn three() -> Vec<Call> {
    let opening = |number: u32| {
        let (spi, child) = (NEW_IKE - u64::from(number), NEW_IPSEC - number);
        open_both(spi, contents::pair(70 + number as usize), child)
    };
    (0..3).map(opening).collect()
}

fn case(ike_free: &[usize], ipsec_free: &[usize]) -> Case {
    Case { tables: contents::with_free(ike_free, ipsec_free), calls: three() }
}

/// One IKE place free or two, and three for IPsec records; the third opening finds none.
fn ike_places() -> Vec<Case> {
    let last = IKE_PLACES - 1;
    let ipsec_free = |low: usize| [low, low + 50, IPSEC_PLACES - 1];
    let cases = |low: usize| {
        [vec![low], vec![low, low + 1], vec![low, last]].map(|free| case(&free, &ipsec_free(low)))
    };
    (0..IKE_PLACES).flat_map(cases).collect()
}

/// The same of IPsec places.
fn ipsec_places() -> Vec<Case> {
    let last = IPSEC_PLACES - 1;
    let cases = |low: usize| {
        let ike_free = [low % IKE_PLACES, (low + 7) % IKE_PLACES, (low + 17) % IKE_PLACES];
        [vec![low], vec![low, last]].map(|free| case(&ike_free, &free))
    };
    (0..IPSEC_PLACES).flat_map(cases).collect()
}

/// One free place in each table, at the ends and about powers of two, each with each.
fn places_of_both() -> Vec<Case> {
    let ike = [0, 1, 15, 16, 30, 31];
    let ipsec = [0, 1, 31, 32, 63, 64, 126, 127];
    ike.iter().flat_map(|&low| ipsec.map(|other| case(&[low], &[other]))).collect()
}

/// A record of each of the few SPIs, and calls that give each.
fn ike_look_alikes() -> Vec<Case> {
    let mut cases = Vec::new();
    for there in spis::FEW_IKE {
        for given in spis::FEW_IKE {
            let mut tables = Tables::empty();
            tables.ike_mut()[1] = ike_record(1, there);
            tables.ipsec_mut()[1] = ipsec_record(1, 9, there);
            let calls = vec![
                Call::OpenIpsec(Adding { spi: NEW_IPSEC, owner: given, operator: 0 }),
                open_both(given, ipv4_pair(), NEW_IPSEC - 1),
                Call::CloseIke { spi: given, operator: 0 },
                open_both(there, ipv4_pair(), NEW_IPSEC - 2),
            ];
            cases.push(Case { tables, calls });
        }
    }
    cases
}

fn ipsec_look_alikes() -> Vec<Case> {
    contents::of_like_ipsec_spis(|there, given| {
        vec![
            open_both(NEW_IKE, ipv4_pair(), given),
            Call::CloseIpsec { spi: given, operator: 0 },
            open_both(NEW_IKE - 1, ipv4_pair(), there),
        ]
    })
}

/// From empty tables: the display of a number, as in a row of IKE_AUTH exchanges, of either operator in turn.
fn display(number: usize) -> Call {
    let mut call = open_both(spis::ike(number), contents::pair(number), spis::ipsec(number));
    *call.operator_mut() = (number % 2) as u8;
    call
}

fn adding(number: usize, owner: usize) -> Call {
    let (spi, owner) = (spis::ipsec(number), spis::ike(owner));
    Call::OpenIpsec(Adding { spi, owner, operator: 0 })
}

/// Places closed and taken again, from empty tables.
fn reused_places() -> Vec<Case> {
    let ipsec = adding;
    let calls = vec![
        display(0),
        display(1),
        display(2),
        ipsec(10, 1),
        ipsec(11, 0),
        ipsec(12, 1),
        Call::CloseIke { spi: spis::ike(1), operator: 0 },
        display(3),
        ipsec(13, 3),
        Call::CloseIpsec { spi: spis::ipsec(11), operator: 0 },
        display(1),
        ipsec(11, 2),
        ipsec(10, 0),
        display(3),
    ];
    vec![Case { tables: Tables::empty(), calls }]
}

/// Each table filled from empty, and one opening more; then a place is freed, and it is made again.
fn filled_tables() -> Vec<Case> {
    let ipsec = |number| adding(number, number % 2);
    let by_one = |number| adding(number, 0);
    let again = |freeing: Call| [display(200), freeing, display(200), display(201)];
    let ike_full = (0..=IKE_PLACES).map(display);
    let ike_full =
        ike_full.chain(again(Call::CloseIke { spi: spis::ike(9), operator: 0 })).collect();
    let list_full = [display(0), display(1)].into_iter().chain((2..=IPSEC_PLACES).map(ipsec));
    let list_full =
        list_full.chain(again(Call::CloseIpsec { spi: spis::ipsec(9), operator: 0 })).collect();
    let all_by_one = [display(0), display(1)].into_iter().chain((2..=IPSEC_PLACES).map(by_one));
    let all_by_one =
        all_by_one.chain(again(Call::CloseIke { spi: spis::ike(0), operator: 0 })).collect();
    [ike_full, list_full, all_by_one].map(|calls| Case { tables: Tables::empty(), calls }).to_vec()
}
