// The check responses every run begins with: each check, cookie, ID, outcome, record and list.
use super::super::operators::{of_ike, MORE_OCTETS, OCTETS};
use super::super::reader::draft::{sequences, ChainDraft, Draft};
use super::super::reader::{self, listed as chains};
use super::super::requests::listed::setting::{self, unknown, unknown_critical};
use super::super::tables::agreements::YES;
use super::super::tables::listed::contents;
use super::super::tables::{lengths, spis};
use super::Case;
use crate::check::CheckResponse;
use crate::notify::NotifyType;
use crate::pending::PendingCheck;
use crate::reader::MAX_BODY;
use crate::tables::{IkeRecord, Tables, IKE_PLACES, IPSEC_PLACES};

pub fn all() -> Vec<Case> {
    let mut cases = [
        together(),
        kept_lengths(),
        cookies(),
        ids(),
        errors(),
        each_outcome_on(&agreements()),
        each_outcome_on(&list_lengths()),
        ike_places(),
        each_outcome_on(&ipsec_places()),
        each_outcome_on(&twins()),
        alike(),
        each_outcome_on(&pairs_and_free_places()),
        each_outcome_on(&tallies()),
        bodies(),
    ]
    .concat();
    for Case { tables, response } in &mut cases {
        response.operator = of_ike(tables, response.spi).unwrap_or(0);
    }
    [operators(), cases].concat()
}

/// The ID of our request.
const ID: u32 = 77;

/// Tables in which no field is 0; the record that is meant has a check pending, with octets past its cookie.
fn tables() -> Tables {
    setting::tables_with(|record| record.check.id = ID)
}

fn tables_with(change: impl Fn(&mut IkeRecord)) -> Tables {
    let mut tables = tables();
    change(&mut tables.ike_mut()[setting::PLACE]);
    tables
}

/// The cookie of that check.
fn sent() -> Vec<u8> {
    let check = tables().ike.records[setting::PLACE].check;
    check.cookie().unwrap_or_default().to_vec()
}

fn cookie(octets: &[u8]) -> Draft {
    Draft::notify(NotifyType::COOKIE2, octets)
}

fn notify(notify_type: u16) -> Draft {
    Draft::notify(NotifyType(notify_type), &[])
}

fn response(payloads: &[Draft]) -> CheckResponse {
    let chain = ChainDraft::of(payloads.to_vec()).assemble();
    let (first, body) = (chain.first, chain.body);
    CheckResponse { spi: setting::spi(), id: ID, first, body, operator: 0 }
}

/// Accepted, close by another cookie and by none, each sort of error, 62, 7 and 14; all with something to tally.
fn each_outcome() -> Vec<CheckResponse> {
    let other: Vec<u8> = sent().iter().map(|octet| !octet).collect();
    let right = || cookie(&sent());
    let accepted = response(&[unknown(), right(), unknown(), notify(16403)]);
    vec![
        accepted.clone(),
        response(&[unknown(), cookie(&other)]),
        response(&[unknown()]),
        response(&[]),
        response(&[unknown(), notify(41)]),
        response(&[notify(40), right(), unknown()]),
        response(&[right(), notify(7), unknown()]),
        response(&[notify(41), cookie(&other)]),
        response(&[right(), Draft::payload(41, 0, vec![])]),
        response(&[right(), unknown_critical()]),
        CheckResponse { id: ID + 1, ..accepted },
    ]
}

fn each_outcome_on(tables: &[Tables]) -> Vec<Case> {
    let on = |tables: &Tables| {
        let tables = tables.clone();
        each_outcome().into_iter().map(move |response| Case { tables: tables.clone(), response })
    };
    tables.iter().flat_map(on).collect()
}

/// Octets that a call may give and that its record may have; with some, every outcome, a body too long and a list of
/// another length; and two records of the SPI, each of either operator or of neither.
fn operators() -> Vec<Case> {
    let mut cases = Vec::new();
    for octet in MORE_OCTETS {
        for (its, operator) in [(0, octet), (octet, octet), (octet, 1)] {
            let tables = tables_with(|record| record.agreed.operator = its);
            let response = CheckResponse { operator, ..response(&[cookie(&sent())]) };
            cases.push(Case { tables, response });
        }
    }
    for its in OCTETS {
        for operator in OCTETS {
            let tables = tables_with(|record| record.agreed.operator = its);
            let too_long = CheckResponse { body: vec![0; MAX_BODY + 1], ..response(&[]) };
            for response in each_outcome().into_iter().chain([too_long]) {
                let response = CheckResponse { operator, ..response };
                let short = tables.with_ipsec_length(127);
                cases.push(Case { tables: tables.clone(), response: response.clone() });
                cases.push(Case { tables: short, response });
            }
            for twin in [0, 20] {
                let mut tables = tables.clone();
                let meant = tables.ike.records[setting::PLACE];
                let record = &mut tables.ike_mut()[twin];
                (record.spi, record.check, record.agreed.mobike) = (meant.spi, meant.check, 1);
                for of_twin in [0, 1, 2] {
                    tables.ike_mut()[twin].agreed.operator = of_twin;
                    let outcomes = each_outcome().into_iter().step_by(3);
                    cases.extend(outcomes.map(|response| Case {
                        tables: tables.clone(),
                        response: CheckResponse { operator, ..response },
                    }));
                }
            }
        }
    }
    cases
}

/// Every way to pass or fail each check with every one of the others.
fn together() -> Vec<Case> {
    let absent = spis::ike(IKE_PLACES);
    let mut cases = Vec::new();
    for list in [128, 0, 127, 129, 300] {
        for agreed in [1, 0] {
            for pending in [Some(9), Some(0), Some(7), Some(65), None] {
                let tables = tables_with(|record| {
                    record.agreed.mobike = agreed;
                    record.check.length = pending.unwrap_or(9);
                    record.check.id = if pending.is_some() { ID } else { ID - 1 };
                });
                let tables = tables.with_ipsec_length(list);
                for spi in [setting::spi(), 0, absent] {
                    for response in together_chains() {
                        let response = CheckResponse { spi, ..response };
                        cases.push(Case { tables: tables.clone(), response });
                    }
                }
            }
        }
    }
    cases
}

/// Accepted, too long, with 62 and with 7.
fn together_chains() -> [CheckResponse; 4] {
    let accepted = response(&[cookie(&sent()), unknown()]);
    let too_long = CheckResponse { body: vec![0; MAX_BODY + 1], ..accepted.clone() };
    let notify = response(&[cookie(&sent()), Draft::payload(41, 0, vec![])]);
    [accepted, too_long, notify, response(&[unknown_critical(), cookie(&sent())])]
}

/// Every length of a kept cookie, with as many of its octets in the response as a cookie may have, one more and one
/// fewer, with none, and with an error.
fn kept_lengths() -> Vec<Case> {
    let octets = tables().ike.records[setting::PLACE].check.octets;
    let mut cases = Vec::new();
    for length in 0..=255 {
        for past in [true, false] {
            let there = usize::from(length).min(64);
            let tables = tables_with(|record| {
                record.check.length = length;
                if !past {
                    record.check.octets[there..].fill(0);
                }
            });
            let about = [there, there + 1, there.saturating_sub(1)];
            let sizes = about.into_iter().filter(|size| (8..=64).contains(size));
            let mut responses: Vec<CheckResponse> =
                sizes.map(|size| response(&[cookie(&octets[..size])])).collect();
            responses.extend([response(&[]), response(&[notify(41)])]);
            let case = |response| Case { tables: tables.clone(), response };
            cases.extend(responses.into_iter().map(case));
        }
    }
    cases
}

/// Cookies of each allowed length, each octet of it changed, and those that are longer or shorter.
fn cookies() -> Vec<Case> {
    let octets = tables().ike.records[setting::PLACE].check.octets;
    let mut cases = Vec::new();
    for length in [8, 9, 32, 63, 64] {
        let tables = tables_with(|record| record.check.length = length);
        let sent = &octets[..usize::from(length)];
        let changed = (0..sent.len()).map(|place| {
            let mut octets = sent.to_vec();
            octets[place] ^= 1 << (place % 8);
            octets
        });
        let sizes = (8..=64).map(|size| octets[..size].to_vec());
        let all = changed.chain(sizes).map(|octets| response(&[cookie(&octets)]));
        cases.extend(all.map(|response| Case { tables: tables.clone(), response }));
    }
    cases
}

/// IDs about each other and about the bounds, of a check that is pending and of none.
fn ids() -> Vec<Case> {
    let ids = [0, 1, ID - 1, ID, ID + 1, ID + 256, ID + (1 << 16), 1 << 31, u32::MAX - 1, u32::MAX];
    let mut cases = Vec::new();
    for kept in ids {
        for given in ids {
            for length in [9, 0] {
                let tables = tables_with(|record| {
                    (record.check.id, record.check.length) = (kept, length);
                });
                let response = CheckResponse { id: given, ..response(&[cookie(&sent())]) };
                cases.push(Case { tables, response });
            }
            let none = tables_with(|record| {
                record.check = PendingCheck { id: kept, ..PendingCheck::NONE };
            });
            let response = CheckResponse { id: given, ..response(&[]) };
            cases.push(Case { tables: none, response });
        }
    }
    cases
}

/// Up to two notifications in every order, with the cookie before them, behind them, another one, or none.
fn errors() -> Vec<Case> {
    let other: Vec<u8> = sent().iter().rev().copied().collect();
    let mut cases = Vec::new();
    let types = [40, 41, 7, 1, 0, 16_383, 16_384, 16_403].map(notify);
    for errors in sequences(&types, 2) {
        let chains = [
            errors.clone(),
            [&[cookie(&sent())], &errors[..]].concat(),
            [&errors[..], &[cookie(&sent())]].concat(),
            [&errors[..], &[cookie(&other)]].concat(),
        ];
        let case = |payloads: Vec<Draft>| Case { tables: tables(), response: response(&payloads) };
        cases.extend(chains.map(case));
    }
    cases
}

/// Each octet of what is agreed that matters.
fn agreements() -> Vec<Tables> {
    let with = |octet| tables_with(|record| record.agreed.mobike = octet);
    YES.into_iter().chain([0]).map(with).collect()
}

/// IPsec lists of each length that matters.
fn list_lengths() -> Vec<Tables> {
    let all = lengths::LISTED.into_iter().chain([lengths::LONGEST]);
    all.map(|length| tables().with_ipsec_length(length)).collect()
}

/// Each IKE place, with the outcomes that its own check gives.
fn ike_places() -> Vec<Case> {
    let mut cases = Vec::new();
    for place in 0..IKE_PLACES {
        let tables = tables();
        let check = tables.ike.records[place].check;
        let own = check.cookie().unwrap_or_default();
        let chains = [&[cookie(own)][..], &[cookie(&[1; 8])], &[notify(40)], &[]];
        for payloads in chains {
            let response =
                CheckResponse { spi: spis::ike(place), id: check.id, ..response(payloads) };
            cases.push(Case { tables: tables.clone(), response });
        }
    }
    cases
}

/// One IPsec record alone has the owner, all have, or none has.
fn ipsec_places() -> Vec<Tables> {
    let with = |owned: &dyn Fn(usize) -> bool| {
        let mut tables = tables();
        for (place, record) in tables.ipsec_mut().iter_mut().enumerate() {
            record.owner = if owned(place) { setting::spi() } else { spis::ike(0) };
        }
        tables
    };
    let single = (0..IPSEC_PLACES).step_by(9).chain([1, 126, 127]);
    let single = single.map(|place| with(&|other_place| other_place == place));
    single.chain([with(&|_| true), with(&|_| false)]).collect()
}

/// Two IKE records of the SPI, of which the lower is meant; the upper has the check, the lower, or both have.
fn twins() -> Vec<Tables> {
    let mut all = Vec::new();
    for twin in [0, 2, 31] {
        for (has_low, has_high) in [(true, true), (true, false), (false, true)] {
            let mut tables = tables();
            let check = tables.ike.records[setting::PLACE].check;
            let records = tables.ike_mut();
            records[twin].spi = setting::spi();
            let (low, high) = (twin.min(setting::PLACE), twin.max(setting::PLACE));
            records[low].check = if has_low { check } else { PendingCheck::NONE };
            records[high].check = if has_high { check } else { PendingCheck::NONE };
            all.push(tables);
        }
    }
    all
}

/// SPIs and owners that are alike in one half of their bits, asked for alone and with others.
fn alike() -> Vec<Case> {
    let mut cases = Vec::new();
    for there in spis::FEW_IKE {
        for asked in spis::FEW_IKE.into_iter().chain([0]) {
            let mut tables = tables();
            let check = tables.ike.records[setting::PLACE].check;
            for (place, record) in tables.ike_mut().iter_mut().enumerate() {
                (record.spi, record.check) = (if place == 9 { there } else { 0 }, check);
            }
            let owners = tables.ipsec_mut().iter_mut().enumerate();
            owners.for_each(|(place, record)| record.owner = spis::FEW_IKE[place % 8]);
            for payloads in [&[cookie(&sent())][..], &[]] {
                let response = CheckResponse { spi: asked, ..response(payloads) };
                cases.push(Case { tables: tables.clone(), response });
            }
        }
    }
    cases
}

/// All records behind one pair; the record's own pair elsewhere; and free places that name the owner.
fn pairs_and_free_places() -> Vec<Tables> {
    let mut shared = tables();
    shared.ike_mut().iter_mut().for_each(|record| record.pair = contents::pair(0));
    shared.ipsec_mut().iter_mut().for_each(|record| record.pair = contents::pair(0));
    let mut moved = shared.clone();
    moved.ike_mut()[setting::PLACE].pair = contents::pair(99);
    let mut others = moved.clone();
    let strangers = others.ipsec_mut().iter_mut().filter(|it| it.owner != setting::spi());
    strangers.for_each(|record| record.pair = contents::pair(99));
    let mut all = vec![shared, moved, others, contents::leftovers(), Tables::empty()];
    for free_in in [1, 2, 3, 5, 127] {
        let mut tables = tables();
        for (place, record) in tables.ipsec_mut().iter_mut().enumerate() {
            record.owner = setting::spi();
            if place % free_in == 0 {
                record.spi = 0;
            }
        }
        all.push(tables.clone());
        tables.ike_mut()[setting::PLACE].spi = 0;
        all.push(tables);
    }
    all
}

/// Tallies about the greatest.
fn tallies() -> Vec<Tables> {
    let with = |unknown| tables_with(|record| record.unknown = unknown);
    [0, 1, u32::MAX - 2, u32::MAX - 1, u32::MAX].map(with).into()
}

/// The reader's listed chains as responses, to a check and to none.
fn bodies() -> Vec<Case> {
    let none = tables_with(|record| record.check = PendingCheck::NONE);
    let mut cases = Vec::new();
    for (number, reader::Case { first, body }) in chains::all().into_iter().enumerate() {
        let response = CheckResponse { first, body, ..response(&[]) };
        if number % 8 == 0 {
            cases.push(Case { tables: none.clone(), response: response.clone() });
        }
        cases.push(Case { tables: tables(), response });
    }
    cases
}
