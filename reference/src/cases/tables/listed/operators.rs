// Two operators in one table: whose records a call finds, what counts to a share, which SPIs are in use, and whose
// policy is set; with twins of both, orphans, and octets that are neither's.
use super::super::super::operators::{divide, OCTETS};
use super::super::{spis, Case};
use super::contents::{self, ike_record, ipv4_pair, open_both, NEW_IKE, NEW_IPSEC};
use crate::calls::Call;
use crate::opening::Adding;
use crate::policy::{Rule, RuleList, RULE_PLACES};
use crate::tables::{Tables, IKE_PLACES, IPSEC_PLACES};

pub fn all() -> Vec<Case> {
    [
        octets(),
        ike_shares(),
        ipsec_shares(),
        twins_and_frees(),
        ike_twins(),
        ipsec_twins(),
        orphans(),
        orphans_of_the_new(),
        in_use_by_the_other(),
        full_by_both(),
        reached_shares(),
        policies(),
    ]
    .concat()
}

fn open(spi: u64, child: u32, operator: u8) -> Call {
    for_operator(open_both(spi, ipv4_pair(), child), operator)
}

fn for_operator(mut call: Call, operator: u8) -> Call {
    *call.operator_mut() = operator;
    call
}

fn add(spi: u32, owner: u64, operator: u8) -> Call {
    Call::OpenIpsec(Adding { spi, owner, operator })
}

fn asking(operator: u8) -> Call {
    Call::Acceptable { pair: ipv4_pair(), operator }
}

/// Every call that means the record of a place, or opens another.
fn each_call(place: usize, operator: u8) -> Vec<Call> {
    let (spi, ipsec) = (spis::ike(place), spis::ipsec(place));
    vec![
        open(NEW_IKE, NEW_IPSEC, operator),
        open(spi, NEW_IPSEC, operator),
        open(NEW_IKE, ipsec, operator),
        add(NEW_IPSEC, spi, operator),
        add(ipsec, spi, operator),
        Call::CloseIpsec { spi: ipsec, operator },
        Call::MarkDeletion { spi, operator },
        Call::CloseIke { spi, operator },
    ]
}

fn alone(tables: &Tables, calls: Vec<Call>) -> Vec<Case> {
    calls.into_iter().map(|call| Case { tables: tables.clone(), calls: vec![call] }).collect()
}

/// Each octet that a call may give and that a record may have; calls that fail another check of 1, or 4, 11 or 10 too.
fn octets() -> Vec<Case> {
    let with = |its: u8| {
        let mut tables = contents::with_free(&[3, 8], &[7, 40]);
        (tables.ike_mut()[9].agreed.operator, tables.ike_mut()[9].deleting) = (its, 0);
        tables
    };
    let mut cases = Vec::new();
    for octet in 0..=255 {
        cases.push(Case { tables: with(0), calls: each_call(9, octet) });
        let closed = [0, 1].map(|operator| Call::CloseIke { spi: spis::ike(9), operator });
        let own = Call::CloseIpsec { spi: spis::ipsec(9), operator: octet };
        cases.push(Case { tables: with(octet), calls: [&[own], &closed[..]].concat() });
        let set = [0, 1].map(|operator| setting(1, any_ipv4(), operator));
        cases.push(Case { tables: Tables::empty(), calls: [&set[..], &[asking(octet)]].concat() });
    }
    for its in OCTETS {
        for operator in OCTETS {
            cases.extend(alone(&with(its), each_call(9, operator)));
            cases.push(Case { tables: with(its), calls: each_call(9, operator) });
        }
    }
    for operator in OCTETS {
        let zero = vec![
            open(0, NEW_IPSEC, operator),
            add(0, spis::ike(9), operator),
            add(NEW_IPSEC, 0, operator),
            add(NEW_IPSEC, NEW_IKE, operator),
            Call::CloseIke { spi: 0, operator },
            Call::CloseIpsec { spi: 0, operator },
            Call::MarkDeletion { spi: 0, operator },
            Call::CloseIke { spi: NEW_IKE, operator },
        ];
        cases.extend(alone(&with(0), zero));
        let full = contents::full();
        cases.extend(alone(&full, each_call(9, operator)));
        cases.extend(alone(&full.with_ipsec_length(127), each_call(9, operator)));
    }
    cases
}

/// The first so many places in use are A's and the next B's, with each way that the rest is free; openings of either,
/// up to the share and past it.
fn ike_shares() -> Vec<Case> {
    let mut cases = Vec::new();
    for of_a in (0..=2).chain(11..=13).chain(18..=22).chain([31, 32]) {
        for of_b in [0, 1, 11, 12, 20] {
            if of_a + of_b > IKE_PLACES {
                continue;
            }
            let free: Vec<usize> = (of_a + of_b..IKE_PLACES).collect();
            let mut tables = contents::with_free(&free, &[]);
            divide(tables.ike_mut(), of_a);
            tables.ipsec_mut()[30..].iter_mut().for_each(|record| record.spi = 0);
            for operator in [0, 1] {
                let openings = (0..3)
                    .map(|number| open(NEW_IKE - u64::from(number), NEW_IPSEC - number, operator));
                cases.push(Case { tables: tables.clone(), calls: openings.collect() });
                cases.extend(alone(&tables, vec![open(spis::ike(0), NEW_IPSEC, operator)]));
                cases.extend(alone(&tables, vec![open(NEW_IKE, spis::ipsec(3), operator)]));
            }
        }
    }
    cases
}

/// An IKE record of each operator; the first so many IPsec places in use are A's, and the next B's.
fn ipsec_shares() -> Vec<Case> {
    let mut cases = Vec::new();
    for of_a in (0..=1).chain(47..=49).chain(78..=82).chain([127, 128]) {
        for of_b in [0, 1, 47, 48, 80] {
            if of_a + of_b > IPSEC_PLACES {
                continue;
            }
            let mut tables = contents::full();
            tables.ike_mut()[4..].iter_mut().for_each(|record| record.spi = 0);
            // A's are in places 1 and 3, B's in 0 and 2.
            let owner = |place: usize| {
                let by_a = place < of_a;
                spis::ike(2 * (place % 2) + usize::from(by_a))
            };
            for (place, record) in tables.ipsec_mut().iter_mut().enumerate() {
                record.owner = owner(place);
                if place >= of_a + of_b {
                    record.spi = 0;
                }
            }
            for (operator, own) in [(0, spis::ike(1)), (1, spis::ike(2))] {
                let adding = (0..3).map(|number| add(NEW_IPSEC - number, own, operator));
                cases.push(Case { tables: tables.clone(), calls: adding.collect() });
                let single = vec![
                    open(NEW_IKE, NEW_IPSEC, operator),
                    add(spis::ipsec(0), own, operator),
                    add(NEW_IPSEC, NEW_IKE, operator),
                    add(NEW_IPSEC, spis::ike(usize::from(operator)), operator),
                    open(spis::ike(0), NEW_IPSEC, operator),
                ];
                cases.extend(alone(&tables, single));
            }
        }
    }
    cases
}

/// Records at a share that are twins of one another, and free places, or such as are neither's, that still name A.
fn twins_and_frees() -> Vec<Case> {
    let mut cases = Vec::new();
    for count in 18..=22 {
        let mut tables = contents::full();
        divide(tables.ike_mut(), IKE_PLACES);
        for (place, record) in tables.ike_mut().iter_mut().enumerate() {
            if place >= count {
                record.spi = 0;
            }
        }
        tables.ipsec_mut()[100..].iter_mut().for_each(|record| record.spi = 0);
        let mut twins = tables.clone();
        twins.ike_mut()[10..16].iter_mut().for_each(|record| record.spi = spis::ike(10));
        let mut of_neither = tables.clone();
        for (number, record) in of_neither.ike_mut()[..4].iter_mut().enumerate() {
            record.agreed.operator = 2 * number as u8 + 2;
        }
        for tables in [tables, twins, of_neither] {
            for operator in [0, 1] {
                let calls = (0..4)
                    .map(|number| open(NEW_IKE - u64::from(number), NEW_IPSEC - number, operator));
                cases.push(Case { tables: tables.clone(), calls: calls.collect() });
            }
        }
    }
    for count in 78..=82 {
        let mut tables = contents::full();
        for (place, record) in tables.ipsec_mut().iter_mut().enumerate() {
            record.owner = spis::ike(1);
            if place >= count {
                record.spi = 0;
            }
        }
        let mut twins = tables.clone();
        twins.ipsec_mut()[20..40].iter_mut().for_each(|record| record.spi = spis::ipsec(20));
        let mut of_neither = tables.clone();
        of_neither.ike_mut()[1].agreed.operator = 3;
        for tables in [tables, twins, of_neither] {
            for (operator, owner) in [(0, 3), (0, 5), (1, 2), (1, 1)] {
                let owner = spis::ike(owner);
                let calls = (0..3).map(|number| add(NEW_IPSEC - number, owner, operator));
                cases.push(Case { tables: tables.clone(), calls: calls.collect() });
            }
        }
    }
    cases
}

/// Two records of one SPI, of either operator or of neither, asked for by each: the lower is meant. What they own is
/// the lower one's.
fn ike_twins() -> Vec<Case> {
    let mut cases = Vec::new();
    for (low, high) in [(0, 1), (0, 31), (5, 9), (30, 31)] {
        for of_low in [0, 1, 2] {
            for of_high in [0, 1, 2] {
                let mut tables = contents::with_free_ipsec(&[77, 78]);
                let spi = spis::ike(low);
                let records = tables.ike_mut();
                records[high].spi = spi;
                (records[low].agreed.operator, records[high].agreed.operator) = (of_low, of_high);
                (records[low].deleting, records[high].deleting) = (0, 0);
                for operator in [0, 1] {
                    let own = vec![
                        Call::MarkDeletion { spi, operator },
                        add(NEW_IPSEC, spi, operator),
                        Call::CloseIpsec { spi: spis::ipsec(low), operator },
                        Call::CloseIke { spi, operator },
                        add(NEW_IPSEC - 1, spi, operator),
                        Call::CloseIke { spi, operator },
                    ];
                    cases.extend(alone(&tables, own[..4].to_vec()));
                    cases.push(Case { tables: tables.clone(), calls: own });
                }
            }
        }
    }
    cases
}

/// Two IPsec records of one SPI, of A, of B, of neither and of nobody, closed by each.
fn ipsec_twins() -> Vec<Case> {
    // An owner of A, of B, of neither, and none.
    let owners = [spis::ike(3), spis::ike(4), spis::ike(6), NEW_IKE];
    let mut cases = Vec::new();
    for (low, high) in [(0, 1), (0, 127), (63, 64), (126, 127)] {
        for first in owners {
            for second in owners {
                let mut tables = contents::full();
                tables.ike_mut()[6].agreed.operator = 2;
                let spi = spis::ipsec(low);
                (tables.ipsec_mut()[low].owner, tables.ipsec_mut()[high].owner) = (first, second);
                tables.ipsec_mut()[high].spi = spi;
                for operators in [[0, 1, 0, 1], [1, 0, 0, 1], [2, 0, 1, 1], [0, 0, 1, 1]] {
                    let calls = operators.map(|operator| Call::CloseIpsec { spi, operator });
                    cases.push(Case { tables: tables.clone(), calls: calls.to_vec() });
                }
            }
        }
    }
    cases
}

/// IPsec records without an owner, so many that they would fill a share: they count for nobody, but fill places and
/// hold their SPIs, and nobody closes one.
fn orphans() -> Vec<Case> {
    let mut cases = Vec::new();
    for count in [0, 1, 79, 80, 81, 127, 128] {
        for others in [0, 1, 79, 80] {
            if count + others > IPSEC_PLACES {
                continue;
            }
            let mut tables = contents::full();
            tables.ike_mut()[10..].iter_mut().for_each(|record| record.spi = 0);
            for (place, record) in tables.ipsec_mut().iter_mut().enumerate() {
                record.owner = if place < count { NEW_IKE - 7 } else { spis::ike(1) };
                if place >= count + others {
                    record.spi = 0;
                }
            }
            for operator in [0, 1] {
                let owner = spis::ike(usize::from(operator == 0));
                cases.extend(alone(
                    &tables,
                    vec![
                        open(NEW_IKE, NEW_IPSEC, operator),
                        open(NEW_IKE, spis::ipsec(0), operator),
                        add(NEW_IPSEC, owner, operator),
                        add(spis::ipsec(0), owner, operator),
                        add(NEW_IPSEC, NEW_IKE - 7, operator),
                        Call::CloseIpsec { spi: spis::ipsec(0), operator },
                        Call::CloseIke { spi: NEW_IKE - 7, operator },
                    ],
                ));
            }
        }
    }
    cases
}

/// IPsec records that name the SPI that is opened: they are not yet the operator's when its share is counted, but then
/// they are, whosever record it is.
fn orphans_of_the_new() -> Vec<Case> {
    let mut cases = Vec::new();
    for count in [1, 40, 79, 80, 81, 127] {
        for own in [0, 1, 39, 40, 79, 80] {
            if count + own >= IPSEC_PLACES {
                continue;
            }
            let mut tables = contents::full();
            tables.ike_mut()[10..].iter_mut().for_each(|record| record.spi = 0);
            for (place, record) in tables.ipsec_mut().iter_mut().enumerate() {
                record.owner = if place < count { NEW_IKE } else { spis::ike(1) };
                if place >= count + own {
                    record.spi = 0;
                }
            }
            for operator in [0, 1] {
                let calls = vec![
                    open(NEW_IKE, NEW_IPSEC, operator),
                    add(NEW_IPSEC - 1, spis::ike(1), 0),
                    Call::CloseIpsec { spi: spis::ipsec(0), operator: 1 - operator },
                    Call::CloseIpsec { spi: spis::ipsec(0), operator },
                    Call::CloseIke { spi: NEW_IKE, operator },
                    open(NEW_IKE, NEW_IPSEC, 1 - operator),
                ];
                cases.push(Case { tables: tables.clone(), calls });
            }
        }
    }
    cases
}

/// An SPI that a record of either operator, of neither or of nobody has, given by each.
fn in_use_by_the_other() -> Vec<Case> {
    let mut cases = Vec::new();
    for its in OCTETS {
        let mut tables = Tables::empty();
        tables.ike_mut()[3] = ike_record(3, spis::ike(3));
        tables.ike_mut()[4] = ike_record(4, spis::ike(4));
        tables.ike_mut()[5] = ike_record(5, spis::ike(5));
        tables.ike_mut()[3].agreed.operator = its;
        tables.ipsec_mut()[0] = contents::ipsec_record(0, 7, spis::ike(3));
        tables.ipsec_mut()[1] = contents::ipsec_record(1, 8, NEW_IKE - 9);
        for operator in [0, 1] {
            let own = spis::ike(if operator == 0 { 5 } else { 4 });
            cases.extend(alone(
                &tables,
                vec![
                    open(spis::ike(3), NEW_IPSEC, operator),
                    open(NEW_IKE, 7, operator),
                    open(NEW_IKE, 8, operator),
                    add(7, own, operator),
                    add(8, own, operator),
                    add(9, own, operator),
                    add(9, spis::ike(3), operator),
                ],
            ));
        }
    }
    cases
}

/// Both tables full by both operators, as many as each may have of the rest: 10 comes to the one that isn't at its
/// share, and 43 to the other; then a place is freed by the other.
fn full_by_both() -> Vec<Case> {
    let mut cases = Vec::new();
    for of_a in [12, 13, 19, 20] {
        for ipsec_of_a in [48, 49, 79, 80] {
            let mut tables = contents::full();
            divide(tables.ike_mut(), of_a);
            for (place, record) in tables.ipsec_mut().iter_mut().enumerate() {
                record.owner = spis::ike(if place < ipsec_of_a { 3 } else { 31 });
            }
            let mut ike_free = tables.clone();
            ike_free.ike_mut()[10].spi = 0;
            for tables in [tables, ike_free] {
                for operator in [0, 1] {
                    let other = 1 - operator;
                    let own = spis::ike(if operator == 0 { 3 } else { 31 });
                    let freed = if operator == 0 { 127 } else { 0 };
                    let calls = vec![
                        open(NEW_IKE, NEW_IPSEC, operator),
                        add(NEW_IPSEC, own, operator),
                        Call::CloseIpsec { spi: spis::ipsec(freed), operator },
                        Call::CloseIpsec { spi: spis::ipsec(freed), operator: other },
                        add(NEW_IPSEC, own, operator),
                        add(NEW_IPSEC, own, other),
                        open(NEW_IKE, NEW_IPSEC - 1, operator),
                    ];
                    cases.push(Case { tables: tables.clone(), calls });
                }
            }
        }
    }
    cases
}

/// From empty tables: one operator's openings up to its shares and past them, the other's up to the end of the places,
/// and both again after a closing.
fn reached_shares() -> Vec<Case> {
    let number = |of: usize, operator: u8| 2 * of + usize::from(operator);
    let opening = |of: usize, operator: u8| {
        let number = number(of, operator);
        open(spis::ike(number), spis::ipsec(number), operator)
    };
    let adding = |of: usize, operator: u8| {
        add(spis::ipsec(number(of, operator)), spis::ike(number(0, operator)), operator)
    };
    let mut cases = Vec::new();
    for first in [0, 1] {
        let second = 1 - first;
        let mut calls: Vec<Call> = (0..=20).map(|of| opening(of, first)).collect();
        calls.extend((0..=12).map(|of| opening(of, second)));
        calls.push(Call::CloseIke { spi: spis::ike(number(3, first)), operator: first });
        calls.extend([opening(21, first), opening(22, second), opening(23, first)]);
        cases.push(Case { tables: Tables::empty(), calls });
        let mut calls = vec![opening(0, first), opening(0, second)];
        calls.extend((1..=81).map(|of| adding(of, first)));
        calls.extend((1..=48).map(|of| adding(of, second)));
        let spi = spis::ipsec(number(7, second));
        calls.push(Call::CloseIpsec { spi, operator: first });
        calls.push(Call::CloseIpsec { spi, operator: second });
        calls.extend([opening(90, first), opening(91, second), adding(92, second)]);
        calls.push(Call::CloseIke { spi: spis::ike(number(0, first)), operator: first });
        calls.extend([opening(93, first), adding(94, second)]);
        cases.push(Case { tables: Tables::empty(), calls });
    }
    cases
}

/// Rules that match every IPv4 pair.
fn any_ipv4() -> RuleList {
    RuleList { rules: [Rule { family: 4, ..Rule::ZERO }; RULE_PLACES] }
}

fn setting(count: u16, list: RuleList, operator: u8) -> Call {
    Call::SetPolicy { count, rules: Box::new(list), operator }
}

/// Policies set for each operator and for none, sound or flawed, with any count; then both are asked, and for none.
fn policies() -> Vec<Case> {
    let sound = any_ipv4();
    let (mut unsound, mut long) = (sound, sound);
    unsound.rules[0].family = 5;
    long.rules[0].source_length = 33;
    let mut cases = Vec::new();
    for operator in [0, 1, 2, 3, 128, 255] {
        for list in [sound, unsound, long] {
            for count in [0, 1, 16, 17, 65535] {
                let set = setting(count, list, operator);
                let asked = OCTETS.map(asking);
                for tables in [Tables::empty(), contents::full()] {
                    let calls = [set.clone()].into_iter().chain(asked.clone()).collect();
                    cases.push(Case { tables, calls });
                }
            }
        }
    }
    cases
}
