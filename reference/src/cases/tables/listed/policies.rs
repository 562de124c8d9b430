// Policies that are set: every count, every flaw at every place, flaws together, every length.
use super::super::rules::COUNTS;
use super::super::Case;
use super::contents;
use crate::address::AddressPair;
use crate::calls::Call;
use crate::policy::{Rule, RuleList, RULE_PLACES};

#[derive(Debug, Clone, Copy)]
enum Flaw {
    Family,
    SourceTail,
    DestinationTail,
    SourceLength,
    DestinationLength,
}

impl Flaw {
    const ALL: [Flaw; 5] = [
        Flaw::Family,
        Flaw::SourceTail,
        Flaw::DestinationTail,
        Flaw::SourceLength,
        Flaw::DestinationLength,
    ];

    fn put_into(self, rule: &mut Rule) {
        match self {
            Flaw::Family => rule.family = 5,
            Flaw::SourceTail => rule.source[4] |= 128,
            Flaw::DestinationTail => rule.destination[15] |= 1,
            Flaw::SourceLength => rule.source_length = 33,
            Flaw::DestinationLength => rule.destination_length = 255,
        }
    }
}

/// Every list is set over one that no call could have set, for either operator in turn.
pub fn all() -> Vec<Case> {
    let tables = contents::leftovers();
    [counts(), single_flaws(), two_flaws(), lengths(), families(), tails(), replaced()]
        .concat()
        .into_iter()
        .zip([0, 1].into_iter().cycle())
        .map(|(mut calls, operator)| {
            calls.iter_mut().for_each(|call| *call.operator_mut() = operator);
            Case { tables: tables.clone(), calls }
        })
        .collect()
}

/// Sound IPv4 rules with bits past their lengths, in every place.
fn sound_list() -> RuleList {
    let rule = |place: usize| {
        let (mut source, mut destination) = ([0; 16], [0; 16]);
        source[..4].copy_from_slice(&[10 + place as u8, 1, 2, 255]);
        destination[..4].copy_from_slice(&[255, 3, 4, 20 + place as u8]);
        Rule {
            family: 4,
            source,
            destination,
            source_length: place as u8,
            destination_length: 2 * place as u8 + 1,
        }
    };
    RuleList { rules: std::array::from_fn(rule) }
}

fn setting(count: u16, list: RuleList) -> Call {
    Call::SetPolicy { count, rules: Box::new(list), operator: 0 }
}

/// Every count, with sound rules in all places, and with an unsound one in the last.
fn counts() -> Vec<Vec<Call>> {
    let mut spoiled = sound_list();
    spoiled.rules[RULE_PLACES - 1].family = 0;
    let lists = [sound_list(), spoiled];
    COUNTS.iter().flat_map(|&count| lists.map(|list| vec![setting(count, list)])).collect()
}

/// Every flaw in every place, at the counts that leave it out, just take it in, and all are over.
fn single_flaws() -> Vec<Vec<Call>> {
    let mut cases = Vec::new();
    for flaw in Flaw::ALL {
        for place in 0..RULE_PLACES {
            let mut list = sound_list();
            flaw.put_into(&mut list.rules[place]);
            let counts = [place, place + 1, 16, 17].map(|count| count as u16);
            cases.extend(counts.map(|count| vec![setting(count, list)]));
        }
    }
    cases
}

/// Every two flaws in two places, either order, or in one.
fn two_flaws() -> Vec<Vec<Call>> {
    let mut cases = Vec::new();
    for one in Flaw::ALL {
        for other in Flaw::ALL {
            for (place, other_place) in [(0, 0), (0, 1), (7, 8), (0, 15), (15, 15)] {
                let mut list = sound_list();
                one.put_into(&mut list.rules[place]);
                other.put_into(&mut list.rules[other_place]);
                cases.extend([15, 16, 17].map(|count| vec![setting(count, list)]));
            }
        }
    }
    cases
}

/// Every length of both families, first as a source's, then as a destination's.
fn lengths() -> Vec<Vec<Call>> {
    let mut cases = Vec::new();
    for family in [4, 6] {
        for eight in 0..32 {
            let mut calls = Vec::new();
            for length in 8 * eight..=8 * eight + 7 {
                let mut list = sound_list();
                list.rules[0].family = family;
                let mut other = list;
                list.rules[0].source_length = length;
                other.rules[0].destination_length = length;
                calls.extend([setting(1, list), setting(1, other)]);
            }
            cases.push(calls);
        }
    }
    cases
}

/// Every family, in the only rule.
fn families() -> Vec<Vec<Call>> {
    let set = |family| {
        let mut list = sound_list();
        list.rules[0].family = family;
        setting(1, list)
    };
    (0..32).map(|eight: u8| (8 * eight..=8 * eight + 7).map(set).collect()).collect()
}

/// A bit in each octet of each prefix, as IPv4 and as IPv6, at the lengths 0 and 32.
fn tails() -> Vec<Vec<Call>> {
    let mut cases = Vec::new();
    for octet in 0..16 {
        let mut calls = Vec::new();
        for (family, length) in [(4, 0), (4, 32), (6, 0), (6, 32)] {
            let mut list = sound_list();
            let rule = &mut list.rules[1];
            (rule.family, rule.source_length, rule.destination_length) = (family, length, length);
            let mut other = list;
            list.rules[1].source[octet] ^= 0x80;
            other.rules[1].destination[octet] ^= 1;
            calls.extend([setting(2, list), setting(2, other)]);
        }
        cases.push(calls);
    }
    cases
}

/// Lists set one after another: longer, shorter, refused, empty; then what is acceptable.
fn replaced() -> Vec<Vec<Call>> {
    let rule = sound_list().rules[9];
    let pair = AddressPair {
        family: 4,
        source: rule.source,
        destination: rule.destination,
        ..AddressPair::ZERO
    };
    let acceptable = Call::Acceptable { pair, operator: 0 };
    let mut calls = Vec::new();
    for count in [16, 10, 9, 17, 12, 0, 10] {
        calls.extend([setting(count, sound_list()), acceptable.clone()]);
    }
    vec![calls]
}
