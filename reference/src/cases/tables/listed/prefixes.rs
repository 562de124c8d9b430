// What a policy accepts: every bit at every length, every count and place, families, half rules.
use super::super::rules::{COUNTS, LENGTHS};
use super::super::Case;
use crate::address::{AddressOctets, AddressPair};
use crate::calls::Call;
use crate::policy::{Policy, Rule, RULE_PLACES};
use crate::tables::Tables;

const SOURCE: AddressOctets = [32, 1, 13, 184, 1, 2, 3, 4, 5, 6, 7, 8, 9, 10, 11, 12];
const DESTINATION: AddressOctets = [38, 32, 0, 254, 255, 0, 170, 85, 1, 128, 2, 64, 4, 32, 8, 16];

/// Families for rules and pairs: the allowed ones and others.
const FAMILIES: [u8; 5] = [0, 4, 5, 6, 255];

/// A policy, and the calls that ask it.
type Asked = (Policy, Vec<Call>);

pub fn all() -> Vec<Case> {
    let empty = Tables::empty();
    [bits(), two_lengths(), counts_and_places(), families(), two_rules()]
        .concat()
        .into_iter()
        .zip([0, 1].into_iter().cycle())
        .map(|((policy, mut calls), operator)| {
            let mut tables = empty.clone();
            tables.policies[usize::from(operator)] = policy;
            calls.iter_mut().for_each(|call| *call.operator_mut() = operator);
            Case { tables, calls }
        })
        .collect()
}

fn rule(family: u8, source_length: u8, destination_length: u8) -> Rule {
    let (source, destination) = (SOURCE, DESTINATION);
    Rule { family, source, destination, source_length, destination_length }
}

/// The pair that is the rules' prefixes, with these bits changed in its addresses.
fn pair(family: u8, in_source: u128, in_destination: u128) -> AddressPair {
    let changed = |octets, bits: u128| (u128::from_be_bytes(octets) ^ bits).to_be_bytes();
    AddressPair {
        family,
        source: changed(SOURCE, in_source),
        destination: changed(DESTINATION, in_destination),
        source_port: 4500,
        destination_port: 4500,
    }
}

fn acceptable(pair: AddressPair) -> Call {
    Call::Acceptable { pair, operator: 0 }
}

/// Only this rule is in force, and it stands first.
fn single(rule: Rule) -> Policy {
    let mut policy = Policy { count: 1, ..Policy::EMPTY };
    policy.rules[0] = rule;
    policy
}

/// Bit 0 is the first of an address.
fn bit(place: u32) -> u128 {
    1 << (127 - place)
}

/// Every bit of each address changed alone, at every length; eight to a case.
fn bits() -> Vec<Asked> {
    let mut cases = Vec::new();
    for family in [4, 6] {
        for length in LENGTHS {
            for octet in 0..16 {
                let places = 8 * octet..8 * octet + 8;
                let in_source = places.clone().map(|place| acceptable(pair(family, bit(place), 0)));
                let in_destination = places.map(|place| acceptable(pair(family, 0, bit(place))));
                cases.push((single(rule(family, length, 0)), in_source.collect()));
                cases.push((single(rule(family, 0, length)), in_destination.collect()));
            }
        }
    }
    cases
}

/// Every two lengths: the prefixes themselves, and each address wrong at the end of its length.
fn two_lengths() -> Vec<Asked> {
    let last_bit = |length: u8| bit(u32::from(length.clamp(1, 128)) - 1);
    let mut cases = Vec::new();
    for family in [4, 6] {
        for first in LENGTHS {
            for second in LENGTHS {
                let pairs = [
                    pair(family, 0, 0),
                    pair(family, last_bit(first), 0),
                    pair(family, 0, last_bit(second)),
                ];
                let calls = pairs.map(acceptable).to_vec();
                cases.push((single(rule(family, first, second)), calls));
            }
        }
    }
    cases
}

/// Every count, and the only rule that matches in every place, the others missing it by a bit.
fn counts_and_places() -> Vec<Asked> {
    let mut missing = rule(6, 128, 128);
    missing.destination[15] ^= 1;
    let mut cases = Vec::new();
    for count in COUNTS {
        for place in 0..RULE_PLACES {
            let mut policy = Policy { count, rules: [missing; RULE_PLACES] };
            policy.rules[place] = rule(6, 128, 128);
            cases.push((policy, vec![acceptable(pair(6, 0, 0))]));
        }
    }
    cases
}

/// Rules of every family that match all, or have a length not allowed, and pairs of every family.
fn families() -> Vec<Asked> {
    let calls: Vec<Call> = FAMILIES.iter().map(|&family| acceptable(pair(family, 0, 0))).collect();
    let mut cases = Vec::new();
    for family in FAMILIES {
        for length in LENGTHS {
            for rule in [rule(family, length, 0), rule(family, 0, length)] {
                cases.push((single(rule), calls.clone()));
            }
        }
    }
    cases
}

/// Two rules, each of which matches the source, the destination, both or neither.
fn two_rules() -> Vec<Asked> {
    let with_misses = |in_source: bool, in_destination: bool| {
        let mut rule = rule(6, 64, 64);
        rule.source[7] ^= u8::from(in_source);
        rule.destination[0] ^= u8::from(in_destination) << 7;
        rule
    };
    let rules = [(false, false), (false, true), (true, false), (true, true)]
        .map(|(in_source, in_destination)| with_misses(in_source, in_destination));
    let swapped = AddressPair { source: DESTINATION, destination: SOURCE, ..pair(6, 0, 0) };
    let mut cases = Vec::new();
    for first in rules {
        for second in rules {
            let mut policy = Policy { count: 2, ..Policy::EMPTY };
            policy.rules[..2].copy_from_slice(&[first, second]);
            let calls = [pair(6, 0, 0), swapped, pair(4, 0, 0)].map(acceptable).to_vec();
            cases.push((policy, calls));
        }
    }
    cases
}
