// Random policies and rules, sound and not, and pairs that a rule matches or misses by a bit.
use super::pairs;
use crate::address::{octet_count, AddressOctets, AddressPair};
use crate::policy::{Policy, Rule, RuleList, RULE_PLACES};
use crate::rng::Rng;

/// Prefix lengths about octets, the families' bits and the greatest number.
pub const LENGTHS: [u8; 18] =
    [0, 1, 7, 8, 9, 15, 16, 31, 32, 33, 63, 64, 65, 127, 128, 129, 254, 255];

/// Policy counts about the places, alike in their low octet, and the greatest.
pub const COUNTS: [u16; 27] = [
    0, 1, 2, 3, 4, 5, 6, 7, 8, 9, 10, 11, 12, 13, 14, 15, 16, 17, 18, 19, 20, 255, 256, 257, 272,
    32768, 65535,
];

fn rule(rng: &mut Rng) -> Rule {
    let family = pairs::family(rng);
    Rule {
        family,
        source: pairs::sound_octets(rng, family),
        destination: pairs::sound_octets(rng, family),
        source_length: allowed_length(rng, family),
        destination_length: allowed_length(rng, family),
    }
}

fn allowed_length(rng: &mut Rng, family: u8) -> u8 {
    let bits = octet_count(family).map_or(0, |octets| 8 * octets);
    let length = rng.pick(&LENGTHS);
    if usize::from(length) <= bits && rng.one_in(2) {
        length
    } else {
        rng.below(bits + 1) as u8
    }
}

fn any_rule(rng: &mut Rng) -> Rule {
    Rule {
        family: pairs::any_family(rng),
        source: pairs::octets(rng),
        destination: pairs::octets(rng),
        source_length: any_length(rng),
        destination_length: any_length(rng),
    }
}

fn any_length(rng: &mut Rng) -> u8 {
    if rng.one_in(2) {
        rng.pick(&LENGTHS)
    } else {
        rng.octet()
    }
}

/// A policy as it may have been set.
pub fn policy(rng: &mut Rng) -> Policy {
    let count = rng.below(RULE_PLACES + 1);
    let mut policy = Policy { count: count as u16, ..Policy::EMPTY };
    policy.rules[..count].fill_with(|| rule(rng));
    policy
}

/// A policy as none is set: of any count, its rules sound, of any content, or both in turn.
pub fn any_policy(rng: &mut Rng) -> Policy {
    let unsound_in = rng.pick(&[1, 2, 8]);
    let mut policy = Policy { count: rng.pick(&COUNTS), ..Policy::EMPTY };
    policy.rules.fill_with(|| if rng.one_in(unsound_in) { any_rule(rng) } else { rule(rng) });
    policy
}

/// A count and a list to set: mostly sound but for up to two rules, of any content past the count.
pub fn list_to_set(rng: &mut Rng) -> (u16, RuleList) {
    let count = if rng.one_in(4) { rng.pick(&COUNTS) } else { rng.below(RULE_PLACES + 1) as u16 };
    let mut list = RuleList { rules: [Rule::ZERO; RULE_PLACES] };
    let sound = usize::from(count).min(RULE_PLACES);
    list.rules[..sound].fill_with(|| rule(rng));
    if rng.one_in(2) {
        list.rules[sound..].fill_with(|| any_rule(rng));
    }
    for _ in 0..rng.pick(&[0, 0, 1, 2]) {
        let place = rng.below(RULE_PLACES);
        spoil(rng, &mut list.rules[place]);
    }
    (count, list)
}

fn spoil(rng: &mut Rng, rule: &mut Rule) {
    match rng.below(5) {
        0 => rule.family = pairs::any_family(rng),
        1 => rule.source[rng.between(4, 15)] = 1,
        2 => rule.destination[rng.between(4, 15)] = 128,
        3 => rule.source_length = any_length(rng),
        _ => rule.destination_length = any_length(rng),
    }
}

/// A pair made from the prefixes of one rule, or now and then of two.
pub fn pair_near(rng: &mut Rng, policy: &Policy) -> AddressPair {
    let in_force = usize::from(policy.count).clamp(1, RULE_PLACES);
    let rules = &policy.rules[..in_force];
    let first = rng.pick(rules);
    let second = if rng.one_in(4) { rng.pick(rules) } else { first };
    let other_family = pairs::any_family(rng);
    AddressPair {
        family: if rng.one_in(8) { other_family } else { first.family },
        source: address_near(rng, &first.source, first.source_length),
        destination: address_near(rng, &second.destination, second.destination_length),
        ..pairs::pair(rng)
    }
}

/// The prefix itself, with a bit changed next to the end of its length or anywhere, or all past it.
fn address_near(rng: &mut Rng, prefix: &AddressOctets, length: u8) -> AddressOctets {
    let prefix = u128::from_be_bytes(*prefix);
    let length = usize::from(length);
    let any_bit = rng.below(128);
    let near_bit = rng.between(length.saturating_sub(1), length + 1).min(127);
    let past = u128::MAX.checked_shr(length as u32).unwrap_or(0);
    let changed = match rng.below(8) {
        0..=2 => 0,
        3 => 1 << (127 - any_bit),
        4..=6 => 1 << (127 - near_bit),
        _ => past & u128::from_be_bytes(pairs::octets(rng)),
    };
    (prefix ^ changed).to_be_bytes()
}
