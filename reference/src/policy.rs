// The policy and its rules as they are held, and how a new list replaces them.
use crate::address::AddressOctets;
use crate::calls::Refusal;
use crate::operator::OPERATORS;
use crate::rules::{PolicyRules, Rules, TableRules};

pub const RULE_PLACES: usize = 16;

#[repr(C)]
#[derive(Debug, Clone, Copy, PartialEq, Eq)]
pub struct Rule {
    pub family: u8,
    pub source: AddressOctets,
    pub destination: AddressOctets,
    pub source_length: u8,
    pub destination_length: u8,
}

#[repr(C)]
#[derive(Debug, Clone, Copy, PartialEq, Eq)]
pub struct RuleList {
    pub rules: [Rule; RULE_PLACES],
}

#[repr(C)]
#[derive(Debug, Clone, Copy, PartialEq, Eq)]
pub struct Policy {
    pub count: u16,
    pub rules: [Rule; RULE_PLACES],
}

impl Rule {
    pub const ZERO: Self = Rule {
        family: 0,
        source: [0; 16],
        destination: [0; 16],
        source_length: 0,
        destination_length: 0,
    };
}

impl Policy {
    pub const EMPTY: Self = Policy { count: 0, rules: [Rule::ZERO; RULE_PLACES] };
}

/// Replaces the whole list of the operator that is named, unless it is refused.
pub fn set(
    policies: &mut [Policy; OPERATORS],
    (count, list): (u16, &RuleList),
    operator: u8,
    rules: &impl Rules,
) -> Result<(), Refusal> {
    let of_policy = rules.policy();
    let named = rules.tables().named(operator);
    let checked = of_policy.check(usize::from(count), list, named);
    for (place, policy) in policies.iter_mut().enumerate() {
        if named.is_some_and(|named| of_policy.is_replaced(place as u8, named)) {
            *policy = match checked {
                Ok(()) => of_policy.kept(policy, count, list),
                Err(_) => of_policy.left(policy, count, list),
            };
        }
    }
    checked
}

#[cfg(test)]
mod tests {
    use super::*;
    use crate::address::AddressPair;
    use crate::rules::Plain;

    const ALL_IPV4: Rule = Rule { family: 4, ..Rule::ZERO };
    const TOO_LONG: Rule = Rule { family: 4, source_length: 33, ..Rule::ZERO };
    const UNSOUND: Rule = Rule { family: 5, ..Rule::ZERO };

    fn list(first: &[Rule]) -> RuleList {
        let mut list = RuleList { rules: [UNSOUND; RULE_PLACES] };
        list.rules[..first.len()].copy_from_slice(first);
        list
    }

    fn policy(rules: &[Rule]) -> Policy {
        let mut policy = Policy { count: rules.len() as u16, ..Policy::EMPTY };
        policy.rules[..rules.len()].copy_from_slice(rules);
        policy
    }

    fn accepts(rules: &[Rule], family: u8, source: [u8; 2], destination: [u8; 2]) -> bool {
        let padded = |octets: [u8; 2]| std::array::from_fn(|at| *octets.get(at).unwrap_or(&0));
        let (source, destination) = (padded(source), padded(destination));
        let pair = AddressPair { family, source, destination, ..AddressPair::ZERO };
        Plain.accepts(&policy(rules), &pair)
    }

    #[test]
    fn setting_checks_the_count_then_1_then_the_lengths() {
        let before = [Policy { count: 17, rules: [TOO_LONG; RULE_PLACES] }; OPERATORS];
        let mut set = before;
        let mut setting =
            |count, first: &[Rule]| super::set(&mut set, (count, &list(first)), 1, &Plain);
        assert_eq!(setting(17, &[ALL_IPV4; 16]), Err(Refusal::Policy));
        assert_eq!(setting(17, &[UNSOUND]), Err(Refusal::Policy));
        assert_eq!(setting(2, &[TOO_LONG, UNSOUND]), Err(Refusal::Argument));
        assert_eq!(setting(2, &[ALL_IPV4, TOO_LONG]), Err(Refusal::Policy));
        assert_eq!(set, before);
    }

    #[test]
    fn a_list_is_kept_as_given_with_zeros_past_its_count() {
        let whole = policy(&[ALL_IPV4; 16]);
        let mut set = [whole; OPERATORS];
        let rule = Rule { family: 6, source: [255; 16], source_length: 1, ..Rule::ZERO };
        assert_eq!(super::set(&mut set, (1, &list(&[rule])), 1, &Plain), Ok(()));
        assert_eq!(set, [whole, policy(&[rule])]);
        assert_eq!(super::set(&mut set, (0, &list(&[])), 0, &Plain), Ok(()));
        assert_eq!(set, [Policy::EMPTY, policy(&[rule])]);
    }

    #[test]
    fn an_operator_that_there_is_not_is_refused_behind_the_count() {
        let before = [policy(&[ALL_IPV4]), policy(&[])];
        for operator in [2, 3, 254, 255] {
            let mut set = before;
            let mut setting = |count, first: &[Rule]| {
                super::set(&mut set, (count, &list(first)), operator, &Plain)
            };
            assert_eq!(setting(17, &[ALL_IPV4; 16]), Err(Refusal::Policy));
            assert_eq!(setting(1, &[ALL_IPV4]), Err(Refusal::Argument));
            assert_eq!(setting(1, &[TOO_LONG]), Err(Refusal::Argument));
            assert_eq!(set, before);
        }
    }

    #[test]
    fn bits_past_the_length_are_ignored() {
        let mut source = [0; 16];
        source[..2].copy_from_slice(&[10, 0b1010_1111]);
        let rule = Rule { source, source_length: 12, ..ALL_IPV4 };
        assert!(accepts(&[rule], 4, [10, 0b1010_0000], [1, 2]));
        assert!(!accepts(&[rule], 4, [10, 0b1011_1111], [1, 2]));
        assert!(!accepts(&[rule], 6, [10, 0b1010_0000], [1, 2]));
        assert!(accepts(&[ALL_IPV4], 4, [255, 255], [255, 255]));
        assert!(!accepts(&[], 4, [0, 0], [0, 0]));
    }

    #[test]
    fn one_rule_must_match_both() {
        let half = |source_length, destination_length| Rule {
            source: [7; 16],
            destination: [7; 16],
            source_length,
            destination_length,
            ..ALL_IPV4
        };
        assert!(!accepts(&[half(8, 0), half(0, 8)], 4, [0, 0], [0, 0]));
        assert!(!accepts(&[half(8, 8)], 4, [7, 0], [0, 0]));
        assert!(accepts(&[half(0, 8), half(8, 0)], 4, [7, 0], [0, 0]));
    }

    #[test]
    fn rules_not_allowed_match_nothing_and_a_count_over_16_reads_as_16() {
        assert!(!accepts(&[TOO_LONG], 4, [0, 0], [0, 0]));
        assert!(!accepts(
            &[Rule { destination_length: 129, family: 6, ..Rule::ZERO }],
            6,
            [0; 2],
            [0; 2]
        ));
        assert!(!accepts(&[UNSOUND], 5, [0, 0], [0, 0]));
        let mut over = policy(&[UNSOUND; 16]);
        (over.count, over.rules[15]) = (65535, ALL_IPV4);
        let pair = AddressPair { family: 4, ..AddressPair::ZERO };
        assert!(Plain.accepts(&over, &pair));
        over.count = 15;
        assert!(!Plain.accepts(&over, &pair));
    }
}
