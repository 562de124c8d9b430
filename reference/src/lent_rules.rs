// Policies, or a list of rules, as they are lent to the library: between rules that are known and must
// stay as they are.
use crate::operator::OPERATORS;
use crate::policy::{Policy, Rule, RuleList};
use std::mem::size_of;

/// Match every pair, one for each family, so that a rule taken from past the list shows.
const AROUND: [Rule; 2] = [around(6), around(4)];

const fn around(family: u8) -> Rule {
    Rule { family, source: [0xa5; 16], destination: [0x5a; 16], ..Rule::ZERO }
}

#[repr(C)]
#[derive(Debug)]
pub struct BetweenRules<T> {
    before: [Rule; 2],
    lent: T,
    after: [Rule; 2],
}

// No octet lies between what is lent and the rules around it.
const RULES_AROUND: usize = 4 * size_of::<Rule>();
const _: () = assert!(
    size_of::<BetweenRules<[Policy; OPERATORS]>>()
        == OPERATORS * size_of::<Policy>() + RULES_AROUND
);
const _: () = assert!(size_of::<BetweenRules<RuleList>>() == size_of::<RuleList>() + RULES_AROUND);

impl<T: Copy> BetweenRules<T> {
    pub fn new(lent: T) -> Self {
        BetweenRules { before: AROUND, lent, after: AROUND }
    }

    /// Where what is lent starts; good for as long as this is neither moved nor changed.
    pub fn start(&mut self) -> *mut T {
        &raw mut self.lent
    }

    /// What is lent, as it is now.
    pub fn lent(&self) -> T {
        self.lent
    }

    pub fn is_kept_around(&self) -> bool {
        self.before == AROUND && self.after == AROUND
    }
}

#[cfg(test)]
mod tests {
    use super::*;
    use crate::address::AddressPair;
    use crate::rules::{Plain, PolicyRules};

    #[test]
    fn a_change_around_is_noticed() {
        let changes: [fn(&mut BetweenRules<Policy>); 4] = [
            |lent| lent.before[0].family = 0,
            |lent| lent.before[1].destination_length = 1,
            |lent| lent.after[0].family = 0,
            |lent| lent.after[1].source[15] = 0,
        ];
        for change in changes {
            let mut lent = BetweenRules::new(Policy::EMPTY);
            assert!(lent.is_kept_around());
            change(&mut lent);
            assert!(!lent.is_kept_around());
        }
    }

    #[test]
    fn a_rule_from_around_would_accept_any_pair() {
        for (family, rule) in [(6, AROUND[0]), (4, AROUND[1])] {
            let mut policy = Policy { count: 1, ..Policy::EMPTY };
            policy.rules[0] = rule;
            let pair = AddressPair { family, source: [1; 16], ..AddressPair::ZERO };
            assert!(Plain.accepts(&policy, &pair));
        }
    }
}
