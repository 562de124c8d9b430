// Faults of the policy's rules.
use super::Row;
use crate::address::{octet_count, AddressOctets, AddressPair};
use crate::calls::Refusal;
use crate::kind::Kind;
use crate::operator::{other, Named, OPERATORS};
use crate::policy::{Policy, Rule, RuleList, RULE_PLACES};
use crate::rules::{Plain, PolicyRules};

pub const FAULTS: &[Row<dyn PolicyRules>] = &[
    (Kind::Tables, "count-over-16-none", "A policy count over 16 reads as 0.", &CountOver16None),
    (
        Kind::Tables,
        "ipv4-length-33",
        "A prefix length may be 128 whatever the family.",
        &Ipv4Length33,
    ),
    (
        Kind::Tables,
        "family-5-matches",
        "A rule of family 5 matches pairs of family 5.",
        &Family5Matches,
    ),
    (
        Kind::Tables,
        "other-family-matches",
        "A rule matches pairs of the other family too.",
        &OtherFamilyMatches,
    ),
    (
        Kind::Tables,
        "whole-octets",
        "All bits of the octet in which a prefix ends are compared.",
        &WholeOctets,
    ),
    (Kind::Tables, "length-0-nothing", "A prefix of length 0 matches nothing.", &Length0Nothing),
    (
        Kind::Tables,
        "prefixes-swapped",
        "The first prefix is matched with the destination.",
        &PrefixesSwapped,
    ),
    (
        Kind::Tables,
        "halves-add-up",
        "One rule may match the source and another the destination.",
        &HalvesAddUp,
    ),
    (
        Kind::Tables,
        "asked-count-cut",
        "Asking whether a pair is acceptable sets a policy count over 16 to 16.",
        &AskedCountCut,
    ),
    (
        Kind::Tables,
        "asked-of-other",
        "Whether a pair is acceptable is asked of the other operator's policy.",
        &AskedFor(|operator| if operator > 1 { operator } else { other(operator) }),
    ),
    (
        Kind::Tables,
        "asked-by-neither",
        "Whether a pair is acceptable to an operator that there isn't goes by its lowest bit.",
        &AskedFor(|operator| operator & 1),
    ),
    (
        Kind::Requests,
        "policy-of-other",
        "An update is judged by the other operator's policy.",
        &Judging(|policies, operator| policies.get(usize::from(other(operator)))),
    ),
    (
        Kind::Requests,
        "policy-of-a",
        "Every update is judged by A's policy.",
        &Judging(|policies, _| policies.first()),
    ),
    (
        Kind::Tables,
        "policy-set-for-both",
        "Setting a policy sets that of both operators.",
        &Replaced(|_, _| true),
    ),
    (
        Kind::Tables,
        "policy-set-for-other",
        "Setting a policy sets the other operator's.",
        &Replaced(|whose, named| whose != named),
    ),
    (
        Kind::Tables,
        "policy-operator-first",
        "Setting a policy checks the operator before the count.",
        &OperatorFirst,
    ),
    (
        Kind::Tables,
        "policy-operator-last",
        "Setting a policy checks the operator after the lengths.",
        &OperatorLast,
    ),
    (
        Kind::Tables,
        "policy-operator-unchecked",
        "Setting a policy for an operator that there isn't gives 0 and sets none.",
        &OperatorUnchecked,
    ),
    (Kind::Tables, "junk-checked", "Rules past the count are checked.", &JunkChecked),
    (Kind::Tables, "count-last", "Setting a policy checks the count after the rules.", &CountLast),
    (
        Kind::Tables,
        "rule-by-rule",
        "Setting a policy checks 1 and the lengths of a rule before it turns to the next.",
        &RuleByRule,
    ),
    (Kind::Tables, "seventeen-rules", "A policy of 17 rules is set.", &SeventeenRules),
    (
        Kind::Tables,
        "unsound-rules",
        "A rule of another family or with an IPv4 tail is set.",
        &UnsoundRules,
    ),
    (Kind::Tables, "long-prefixes", "A rule with a prefix too long is set.", &LongPrefixes),
    (Kind::Tables, "junk-kept", "Rules past the count are kept.", &JunkKept),
    (
        Kind::Tables,
        "old-rules-stay",
        "Setting a shorter list leaves the old rules in the places after it.",
        &OldRulesStay,
    ),
    (Kind::Tables, "prefix-masked", "The bits past a prefix length are kept as 0.", &PrefixMasked),
    (Kind::Tables, "refused-empties", "A refused setting empties the policy.", &RefusedEmpties),
];

struct CountOver16None;
impl PolicyRules for CountOver16None {
    fn in_force<'a>(&self, policy: &'a Policy) -> &'a [Rule] {
        policy.rules.get(..usize::from(policy.count)).unwrap_or_default()
    }
}

struct Ipv4Length33;
impl PolicyRules for Ipv4Length33 {
    fn allows_lengths(&self, rule: &Rule) -> bool {
        octet_count(rule.family).is_some() && rule.source_length.max(rule.destination_length) <= 128
    }
}

struct Family5Matches;
impl PolicyRules for Family5Matches {
    fn is_for(&self, rule: &Rule, family: u8) -> bool {
        (rule.family == 5 && family == 5) || Plain.is_for(rule, family)
    }
}

struct OtherFamilyMatches;
impl PolicyRules for OtherFamilyMatches {
    fn is_for(&self, rule: &Rule, _family: u8) -> bool {
        Plain.allows_lengths(rule)
    }
}

struct WholeOctets;
impl PolicyRules for WholeOctets {
    fn matches(&self, prefix: &AddressOctets, length: u8, address: &AddressOctets) -> bool {
        let octets = usize::from(length).div_ceil(8);
        prefix[..octets] == address[..octets]
    }
}

struct Length0Nothing;
impl PolicyRules for Length0Nothing {
    fn matches(&self, prefix: &AddressOctets, length: u8, address: &AddressOctets) -> bool {
        length != 0 && Plain.matches(prefix, length, address)
    }
}

struct PrefixesSwapped;
impl PolicyRules for PrefixesSwapped {
    fn matches_pair(&self, rule: &Rule, pair: &AddressPair) -> bool {
        Plain.matches_pair(rule, &pair.swapped())
    }
}

struct HalvesAddUp;
impl PolicyRules for HalvesAddUp {
    fn accepts(&self, policy: &Policy, pair: &AddressPair) -> bool {
        let rules = || self.in_force(policy).iter().filter(|rule| self.is_for(rule, pair.family));
        let source = |rule: &Rule| self.matches(&rule.source, rule.source_length, &pair.source);
        let destination = |rule: &Rule| {
            self.matches(&rule.destination, rule.destination_length, &pair.destination)
        };
        rules().any(source) && rules().any(destination)
    }
}

struct AskedCountCut;
impl PolicyRules for AskedCountCut {
    fn asked(&self, lent: &mut [Policy; OPERATORS], pair: &AddressPair, operator: u8) -> bool {
        if let Some(policy) = lent.get_mut(usize::from(operator)) {
            policy.count = policy.count.min(RULE_PLACES as u16);
        }
        Plain.asked(lent, pair, operator)
    }
}

struct AskedFor(fn(u8) -> u8);
impl PolicyRules for AskedFor {
    fn asked(&self, lent: &mut [Policy; OPERATORS], pair: &AddressPair, operator: u8) -> bool {
        Plain.asked(lent, pair, self.0(operator))
    }
}

struct Judging(fn(&[Policy; OPERATORS], u8) -> Option<&Policy>);
impl PolicyRules for Judging {
    fn judging<'a>(&self, policies: &'a [Policy; OPERATORS], operator: u8) -> Option<&'a Policy> {
        self.0(policies, operator)
    }
}

struct Replaced(fn(u8, u8) -> bool);
impl PolicyRules for Replaced {
    fn is_replaced(&self, whose: u8, named: u8) -> bool {
        self.0(whose, named)
    }
}

struct OperatorFirst;
impl PolicyRules for OperatorFirst {
    fn check(&self, count: usize, list: &RuleList, operator: Named) -> Result<(), Refusal> {
        self.check_operator(operator)?;
        Plain.check(count, list, operator)
    }
}

struct OperatorLast;
impl PolicyRules for OperatorLast {
    fn check(&self, count: usize, list: &RuleList, operator: Named) -> Result<(), Refusal> {
        Plain.check(count, list, Some(0))?;
        self.check_operator(operator)
    }
}

struct OperatorUnchecked;
impl PolicyRules for OperatorUnchecked {
    fn check_operator(&self, _operator: Named) -> Result<(), Refusal> {
        Ok(())
    }
}

struct JunkChecked;
impl PolicyRules for JunkChecked {
    fn looked_at<'a>(&self, _count: usize, list: &'a RuleList) -> &'a [Rule] {
        &list.rules
    }
}

struct CountLast;
impl PolicyRules for CountLast {
    fn check(&self, count: usize, list: &RuleList, operator: Named) -> Result<(), Refusal> {
        self.check_operator(operator)?;
        self.check_arguments(self.looked_at(count, list))?;
        self.check_lengths(self.looked_at(count, list))?;
        self.check_count(count)
    }
}

struct RuleByRule;
impl PolicyRules for RuleByRule {
    fn check(&self, count: usize, list: &RuleList, operator: Named) -> Result<(), Refusal> {
        self.check_count(count)?;
        self.check_operator(operator)?;
        self.looked_at(count, list).chunks(1).try_for_each(|rule| {
            self.check_arguments(rule)?;
            self.check_lengths(rule)
        })
    }
}

struct SeventeenRules;
impl PolicyRules for SeventeenRules {
    fn check_count(&self, count: usize) -> Result<(), Refusal> {
        Plain.check_count(if count == 17 { 16 } else { count })
    }
}

struct UnsoundRules;
impl PolicyRules for UnsoundRules {
    fn check_arguments(&self, _rules: &[Rule]) -> Result<(), Refusal> {
        Ok(())
    }
}

struct LongPrefixes;
impl PolicyRules for LongPrefixes {
    fn check_lengths(&self, _rules: &[Rule]) -> Result<(), Refusal> {
        Ok(())
    }
}

struct JunkKept;
impl PolicyRules for JunkKept {
    fn kept(&self, _before: &Policy, count: u16, list: &RuleList) -> Policy {
        Policy { count, rules: list.rules }
    }
}

struct OldRulesStay;
impl PolicyRules for OldRulesStay {
    fn kept(&self, before: &Policy, count: u16, list: &RuleList) -> Policy {
        let given = usize::from(count);
        let mut kept = Policy { count, rules: before.rules };
        kept.rules[..given].copy_from_slice(&list.rules[..given]);
        kept
    }
}

struct PrefixMasked;
impl PolicyRules for PrefixMasked {
    fn kept(&self, before: &Policy, count: u16, list: &RuleList) -> Policy {
        let mut kept = Plain.kept(before, count, list);
        for rule in &mut kept.rules {
            rule.source = masked(rule.source, rule.source_length);
            rule.destination = masked(rule.destination, rule.destination_length);
        }
        kept
    }
}

/// With the bits past the length cleared.
fn masked(octets: AddressOctets, length: u8) -> AddressOctets {
    let past = u128::MAX.checked_shr(u32::from(length)).unwrap_or(0);
    (u128::from_be_bytes(octets) & !past).to_be_bytes()
}

struct RefusedEmpties;
impl PolicyRules for RefusedEmpties {
    fn left(&self, _before: &Policy, _count: u16, _list: &RuleList) -> Policy {
        Policy::EMPTY
    }
}
