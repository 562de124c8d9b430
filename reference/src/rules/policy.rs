// The rules of the address policies: document 01, "Tables", and "The numbers given back" for how one is set; request
// E9 of document 02 for whose it is.
use crate::address::{are_sound, octet_count, AddressOctets, AddressPair};
use crate::calls::{refuse_if, Refusal};
use crate::operator::{Named, OPERATORS};
use crate::policy::{Policy, Rule, RuleList, RULE_PLACES};

pub trait PolicyRules {
    /// "The policy is up to 16 rules"; "a policy count over 16 reads as 16".
    fn in_force<'a>(&self, policy: &'a Policy) -> &'a [Rule] {
        &policy.rules[..usize::from(policy.count).min(RULE_PLACES)]
    }

    /// "two prefix lengths (at most 32 or 128)".
    fn allows_lengths(&self, rule: &Rule) -> bool {
        let longest = rule.source_length.max(rule.destination_length);
        octet_count(rule.family).is_some_and(|octets| usize::from(longest) <= 8 * octets)
    }

    /// "some rule has its family"; "a rule with a family or length not allowed matches nothing".
    fn is_for(&self, rule: &Rule, family: u8) -> bool {
        rule.family == family && self.allows_lengths(rule)
    }

    /// "bits past the length are ignored, and length 0 matches all".
    fn matches(&self, prefix: &AddressOctets, length: u8, address: &AddressOctets) -> bool {
        let differing = u128::from_be_bytes(*prefix) ^ u128::from_be_bytes(*address);
        differing.leading_zeros() >= u32::from(length)
    }

    /// "its first prefix matches the source and its second the destination".
    fn matches_pair(&self, rule: &Rule, pair: &AddressPair) -> bool {
        self.matches(&rule.source, rule.source_length, &pair.source)
            && self.matches(&rule.destination, rule.destination_length, &pair.destination)
    }

    /// "A pair is acceptable exactly if some rule has its family, its first prefix matches the source and its
    /// second the destination"; "No rules, nothing acceptable."
    fn accepts(&self, policy: &Policy, pair: &AddressPair) -> bool {
        let mut rules = self.in_force(policy).iter().filter(|rule| self.is_for(rule, pair.family));
        rules.any(|rule| self.matches_pair(rule, pair))
    }

    /// The same of the operator's of the policies that are lent to be asked; only "Setting replaces the whole list".
    /// An octet that is neither's has no rules, by decision.
    fn asked(&self, lent: &mut [Policy; OPERATORS], pair: &AddressPair, operator: u8) -> bool {
        lent.get(usize::from(operator)).is_some_and(|policy| self.accepts(policy, pair))
    }

    /// E9: "Policies .. are per operator": the one that an update of this operator's records is judged by.
    fn judging<'a>(&self, policies: &'a [Policy; OPERATORS], operator: u8) -> Option<&'a Policy> {
        policies.get(usize::from(operator))
    }

    /// The same: whether a setting for this operator replaces that one's.
    fn is_replaced(&self, whose: u8, named: u8) -> bool {
        whose == named
    }

    /// "Places past a list's count .. aren't looked at".
    fn looked_at<'a>(&self, count: usize, list: &'a RuleList) -> &'a [Rule] {
        &list.rules[..count.min(RULE_PLACES)]
    }

    /// "Setting a policy checks the count (12), then 1, then the lengths (12)." An operator that there isn't is 1.
    fn check(&self, count: usize, list: &RuleList, operator: Named) -> Result<(), Refusal> {
        self.check_count(count)?;
        self.check_operator(operator)?;
        self.check_arguments(self.looked_at(count, list))?;
        self.check_lengths(self.looked_at(count, list))
    }

    /// 12 is "policy over 16 rules or a prefix too long".
    fn check_count(&self, count: usize) -> Result<(), Refusal> {
        refuse_if(count > RULE_PLACES, Refusal::Policy)
    }

    /// E9: "operator A (0) or B (1)"; another octet is 1 by decision.
    fn check_operator(&self, operator: Named) -> Result<(), Refusal> {
        refuse_if(operator.is_none(), Refusal::Argument)
    }

    /// 1 is "family not 4 or 6, IPv4 tail not zero", of every rule before any length.
    fn check_arguments(&self, rules: &[Rule]) -> Result<(), Refusal> {
        let is_sound = |rule: &Rule| are_sound(rule.family, [&rule.source, &rule.destination]);
        refuse_if(!rules.iter().all(is_sound), Refusal::Argument)
    }

    /// 12 is "policy over 16 rules or a prefix too long".
    fn check_lengths(&self, rules: &[Rule]) -> Result<(), Refusal> {
        refuse_if(!rules.iter().all(|rule| self.allows_lengths(rule)), Refusal::Policy)
    }

    /// "Setting replaces the whole list"; "in a list newly kept or given they are 0", the places past the count.
    fn kept(&self, _before: &Policy, count: u16, list: &RuleList) -> Policy {
        let mut kept = Policy { count, ..Policy::EMPTY };
        let given = usize::from(count).min(RULE_PLACES);
        kept.rules[..given].copy_from_slice(&list.rules[..given]);
        kept
    }

    /// With 1 and 12 the tables are the "same".
    fn left(&self, before: &Policy, _count: u16, _list: &RuleList) -> Policy {
        *before
    }
}
