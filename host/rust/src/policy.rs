//! Setting an operator's address policy, and asking it.
use crate::layout::{Operator, Pair, Policy, Rule};
use crate::limits::{OPERATORS, RULES_MOST};
use crate::{raw, Number};

/// Replaces the operator's whole policy, of both that are lent, by the first `count` of these rules; the
/// places past them become zeros. The other operator's stays as it is.
///
/// Numbers, in the order of the checks: [`BadPolicy`](Number::BadPolicy) for a count over
/// [`RULES_MOST`],
/// [`BadArgument`](Number::BadArgument) for an operator that is neither or a rule whose prefixes aren't of
/// its family, [`BadPolicy`](Number::BadPolicy) for a prefix longer than its family's bits,
/// [`Done`](Number::Done). A refusal leaves both policies.
#[inline]
pub fn set_policy(
    policies: &mut [Policy; OPERATORS],
    count: u16,
    rules: &[Rule; RULES_MOST],
    operator: Operator,
) -> Number {
    // SAFETY: the policies and the rules are lent for the call, the policies to nothing else.
    unsafe { raw::unmavreth_set_policy(policies, count, rules, operator) }.into()
}

/// Whether some rule of the operator's policy, of both that are lent, accepts the pair. An operator that is
/// neither has no rules: no pair is acceptable.
#[must_use]
#[inline]
pub fn acceptable(policies: &[Policy; OPERATORS], pair: &Pair, operator: Operator) -> bool {
    // SAFETY: the policies are lent for the call; the pair and the operator go by value, and any may be given.
    unsafe { raw::unmavreth_acceptable(policies, *pair, operator) != 0 }
}
