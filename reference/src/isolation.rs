// Two runs from empty tables, with one operator's same calls in the same order and the other's anywhere between: what
// the one must not notice.
use crate::any_call::{AnyCall, Gave};
use crate::operator::View;
use crate::rules::{OperatorRules, Plain, Rules};
use crate::tables::{free_place, Tables};

/// What the operator meets at one of its calls.
struct Met<'a> {
    gave: Gave<'a>,
    /// Its records before the call and after it.
    before: View,
    after: View,
    /// Whether there was no free IKE place before the call.
    is_full: bool,
}

/// One run: what the operator meets, call by call, and its records at the end.
struct Run<'a> {
    met: Vec<Met<'a>>,
    end: View,
}

fn run<'a>(
    calls: &'a [AnyCall],
    operator: u8,
    rules: &(impl OperatorRules + ?Sized),
    mut make: impl FnMut(&'a AnyCall, &mut Tables) -> Gave<'a>,
) -> Run<'a> {
    let mut tables = Tables::empty();
    let mut met = Vec::new();
    for call in calls {
        if call.operator() != operator {
            make(call, &mut tables);
            continue;
        }
        let before = rules.seen(&tables, operator);
        let is_full = free_place(&tables.ike.records, &Plain).is_none();
        let gave = make(call, &mut tables);
        met.push(Met { gave, before, after: rules.seen(&tables, operator), is_full });
    }
    Run { met, end: rules.seen(&tables, operator) }
}

/// Makes both runs, and tells what isn't as it should be for the operator.
pub fn broken(
    runs: [&[AnyCall]; 2],
    operator: u8,
    rules: &impl Rules,
    mut make: impl for<'a> FnMut(&'a AnyCall, &mut Tables) -> Gave<'a>,
) -> Vec<String> {
    let rules = rules.operators();
    let [one, other] = runs.map(|calls| run(calls, operator, rules, &mut make));
    let mut broken = Vec::new();
    if one.met.len() != other.met.len() {
        return vec!["the two runs have other calls of the operator".to_string()];
    }
    for (number, (one, other)) in one.met.iter().zip(&other.met).enumerate() {
        if one.before != other.before {
            broken.push(format!("own call {number}: the records differ before it"));
            return broken;
        }
        if one.gave == other.gave && one.after == other.after {
            continue;
        }
        let numbers = [one, other].map(|it| it.gave.number());
        let [in_one, in_other] = [one, other].map(|it| rules.excuses(it.gave.number(), it.is_full));
        if numbers[0] == numbers[1] {
            broken.push(format!("own call {number}: {} in both runs, but not alike", numbers[0]));
        } else if !rules.is_excused(in_one, in_other) {
            broken.push(format!("own call {number}: {} and {}", numbers[0], numbers[1]));
        }
        if rules.ends_at_difference() {
            return broken;
        }
    }
    if one.end != other.end {
        broken.push("the records differ at the end".to_string());
    }
    broken
}

/// The two numbers at the first difference, the lesser first, if there is any.
pub fn first_difference(runs: [&[AnyCall]; 2], operator: u8) -> Option<(u8, u8)> {
    let [one, other] = runs.map(|calls| run(calls, operator, &Plain, |it, on| it.make(on, &Plain)));
    let differing = one.met.iter().zip(&other.met).find(|(one, other)| one.gave != other.gave)?;
    let (one, other) = (differing.0.gave.number(), differing.1.gave.number());
    Some((one.min(other), one.max(other)))
}
