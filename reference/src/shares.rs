// A run from empty tables: what each operator may have of the places, and which refusals may come to one that has few.
use crate::any_call::{AnyCall, Gave};
use crate::calls::Call;
use crate::operator::OPERATORS;
use crate::rules::{CloneRules, OperatorRules, Plain, Rules, TableRules};
use crate::tables::{find, free_place, Tables};

/// What the operator of a call has, and whether there is room, before the call.
#[derive(Debug, Clone, Copy, PartialEq, Eq)]
pub struct Held {
    pub ikes: usize,
    pub ipsecs: usize,
    pub ike_full: bool,
    pub ipsec_full: bool,
}

impl Held {
    pub fn of(tables: &Tables, operator: u8) -> Self {
        Held {
            ikes: Plain.ikes(&tables.ike.records, Some(operator)),
            ipsecs: Plain.ipsecs(tables, Some(operator), 0),
            ike_full: free_place(&tables.ike.records, &Plain).is_none(),
            ipsec_full: free_place(&tables.ipsec.records, &Plain).is_none(),
        }
    }
}

/// Whether this number may come to a call whose operator has so much.
fn may_come(
    call: &AnyCall,
    number: u8,
    held: Held,
    tables: &Tables,
    rules: &(impl OperatorRules + ?Sized),
) -> bool {
    let Held { ikes, ipsecs, ike_full, ipsec_full } = held;
    let without_ike = ike_full && ikes >= rules.least_ike();
    let without_ipsec = ipsec_full && ipsecs >= rules.least_ipsec();
    let at_ike_share = ikes >= rules.ike_share();
    let at_ipsec_share = ipsecs >= rules.ipsec_share();
    match (call, number) {
        (AnyCall::Table(Call::OpenBoth(_)), 10) => rules.for_either(without_ike, without_ipsec),
        (AnyCall::Table(Call::OpenBoth(_)), 43) => rules.for_either(at_ike_share, at_ipsec_share),
        (AnyCall::Table(Call::OpenIpsec(_)), 10) => without_ipsec,
        (AnyCall::Table(Call::OpenIpsec(_)), 43) => at_ipsec_share,
        (AnyCall::Clone(request), 41) => {
            let place = find(&tables.ike.records, request.spi, &Plain);
            let original = place.map(|place| &tables.ike.records[place]);
            let is_deleting = original.is_some_and(|it| Plain.is_being_deleted(it));
            rules.is_other_41(is_deleting) || without_ike
        }
        (AnyCall::Clone(_), 43) => at_ike_share,
        // No other call has these.
        (_, 10 | 41 | 43) => false,
        _ => true,
    }
}

/// Makes the run, and tells what isn't as it should be.
pub fn broken(
    calls: &[AnyCall],
    rules: &impl Rules,
    mut make: impl for<'a> FnMut(&'a AnyCall, &mut Tables) -> Gave<'a>,
) -> Vec<String> {
    let rules = rules.operators();
    let mut tables = Tables::empty();
    let mut broken = Vec::new();
    for (place, call) in calls.iter().enumerate() {
        let before = tables.clone();
        let held = Held::of(&before, call.operator());
        let number = make(call, &mut tables).number();
        if !may_come(call, number, held, &before, rules) {
            let Held { ikes, ipsecs, .. } = held;
            broken.push(format!("call {place}: {number} to one with {ikes} and {ipsecs} records"));
        }
        for operator in 0..OPERATORS as u8 {
            let Held { ikes, ipsecs, .. } = Held::of(&tables, operator);
            if !rules.is_within(ikes, ipsecs) {
                broken
                    .push(format!("call {place}: then {operator} has {ikes} and {ipsecs} records"));
            }
        }
    }
    broken
}
