// Steps 1 to 3 of a request that passed its checks: the tally, the update with its pending check, and the address list.
use crate::address::{Address, AddressPair};
use crate::request::{Passed, Request};
use crate::rules::{PolicyRules, RequestRules, Rules, TableRules};
use crate::summary::Summary;
use crate::tables::{IkeRecord, IpsecRecord, Tables};

/// What became of an update or of an address list.
#[derive(Debug, Clone, Copy, PartialEq, Eq)]
pub enum Effect {
    None = 0,
    /// The update was applied, the list replaced.
    Done = 1,
    Stale = 2,
}

/// Why an update is refused, with its number.
#[derive(Debug, Clone, Copy, PartialEq, Eq)]
pub enum Unfit {
    Altered = 8,
    NotAcceptable = 9,
}

/// A message ID as marks keep it; 0 is none.
pub fn mark(id: u32) -> u64 {
    u64::from(id) + 1
}

/// What 8 and 9 are about.
pub fn is_fit(
    request: &Request,
    passed: &Passed,
    tables: &Tables,
    rules: &impl Rules,
) -> Result<(), Unfit> {
    let of_requests = rules.requests();
    let old = tables.ike.records[passed.place].pair;
    let seen = of_requests.compared(old, request.pair);
    let no_nats = passed.summary.no_nats;
    let altered = no_nats.is_some_and(|no_nats| !of_requests.same_path(no_nats.pair, seen));
    let named = rules.tables().named(request.operator);
    let policy = named.and_then(|it| rules.policy().judging(&tables.policies, it));
    let acceptable = policy.is_some_and(|it| rules.policy().accepts(it, &request.pair));
    of_requests.fitness(altered, acceptable)
}

/// Step 1, after step 2 has come to this.
pub fn tally(
    record: &mut IkeRecord,
    summary: &Summary,
    updated: Result<Effect, Unfit>,
    rules: &impl Rules,
) {
    let unknown = rules.requests().unknown(summary);
    record.unknown = rules.requests().tally(record.unknown, unknown, updated);
}

/// Step 2.
pub fn update(
    request: &Request,
    passed: &Passed,
    tables: &mut Tables,
    rules: &impl Rules,
) -> Result<Effect, Unfit> {
    let of_requests = rules.requests();
    let fit = is_fit(request, passed, tables, rules);
    if !of_requests.has_update(&passed.summary) {
        return of_requests.without_update(fit);
    }
    if !of_requests.exceeds(request.id, tables.ike.records[passed.place].update_mark) {
        return of_requests.stale(fit);
    }
    if of_requests.marks(fit) {
        tables.ike_mut()[passed.place].update_mark = mark(request.id);
    }
    fit?;
    move_records(tables, passed.place, request.pair, of_requests);
    Ok(Effect::Done)
}

/// The IKE record takes the pair.
fn move_records(
    tables: &mut Tables,
    place: usize,
    pair: AddressPair,
    rules: &(impl RequestRules + ?Sized),
) {
    let meant = tables.ike.records[place];
    for place in rules.moved(&tables.ike.records, place) {
        rules.move_ike(&mut tables.ike_mut()[place], pair);
    }
    if tables.ipsec.records.iter().any(|record| rules.moves_at_once(&meant, record)) {
        let moved = |record: &&mut IpsecRecord| rules.moves_at_once(&meant, record);
        tables.ipsec_mut().iter_mut().filter(moved).for_each(|record| record.pair = pair);
    }
}

/// The check that the record has pending, after step 2 has come to this.
pub fn pending(
    record: &mut IkeRecord,
    request: &Request,
    updated: Result<Effect, Unfit>,
    rules: &(impl RequestRules + ?Sized),
) {
    if rules.keeps_check(updated) {
        record.check = rules.kept_check(&record.check, request);
    }
}

/// Step 3, with the number of addresses left off.
pub fn list(
    record: &mut IkeRecord,
    id: u32,
    summary: &Summary,
    update: Effect,
    rules: &(impl RequestRules + ?Sized),
) -> (Effect, usize) {
    if !summary.has_list() {
        return (Effect::None, 0);
    }
    let kept_mark = rules.list_mark(record);
    let effect = if rules.replaces(id, *kept_mark, update) { Effect::Done } else { Effect::Stale };
    if effect == Effect::Done {
        *kept_mark = mark(id);
        let new: Vec<Address> = summary.kept.iter().map(|kept| kept.address).collect();
        (record.count, record.addresses) = rules.kept_list(record, &new);
    }
    (effect, rules.left_off(effect, summary.addresses - summary.kept.len()))
}
