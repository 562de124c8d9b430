// Demand 3: the other orders of a list of requests and check responses, and what must be the same in them.
use crate::address::AddressPair;
use crate::asked::{Asked, Given};
use crate::request::Request;
use crate::rules::{OrderRules, Plain, Rules};
use crate::tables::{find, IkeRecord, Record, Tables};
use std::collections::BTreeSet;

/// A list of calls in the order in which they are made, each by its place in the list.
pub type Order = Vec<usize>;

/// Two orders made from one that was left to chance, with the IKE SAs that the second frees.
#[derive(Debug)]
pub struct Orders {
    /// Keeps each IKE SA's own calls in sequence.
    pub kept: Order,
    /// Keeps those of the IKE SAs that aren't freed.
    pub freed: Order,
    pub freed_spis: BTreeSet<u64>,
}

impl Orders {
    pub fn new(tables: &Tables, list: &[Asked], chance: &Order, rules: &impl Rules) -> Self {
        let spis = spis(tables);
        let freed_spis: BTreeSet<u64> =
            spis.iter().copied().filter(|&spi| is_freed(tables, list, spi, rules)).collect();
        let kept_spis =
            spis.iter().copied().filter(|&spi| rules.orders().keeps_sequence(spi)).collect();
        let others = &spis - &freed_spis;
        let keeping = |spis| keeping(spis, tables, list, chance, rules.orders());
        Orders { kept: keeping(&kept_spis), freed: keeping(&others), freed_spis }
    }
}

/// The IKE SAs: the SPIs of records in use. Calls that give another SPI belong to none.
fn spis(tables: &Tables) -> BTreeSet<u64> {
    tables.ike.records.iter().filter(|record| record.is_in_use()).map(|record| record.spi).collect()
}

/// The order left to chance, but that each of these SPIs has its calls in sequence.
fn keeping(
    spis: &BTreeSet<u64>,
    tables: &Tables,
    list: &[Asked],
    chance: &Order,
    rules: &(impl OrderRules + ?Sized),
) -> Order {
    let mut order = chance.clone();
    for &spi in spis {
        let record = record_of(tables, spi);
        let gives =
            |number: &usize| rules.gives(&list[*number], record) && rules.counts(&list[*number]);
        let places = (0..order.len()).filter(|&place| gives(&order[place]));
        let sequence = (0..list.len()).filter(gives);
        for (place, number) in places.collect::<Vec<_>>().into_iter().zip(sequence) {
            order[place] = number;
        }
    }
    order
}

/// The record that the SPI of an SA means.
fn record_of(tables: &Tables, spi: u64) -> &IkeRecord {
    let place = find(&tables.ike.records, spi, &Plain).expect("an SA has a record");
    &tables.ike.records[place]
}

/// The requests of the list that are this SA's, each for the operator for which it is judged.
fn requests_of(
    tables: &Tables,
    list: &[Asked],
    spi: u64,
    rules: &(impl OrderRules + ?Sized),
) -> Vec<Request> {
    let record = record_of(tables, spi);
    let own = list.iter().filter(|asked| rules.gives(asked, record));
    let judged = |request: &Request| {
        let operator = rules.judged_for(request, record);
        Request { operator, ..request.clone() }
    };
    own.filter_map(Asked::request).map(judged).collect()
}

/// Whether the SA has no check responses, and its requests are all sound on these tables and no two have the same ID.
fn is_freed(tables: &Tables, list: &[Asked], spi: u64, rules: &impl Rules) -> bool {
    let of_orders = rules.orders();
    let record = record_of(tables, spi);
    let is_response = |asked: &Asked| of_orders.gives(asked, record) && asked.request().is_none();
    let without_responses = !list.iter().any(is_response);
    let requests = requests_of(tables, list, spi, of_orders);
    let all_sound = requests.iter().all(|request| request.is_sound(tables, rules));
    let mut ids = BTreeSet::new();
    let ids_differ = requests.iter().all(|request| ids.insert(request.id));
    of_orders.is_freed(all_sound, ids_differ, without_responses)
}

fn carries_update(request: &Request, tables: &Tables) -> bool {
    request.check(tables, &Plain).is_ok_and(|passed| passed.summary.update)
}

/// The pair that a freed SA must end with.
fn pair_at_end(
    tables: &Tables,
    list: &[Asked],
    spi: u64,
    rules: &(impl OrderRules + ?Sized),
) -> AddressPair {
    let record = record_of(tables, spi);
    let requests = requests_of(tables, list, spi, rules);
    let updates = requests.iter().filter(|request| carries_update(request, tables));
    let deciding = rules.deciding(&updates.collect::<Vec<_>>());
    let moving = deciding.filter(|request| rules.moves(request.id, record.update_mark));
    moving.map_or(record.pair, |request| request.pair)
}

/// What a program made of the calls in one order.
struct Made<'a> {
    /// By the calls' places in the list.
    given: Vec<Given<'a>>,
    /// As they end.
    tables: Tables,
}

/// Makes the calls in this order on the tables, each on what the one before it left.
fn make<'a>(
    tables: &Tables,
    list: &'a [Asked],
    order: &[usize],
    mut make: impl FnMut(&'a Asked, &mut Tables) -> Given<'a>,
) -> Made<'a> {
    let mut tables = tables.clone();
    let mut given = vec![None; list.len()];
    for &number in order {
        given[number] = Some(make(&list[number], &mut tables));
    }
    let given = given.into_iter().map(|it| it.expect("an order has each call")).collect();
    Made { given, tables }
}

/// Runs the list as it is and in both other orders, and tells what isn't as demand 3 asks.
pub fn broken(
    tables: &Tables,
    list: &[Asked],
    chance: &Order,
    rules: &impl Rules,
    mut make_one: impl for<'a> FnMut(&'a Asked, &mut Tables) -> Given<'a>,
) -> Vec<String> {
    let orders = Orders::new(tables, list, chance, rules);
    let sequence: Order = (0..list.len()).collect();
    let again = with_other_outputs(list);
    let original = make(tables, list, &sequence, &mut make_one);
    let kept = make(tables, &again, &orders.kept, &mut make_one);
    let freed = make(tables, list, &orders.freed, &mut make_one);
    let mut broken = broken_if_kept(&original, &kept, &again);
    broken.extend(broken_if_freed([&original, &freed], rules.orders()));
    for &spi in &orders.freed_spis {
        let records = &freed.tables.ike.records;
        let pair = find(records, spi, &Plain).map(|place| records[place].pair);
        if pair != Some(pair_at_end(tables, list, spi, rules.orders())) {
            broken.push(format!("freed order: SA {spi} ends with another pair"));
        }
    }
    broken
}

/// The same calls, each request with other octets in its output before the call.
fn with_other_outputs(list: &[Asked]) -> Vec<Asked> {
    let mut list = list.to_vec();
    for asked in &mut list {
        if let Asked::Request(request) = asked {
            request.output.iter_mut().for_each(|octet| *octet = !*octet);
        }
    }
    list
}

/// What the first half asks: same answers, same octets, same tables.
fn broken_if_kept(original: &Made, kept: &Made, list: &[Asked]) -> Vec<String> {
    let mut broken = Vec::new();
    for (number, (one, other)) in original.given.iter().zip(&kept.given).enumerate() {
        if !one.same_answer(other) {
            broken.push(format!("kept order: call {number} gets another answer"));
        }
        if one.response() != other.response() {
            broken.push(format!("kept order: call {number} gets other octets"));
        }
        if !other.leaves_rest(list[number].output()) {
            broken.push(format!("kept order: call {number} changes the rest of its output"));
        }
    }
    if original.tables != kept.tables {
        broken.push("kept order: the tables end otherwise".to_string());
    }
    broken
}

/// What the second half asks but for the pairs: same tables.
fn broken_if_freed(
    [original, freed]: [&Made; 2],
    rules: &(impl OrderRules + ?Sized),
) -> Option<String> {
    let same_tables = original.tables == freed.tables;
    let same_answers = original.given.iter().zip(&freed.given).all(|(a, b)| a.same_answer(b));
    let broken = rules.breaks_freed(same_tables, same_answers);
    broken.then(|| "freed order: the tables end otherwise".to_string())
}
