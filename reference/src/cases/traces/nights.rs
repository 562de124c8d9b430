// Traces as a gateway might leave them: calls on the records that are there, and requests to them.
use super::super::checks::responses;
use super::super::clones::requests as clones;
use super::super::operators;
use super::super::requests::{arguments, starts};
use super::super::tables::{pairs, peers, rules, scripts, spis};
use crate::check::CheckResponse;
use crate::cloning::CloneRequest;
use crate::policy::Policy;
use crate::request;
use crate::rng::Rng;
use crate::rules::Plain;
use crate::tables::{Record, Tables};
use crate::trace::entry::{Entry, Opening, Pair, Request, Rule};
use crate::trace::fields::MOST_OCTETS;
use crate::trace::writing::entry_octets;

#[derive(Debug, Clone, Copy)]
enum Making {
    OpenBoth,
    AddIpsec,
    CloseIke,
    CloseIpsec,
    PlainRequest,
    AnyRequest,
    PlainResponse,
    AnyResponse,
    PlainClone,
    AnyClone,
    MarkDeletion,
    Policy,
}

type Weights = [(usize, Making); 12];

const MOSTLY_REQUESTS: Weights = [
    (6, Making::OpenBoth),
    (6, Making::AddIpsec),
    (2, Making::CloseIke),
    (3, Making::CloseIpsec),
    (28, Making::PlainRequest),
    (14, Making::AnyRequest),
    (8, Making::PlainResponse),
    (6, Making::AnyResponse),
    (6, Making::PlainClone),
    (4, Making::AnyClone),
    (2, Making::MarkDeletion),
    (2, Making::Policy),
];

/// By which the tables become full.
const MOSTLY_OPENINGS: Weights = [
    (60, Making::OpenBoth),
    (60, Making::AddIpsec),
    (1, Making::CloseIke),
    (2, Making::CloseIpsec),
    (6, Making::PlainRequest),
    (3, Making::AnyRequest),
    (2, Making::PlainResponse),
    (1, Making::AnyResponse),
    (12, Making::PlainClone),
    (2, Making::AnyClone),
    (1, Making::MarkDeletion),
    (1, Making::Policy),
];

/// More SPIs than there are places, so that the tables may be full.
const IKE_SPIS: usize = 80;
const IPSEC_SPIS: usize = 400;

/// Entries of at least so many octets in all, each drawn to suit the tables that those before left.
pub fn entries(rng: &mut Rng, size: usize) -> Vec<Entry> {
    let mut tables = Tables::empty();
    let weights = if rng.one_in(4) { MOSTLY_OPENINGS } else { MOSTLY_REQUESTS };
    let mut entries = vec![policy(rng), policy(rng), opening(rng)];
    set_operators(&mut entries[..2]);
    let mut octets = 0;
    for entry in &entries {
        octets += entry_octets(entry).len();
        entry.make(&mut tables, &Plain);
    }
    while octets < size {
        let entry = entry(rng, &tables, &weights);
        octets += entry_octets(&entry).len();
        entry.make(&mut tables, &Plain);
        entries.push(entry);
    }
    entries
}

fn entry(rng: &mut Rng, tables: &Tables, weights: &Weights) -> Entry {
    let has_record = tables.ike.records.iter().any(Record::is_in_use);
    let making = if has_record { rng.pick_weighted(weights) } else { Making::OpenBoth };
    match making {
        Making::OpenBoth => opening(rng),
        Making::AddIpsec => {
            let owner = scripts::ike_spi(rng, tables, 30);
            let operator = for_ike(rng, tables, owner);
            Entry::AddIpsec { spi: u64::from(spis::ipsec(rng.below(IPSEC_SPIS))), owner, operator }
        }
        Making::CloseIke => {
            let spi = scripts::ike_spi(rng, tables, 8);
            Entry::CloseIke { spi, operator: for_ike(rng, tables, spi) }
        }
        Making::CloseIpsec => {
            let spi = scripts::ipsec_spi(rng, tables, 8);
            let operator = operators::drawn(rng, operators::of_ipsec(tables, spi)) % 2;
            Entry::CloseIpsec { spi: u64::from(spi), operator: u64::from(operator) }
        }
        Making::PlainRequest => {
            let spi = scripts::ike_spi(rng, tables, 60);
            of_request(arguments::plain_request(rng, tables, spi))
        }
        Making::AnyRequest => {
            let spi = arguments::spi(rng, tables);
            of_request(arguments::request(rng, tables, spi))
        }
        Making::PlainResponse => {
            let spi = spi_of_check(rng, tables);
            of_response(responses::plain_response(rng, tables, spi))
        }
        Making::AnyResponse => {
            let spi = arguments::spi(rng, tables);
            of_response(responses::response(rng, tables, spi))
        }
        Making::PlainClone => {
            let spi = scripts::ike_spi(rng, tables, 60);
            of_clone(clones::plain_request(rng, tables, spi))
        }
        Making::AnyClone => {
            let spi = arguments::spi(rng, tables);
            of_clone(clones::request(rng, tables, spi))
        }
        Making::MarkDeletion => {
            let spi = scripts::ike_spi(rng, tables, 8);
            Entry::MarkDeletion { spi, operator: for_ike(rng, tables, spi) }
        }
        Making::Policy => policy(rng),
    }
}

/// Mostly the operator of the record that the SPI means; an entry has room for one of the two only.
fn for_ike(rng: &mut Rng, tables: &Tables, spi: u64) -> u64 {
    u64::from(operators::drawn(rng, operators::of_ike(tables, spi)) % 2)
}

/// The first policies are one for each operator.
fn set_operators(policies: &mut [Entry]) {
    for (number, policy) in policies.iter_mut().enumerate() {
        if let Entry::Policy { operator, .. } = policy {
            *operator = number as u64;
        }
    }
}

fn opening(rng: &mut Rng) -> Entry {
    let pair = if rng.one_in(12) { pairs::any_pair(rng) } else { pairs::pair(rng) };
    Entry::OpenBoth(Opening {
        spi: spis::ike(rng.below(IKE_SPIS)),
        agreed: u64::from(!rng.one_in(8)),
        pair: Pair::from(&pair),
        child: u64::from(spis::ipsec(rng.below(IPSEC_SPIS))),
        peer: u64::from(peers::any(rng)),
        cloning: u64::from(!rng.one_in(8)),
        operator: u64::from(operators::one(rng)),
    })
}

/// One that accepts all pairs, or some; now and then a list that is refused.
fn policy(rng: &mut Rng) -> Entry {
    let mut policy = rules::policy(rng);
    match rng.below(8) {
        0 => {
            let (count, list) = rules::list_to_set(rng);
            policy = Policy { count: count.min(16), rules: list.rules };
        }
        1 | 2 => {}
        _ => starts::open(&mut policy),
    }
    let rules: Vec<Rule> =
        policy.rules[..usize::from(policy.count)].iter().map(Rule::from).collect();
    Entry::policy(&rules, u64::from(operators::one(rng)))
}

fn of_request(request: request::Request) -> Entry {
    let mut body = request.body;
    body.truncate(MOST_OCTETS);
    Entry::Request(Request {
        spi: request.spi,
        id: u64::from(request.id),
        pair: Pair::from(&request.pair),
        nat_source: request.nat_source,
        nat_destination: request.nat_destination,
        first: u64::from(request.first),
        body,
        cookie: request.cookie,
        check_id: u64::from(request.check_id),
        operator: u64::from(request.operator % 2),
    })
}

/// That of a record that has a check pending, if there is any.
fn spi_of_check(rng: &mut Rng, tables: &Tables) -> u64 {
    let pending = tables.ike.records.iter().filter(|record| record.check.length != 0);
    let spis: Vec<u64> = pending.map(|record| record.spi).collect();
    if spis.is_empty() {
        return arguments::spi(rng, tables);
    }
    rng.pick(&spis)
}

fn of_clone(request: CloneRequest) -> Entry {
    let mut body = request.body;
    body.truncate(MOST_OCTETS);
    let CloneRequest { spi, new_spi, first, operator, .. } = request;
    let operator = u64::from(operator % 2);
    Entry::Clone { spi, new_spi, first: u64::from(first), body, operator }
}

fn of_response(response: CheckResponse) -> Entry {
    let mut body = response.body;
    body.truncate(MOST_OCTETS);
    Entry::CheckResponse {
        spi: response.spi,
        id: u64::from(response.id),
        first: u64::from(response.first),
        body,
        operator: u64::from(response.operator % 2),
    }
}
