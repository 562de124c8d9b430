// The traces that are written down one by one: every number of every kind of entry in every form, every
// bound, one trace cut at every octet, those about the end of a window, some in pieces, and long ones.
use super::damage::{numbers_with_forms, parts, UNKNOWN_KINDS};
use super::{examples, nights, piecewise, windows, Case};
use crate::rng::Rng;
use crate::rules::{Plain, TraceRules};
use crate::trace::entry::{Entry, Opening, Pair, Request, Rule};
use crate::trace::fields::{MOST_OCTETS, MOST_RULES};
use crate::trace::writing::{entry_octets, trace_octets};

pub fn all() -> Vec<Case> {
    let examples = examples::all().into_iter().map(|example| example.trace);
    let traces = examples.chain(forms()).chain(kinds()).chain(counts()).chain(lengths());
    let traces = traces.chain(cuts()).chain(some_nights()).chain(windows::all());
    let at_once = traces.map(Case::at_once);
    at_once.chain(piecewise::all()).chain(long().into_iter().map(Case::at_once)).collect()
}

const PAIR: Pair = Pair {
    family: 4,
    source: [192, 0, 2, 1, 0, 0, 0, 0, 0, 0, 0, 0, 0, 0, 0, 0],
    destination: [198, 51, 100, 1, 0, 0, 0, 0, 0, 0, 0, 0, 0, 0, 0, 0],
    source_port: 4500,
    destination_port: 500,
};

/// Both addresses past their first four octets.
const IPV6: Pair = Pair { family: 6, source: [1; 16], destination: [2; 16], ..PAIR };

/// An update, with an unknown payload behind it.
const BODY: [u8; 12] = [200, 0, 0, 8, 0, 0, 64, 16, 0, 0, 0, 4];

/// Lent for the check of an update that is applied.
const COOKIE: [u8; 8] = [1, 2, 3, 4, 5, 6, 7, 8];

/// That cookie as it comes back.
const ANSWER: [u8; 16] = [0, 0, 0, 16, 0, 0, 64, 17, 1, 2, 3, 4, 5, 6, 7, 8];

/// What asks for a clone, with an unknown payload behind it.
const CLONE: [u8; 12] = [200, 0, 0, 8, 0, 0, 64, 49, 0, 0, 0, 4];

pub(in crate::cases) fn request() -> Request {
    Request {
        spi: 7,
        id: 300,
        pair: Pair { source_port: 1024, ..PAIR },
        nat_source: vec![1; 20],
        nat_destination: vec![2; 20],
        first: 41,
        body: BODY.to_vec(),
        cookie: COOKIE.to_vec(),
        check_id: 70_000,
        operator: 0,
    }
}

/// An entry of every kind, a policy with two rules too.
pub(crate) fn samples() -> Vec<Entry> {
    let source = PAIR.source;
    let narrow = Rule { family: 4, source, source_length: 24, ..Rule::default() };
    let whole = Rule { family: 6, destination_length: 128, ..Rule::default() };
    let long = Rule { family: 4, destination_length: 33, ..Rule::default() };
    let (spi, first) = (7, 41);
    let answer =
        |operator| Entry::CheckResponse { spi, id: 70_000, first, body: ANSWER.to_vec(), operator };
    let clone =
        |operator| Entry::Clone { spi, new_spi: 1 << 40, first, body: CLONE.to_vec(), operator };
    vec![
        Entry::OpenBoth(Opening {
            spi: 1 << 40,
            agreed: 1,
            pair: PAIR,
            child: 300,
            peer: 70_000,
            cloning: 1,
            operator: 1,
        }),
        Entry::OpenBoth(Opening { spi: 8, pair: IPV6, child: 10, ..Opening::default() }),
        Entry::AddIpsec { spi: 11, owner: 7, operator: 0 },
        Entry::AddIpsec { spi: 7, owner: 11, operator: 1 },
        Entry::CloseIke { spi: 7, operator: 0 },
        Entry::CloseIpsec { spi: 9, operator: 0 },
        Entry::Request(request()),
        Entry::Request(Request { first: 200, body: vec![0, 0x80, 0, 4], operator: 1, ..request() }),
        Entry::policy(&[narrow, whole], 0),
        Entry::policy(&[long], 1),
        answer(0),
        Entry::CheckResponse { spi: 1 << 40, id: 300, first: 0, body: vec![], operator: 1 },
        clone(0),
        Entry::Clone { spi: 1 << 40, new_spi: 7, first: 0, body: vec![], operator: 1 },
        Entry::MarkDeletion { spi: 7, operator: 0 },
        Entry::MarkDeletion { spi: 1 << 40, operator: 1 },
    ]
}

/// What stands before an entry: an opening, and a policy.
fn start() -> Vec<u8> {
    [examples::opening(), examples::any_ipv4()].concat()
}

/// Each number of each sample in each form with an entry behind it, and of every other sample alone too.
fn forms() -> Vec<Vec<u8>> {
    let mut traces = Vec::new();
    for (number, sample) in samples().into_iter().enumerate() {
        let parts = parts(&sample);
        traces.push([start(), parts.concat()].concat());
        for (place, forms) in numbers_with_forms(&sample) {
            for form in forms {
                let mut parts = parts.clone();
                parts[place] = form;
                let trace = [start(), parts.concat()].concat();
                traces.push([&trace[..], &[2, 7, 0]].concat());
                if number % 2 == 0 {
                    traces.push(trace);
                }
            }
            // The octets end with this number, or inside it.
            let to_number = [start(), parts[..=place].concat()].concat();
            traces.push(to_number[..to_number.len() - 1].to_vec());
            traces.push(to_number);
        }
    }
    traces
}

/// Kinds with nothing behind them, and with octets enough for any fields.
fn kinds() -> Vec<Vec<u8>> {
    let mut traces = Vec::new();
    for kind in (0..=260).chain(UNKNOWN_KINDS) {
        let kind = Plain.number(kind);
        traces.push([&kind[..], &[0; 100]].concat());
        traces.push([start(), kind].concat());
    }
    traces
}

/// Every count of rules about those allowed, with all of them, one less, or an octet less.
fn counts() -> Vec<Vec<u8>> {
    let whole = entry_octets(&Entry::policy(&[Rule { family: 4, ..Rule::default() }], 0));
    let rule = whole[2..whole.len() - 1].to_vec();
    let mut traces = Vec::new();
    for count in 0..=MOST_RULES as u8 + 2 {
        let rules = rule.repeat(usize::from(count));
        let whole = [&[5, count], &rules[..], &[count % 2]].concat();
        if count > 0 {
            traces.push(whole[..whole.len() - 1].to_vec());
            traces.push(whole[..whole.len() - rule.len()].to_vec());
        }
        traces.push([&whole[..], &[2, 7, 0]].concat());
        traces.push(whole);
    }
    traces
}

/// Each string of a request, of a check response and of a clone with every length that matters, whole and cut.
fn lengths() -> Vec<Vec<u8>> {
    let mut traces = Vec::new();
    let most = MOST_OCTETS;
    for length in
        [0, 1, 7, 8, 18, 19, 20, 21, 64, 65, 127, 128, 129, most - 1, most, most + 1, most + 2]
    {
        let octets = vec![0; length];
        let requests = [
            Request { nat_source: octets.clone(), ..request() },
            Request { nat_destination: octets.clone(), ..request() },
            Request { body: octets.clone(), ..request() },
            Request { first: 0, body: octets.clone(), ..request() },
            Request { cookie: octets.clone(), ..request() },
        ];
        for request in requests {
            let whole = [start(), entry_octets(&Entry::Request(request))].concat();
            traces.push(whole[..whole.len() - 1].to_vec());
            traces.push(whole[..whole.len() - length.min(30)].to_vec());
            traces.push([&whole[..], &[2, 7, 0]].concat());
            traces.push(whole);
        }
        let body = octets.clone();
        let response = Entry::CheckResponse { spi: 7, id: 1, first: 0, body, operator: 0 };
        let clone = Entry::Clone { spi: 7, new_spi: 8, first: 41, body: octets, operator: 0 };
        for entry in [response, clone] {
            let whole = [start(), entry_octets(&entry)].concat();
            traces.push(whole[..whole.len() - 1].to_vec());
            traces.push([&whole[..], &[2, 7, 0]].concat());
        }
    }
    traces
}

/// One trace cut at every octet.
fn cuts() -> Vec<Vec<u8>> {
    let whole = examples::all_kinds();
    (0..=whole.len()).map(|length| whole[..length].to_vec()).collect()
}

pub(super) fn night(seed: u64, size: usize) -> Vec<u8> {
    trace_octets(&nights::entries(&mut Rng::from_words(&[seed]), size))
}

fn some_nights() -> Vec<Vec<u8>> {
    (0..30).map(|seed| night(seed, 3_000)).collect()
}

/// Past the longest entry, past 65,536 octets and of some megabytes, read to the end and refused there.
fn long() -> Vec<Vec<u8>> {
    let closings = [2, 7, 0].repeat(22_000);
    let nights = [night(30, 30_000), night(31, 90_000), night(32, 3_000_000)];
    let refused = nights.clone().map(|night| [night, vec![4, 7]].concat());
    let all_refused = [&closings[..], &[9]].concat();
    nights.into_iter().chain(refused).chain([closings, all_refused]).collect()
}
