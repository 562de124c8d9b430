// Checks 1 to 7: every set of those that fail together, and boundary sizes of all arguments.
use super::super::super::reader::draft::Draft;
use super::super::super::reader::listed as chains;
use super::super::super::tables::spis;
use super::setting::{self, case, cookie, packet, request, update};
use super::Case;
use crate::address::AddressPair;
use crate::chain::NOTIFY;
use crate::reader::MAX_BODY;
use crate::request::Request;
use crate::tables::IKE_PLACES;
use std::rc::Rc;

pub fn all() -> Vec<Case> {
    [together(), pairs(), lent_values(), lent_cookies(), outputs(), listed_chains()].concat()
}

/// An argument that is passed or fails its checks.
type Choice = Box<dyn Fn(&mut Case)>;

/// An IPsec list of this length, made once.
fn with_list(length: usize) -> Choice {
    let list = setting::tables().with_ipsec_length(length).ipsec;
    Box::new(move |case| case.tables.ipsec = Rc::clone(&list))
}

fn on_request(change: impl Fn(&mut Request) + 'static) -> Choice {
    Box::new(move |case| change(&mut case.request))
}

/// The ways to pass or fail of each argument.
fn choices() -> Vec<Vec<Choice>> {
    let absent = spis::ike(IKE_PLACES);
    vec![
        [128, 0, 127, 129, 300].map(with_list).into(),
        vec![
            on_request(|_| {}),
            on_request(|request| request.spi = 0),
            on_request(move |request| request.spi = absent),
            Box::new(|case| case.tables.ike_mut()[setting::PLACE].agreed.mobike = 0),
        ],
        vec![on_request(|_| {}), on_request(|request| request.pair.family = 5)],
        vec![on_request(|_| {}), on_request(|request| request.nat_source.truncate(19))],
        vec![on_request(|_| {}), on_request(|request| request.nat_destination.push(0))],
        vec![on_request(|_| {}), on_request(|request| request.cookie.truncate(7))],
        vec![on_request(|_| {}), on_request(|request| request.output.truncate(127))],
        vec![
            on_request(|_| {}),
            on_request(|request| request.body = vec![0; MAX_BODY + 1]),
            // The second payload is a Notify under 8 octets.
            on_request(|request| request.body[11] = 7),
            on_request(|request| request.first = 200),
            on_request(|request| (request.first, request.body[1]) = (200, 0x80)),
        ],
    ]
}

/// Every choice of each argument with every one of the others.
fn together() -> Vec<Case> {
    let mut cases = vec![case(request(&[update(), cookie(8)]))];
    for choices in choices() {
        let chosen = cases.iter().flat_map(|case| {
            choices.iter().map(move |choice| {
                let mut case = case.clone();
                choice(&mut case);
                case
            })
        });
        cases = chosen.collect();
    }
    cases
}

/// Every family, and a bit in every octet of an IPv4 pair.
fn pairs() -> Vec<Case> {
    let of_family = |family| AddressPair { family, ..packet(6) };
    let with_bit = |place: usize| {
        let mut pair = packet(4);
        let octets = if place < 16 { &mut pair.source } else { &mut pair.destination };
        octets[place % 16] ^= 1;
        pair
    };
    let pairs = (0..=255).map(of_family).chain((0..32).map(with_bit));
    pairs.map(|pair| case(Request { pair, ..request(&[update()]) })).collect()
}

/// Lent values of all small lengths, with an update or without, where they are asked for or aren't.
fn lent_values() -> Vec<Case> {
    let keepalive = super::responses::nat_detection(&[0, 1]);
    let updating = [&keepalive[..], &[update()]].concat();
    let mut cases = Vec::new();
    for length in (0..=24).chain([255, 276]) {
        for payloads in [&[][..], &[update()], &keepalive, &updating] {
            let value = vec![7; length];
            let request = request(payloads);
            let source = Request { nat_source: value.clone(), ..request.clone() };
            let destination = Request { nat_destination: value.clone(), ..request.clone() };
            let both = Request { nat_source: value.clone(), nat_destination: value, ..request };
            cases.extend([source, destination, both].map(case));
        }
    }
    cases
}

/// Lent cookies of all lengths about those allowed, with every effect.
fn lent_cookies() -> Vec<Case> {
    let mut cases = Vec::new();
    for length in (0..=70).chain([128, 255, 256, 264, 300, 320, 65_536 + 8, 65_536 + 64]) {
        for request in setting::each_effect() {
            cases.push(case(Request { cookie: setting::lent_cookie(length), ..request }));
        }
    }
    cases
}

/// Outputs of all lengths that matter, for the empty, the shortest and the longest response, the
/// last with an update and without.
fn outputs() -> Vec<Case> {
    let longest = [super::responses::nat_detection(&[0, 1]), vec![cookie(64), update()]].concat();
    let keepalive = &longest[..3];
    let flawed = vec![Draft::payload(NOTIFY, 0, vec![])];
    let mut cases = Vec::new();
    for length in [0, 1, 8, 127, 128, 129, 255, 256, 300, 564, 65535, 65536, 70000] {
        for payloads in [&[][..], &longest, keepalive, &flawed] {
            let output = vec![0xa5; length];
            cases.push(case(Request { output, ..request(payloads) }));
        }
    }
    cases
}

/// The reader's listed chains, as requests.
fn listed_chains() -> Vec<Case> {
    let as_request = |chain: super::super::super::reader::Case| {
        case(Request { first: chain.first, body: chain.body, ..request(&[]) })
    };
    chains::all().into_iter().map(as_request).collect()
}
