// The lists every run begins with: late and repeated updates, lists, keepalives and check responses, in every order
// of three.
use super::super::operators::suit_asked;
use super::super::reader::draft::{ChainDraft, Draft};
use super::super::requests::listed::responses::nat_detection;
use super::super::requests::listed::setting::{self, cookie, list, packet, request, update};
use super::super::tables::spis;
use super::Case;
use crate::address::AddressPair;
use crate::asked::Asked;
use crate::check::CheckResponse;
use crate::notify::NotifyType;
use crate::orders::Order;
use crate::request::Request;
use crate::tables::Tables;

const ORDERS_OF_3: [[usize; 3]; 6] =
    [[0, 1, 2], [0, 2, 1], [1, 0, 2], [1, 2, 0], [2, 0, 1], [2, 1, 0]];

pub fn all() -> Vec<Case> {
    let mut cases = Vec::new();
    let of_requests = lists().into_iter().map(|list| list.map(Asked::Request));
    for list in of_requests.chain(with_responses()) {
        for tables in tables() {
            for chance in ORDERS_OF_3 {
                let mut list = list.to_vec();
                list.iter_mut().for_each(|asked| suit_asked(&tables, asked));
                let chance: Order = chance.to_vec();
                cases.push(Case { tables: tables.clone(), list, chance });
            }
        }
    }
    cases.extend(of_two_operators());
    cases
}

/// All acceptable, none, IPv6 alone, a twin above the record that is meant, and IPsec lists of other
/// lengths.
fn tables() -> Vec<Tables> {
    let mut ipv6_only = setting::tables();
    ipv6_only.policies.iter_mut().for_each(|policy| policy.rules[0].family = 6);
    let mut twin = setting::tables();
    twin.ike_mut()[20].spi = setting::spi();
    let others = [0, 127, 129].map(|length| setting::tables().with_ipsec_length(length));
    [vec![setting::tables(), setting::closed_tables(), ipv6_only, twin], others.to_vec()].concat()
}

/// Updates, each with a check of its own, and responses that are right, wrong, an error, late, or refused.
fn with_responses() -> Vec<[Asked; 3]> {
    let updating = |id: u32, check: u32| {
        let pair = AddressPair { source_port: 1000 + id as u16, ..packet(6) };
        let of = request(&[update()]);
        Asked::Request(Request { id, pair, cookie: vec![check as u8; 8], check_id: check, ..of })
    };
    let answered = |check: u32, payloads: &[Draft]| {
        let chain = ChainDraft::of(payloads.to_vec()).assemble();
        let (first, body) = (chain.first, chain.body);
        Asked::Check(CheckResponse { spi: setting::spi(), id: check, first, body, operator: 0 })
    };
    let cookie = |octet: u8| Draft::notify(NotifyType::COOKIE2, &[octet; 8]);
    let right = |check: u32| answered(check, &[cookie(check as u8)]);
    let wrong = |check: u32| answered(check, &[cookie(99)]);
    let error = |check: u32| answered(check, &[Draft::notify(NotifyType(7), &[])]);
    let flawed = |check: u32| answered(check, &[cookie(1), cookie(1)]);
    let elsewhere = |asked: Asked| match asked {
        Asked::Request(request) => Asked::Request(Request { spi: spis::ike(2), ..request }),
        Asked::Check(response) => Asked::Check(CheckResponse { spi: spis::ike(2), ..response }),
    };
    // The check that the other record has at first.
    let standing = setting::tables().ike.records[2].check;
    let own = || {
        let sent = standing.cookie().unwrap_or_default();
        elsewhere(answered(standing.id, &[Draft::notify(NotifyType::COOKIE2, sent)]))
    };
    vec![
        [updating(6, 1), right(1), own()],
        [own(), updating(6, 1), wrong(1)],
        [updating(6, 1), right(1), updating(7, 2)],
        [updating(6, 1), updating(7, 2), right(2)],
        [updating(6, 1), updating(7, 2), right(1)],
        [updating(6, 1), wrong(1), updating(7, 2)],
        [updating(6, 1), error(1), right(1)],
        [updating(6, 1), flawed(1), right(1)],
        [updating(6, 1), right(1), right(1)],
        [wrong(1), updating(6, 1), elsewhere(updating(7, 1))],
        [updating(6, 1), elsewhere(right(1)), wrong(1)],
        [updating(6, 1), updating(7, 1), wrong(1)],
        [updating(6, 1), updating(3, 2), right(1)],
        [updating(6, 1), updating(7, 2), answered(5, &[])],
    ]
}

/// Calls of which one names the other operator, on records of which the upper one is the other's, with a check that is
/// wrong, right or none.
fn of_two_operators() -> Vec<Case> {
    let mut twins = setting::tables();
    let standing = twins.ike.records[setting::PLACE].check;
    let twin = &mut twins.ike_mut()[20];
    (twin.spi, twin.agreed.operator) = (setting::spi(), 1);
    (twin.update_mark, twin.list_mark) = (0, 0);
    let check = |octets: &[u8]| {
        let chain = ChainDraft::of(vec![Draft::notify(NotifyType::COOKIE2, octets)]).assemble();
        let (id, first, body) = (standing.id, chain.first, chain.body);
        Asked::Check(CheckResponse { spi: setting::spi(), id, first, body, operator: 0 })
    };
    let sent = standing.cookie().unwrap_or_default();
    let updating = |id: u32, operator: u8| {
        let pair = AddressPair { source_port: 1000 + id as u16, ..packet(6) };
        Asked::Request(Request { id, pair, operator, ..request(&[update(), cookie(8)]) })
    };
    let mut lists = Vec::new();
    for other in [1, 2, 255] {
        lists.extend([
            [check(&[99; 8]), updating(6, other), updating(7, 0)],
            [check(sent), updating(6, other), updating(7, 0)],
            [updating(6, 0), updating(8, other), updating(7, 0)],
            [updating(6, other), updating(7, other), updating(8, 0)],
            [updating(6, other), updating(7, 0), updating(6, 0)],
        ]);
    }
    let mut cases = Vec::new();
    for tables in [setting::tables(), twins] {
        for list in &lists {
            for chance in ORDERS_OF_3 {
                let (tables, list, chance) = (tables.clone(), list.to_vec(), chance.to_vec());
                cases.push(Case { tables, list, chance });
            }
        }
    }
    cases
}

fn lists() -> Vec<[Request; 3]> {
    let numbered = |id: u32, of: Request| {
        let pair = AddressPair { source_port: 1000 + id as u16, ..of.pair };
        Request { id, pair, ..of }
    };
    let updating = |id| numbered(id, request(&[update(), cookie(8)]));
    let refused = |id| Request { pair: packet(4), ..updating(id) };
    let listing = |id, size| numbered(id, request(&list(size)));
    let both = |id, size| numbered(id, request(&[&[update()], &list(size)[..]].concat()));
    let keepalive = |id| numbered(id, request(&nat_detection(&[0, 1])));
    let one_kind = |id| numbered(id, request(&nat_detection(&[1])));
    let of_other = |of: Request| Request { spi: spis::ike(2), ..of };
    let of_none = |of: Request| Request { spi: 0, ..of };
    vec![
        [updating(6), updating(7), updating(8)],
        [updating(3), updating(4), updating(5)],
        [updating(6), updating(6), updating(7)],
        [updating(6), refused(7), updating(8)],
        [updating(6), refused(8), updating(7)],
        [listing(6, 3), listing(7, 0), listing(8, 17)],
        [updating(7), listing(6, 2), updating(8)],
        [both(6, 1), both(8, 2), both(7, 20)],
        [listing(7, 1), listing(7, 2), updating(7)],
        [updating(8), Request { pair: packet(4), ..both(7, 1) }, updating(9)],
        [updating(6), of_other(updating(7)), updating(8)],
        [of_none(updating(6)), updating(7), of_none(updating(8))],
        [updating(9), numbered(9, request(&[cookie(8)])), listing(10, 1)],
        [keepalive(6), updating(7), keepalive(8)],
        [keepalive(9), updating(8), keepalive(7)],
        [updating(6), keepalive(8), updating(7)],
        [updating(6), keepalive(6), refused(7)],
        [keepalive(6), of_other(keepalive(7)), one_kind(8)],
        [listing(6, 2), keepalive(7), of_none(keepalive(8))],
    ]
}
