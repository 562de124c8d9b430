// The request handler: what a request gives back and writes, and what it does to the tables.
use crate::cookie::hand_out;
use crate::notifications::{first_type, octets, Notification};
use crate::outcome::Place;
use crate::reply::{Handled, Reply};
use crate::request::{Failed, Passed, Request};
use crate::response::Served;
use crate::rules::{ChainRules, RequestRules, Rules};
use crate::steps::{self, Effect};
use crate::tables::Tables;

pub fn handle<'a>(request: &'a Request, tables: &mut Tables, rules: &impl Rules) -> Handled<'a> {
    let of_requests = rules.requests();
    let (mut reply, response) = match request.check(tables, rules) {
        Ok(passed) => serve(request, &passed, tables, rules),
        Err(failed) => {
            let (reply, response) = match failed {
                Failed::Refused(refusal) => {
                    (Reply { number: refusal as u8, ..Reply::default() }, vec![])
                }
                Failed::Flawed(flaw) => {
                    let number = rules.chain().number(flaw.cause);
                    let response = of_requests.to_flawed(request, &flaw);
                    (of_requests.reply_to_flawed(number, &flaw), response)
                }
            };
            (Reply { cookie: of_requests.cookie_of_refused(request), ..reply }, response)
        }
    };
    let (at, length) = reply.cookie.as_told();
    reply.handed_out = hand_out(&request.body, at, length, rules.parts());
    let response = octets(&response);
    reply.first = first_type(&response);
    reply.length = response.len();
    Handled { reply, output: of_requests.output(&request.output, &response) }
}

/// Steps 1 to 4.
fn serve<'a>(
    request: &Request,
    passed: &Passed<'a>,
    tables: &mut Tables,
    rules: &impl Rules,
) -> (Reply<'a>, Vec<Notification>) {
    let of_requests = rules.requests();
    let Passed { place, summary } = passed;
    let updated = steps::update(request, passed, tables, rules);
    let record = &mut tables.ike_mut()[*place];
    steps::tally(record, summary, updated, rules);
    steps::pending(record, request, updated, of_requests);
    let (mut list, mut left_off) = (Effect::None, 0);
    let update = updated.unwrap_or(Effect::None);
    if of_requests.looks_at_list(updated) {
        (list, left_off) = steps::list(record, request.id, summary, update, of_requests);
    }
    let reply = Reply {
        update: update as u8,
        list: list as u8,
        left_off,
        payloads: summary.payloads,
        cookie: Place::of(summary.cookie),
        ..Reply::default()
    };
    match updated {
        Ok(_) => {
            let served = Served { request, summary, update, list, record };
            (reply, of_requests.to_done(&served))
        }
        Err(unfit) => {
            let response = of_requests.to_unfit(request, unfit, summary);
            (of_requests.reply_to_unfit(unfit, reply), response)
        }
    }
}

#[cfg(test)]
mod tests {
    use super::*;
    use crate::address::AddressPair;
    use crate::agreed::Agreed;
    use crate::pending::PendingCheck;
    use crate::policy::Rule;
    use crate::rules::Plain;
    use crate::tables::{IkeRecord, IpsecRecord, Record};

    const OLD: AddressPair = AddressPair { family: 4, source_port: 1, ..AddressPair::ZERO };
    const NEW: AddressPair = AddressPair { family: 4, source_port: 2, ..AddressPair::ZERO };
    /// Not acceptable.
    const IPV6: AddressPair = AddressPair { family: 6, ..NEW };

    const UPDATE: [u8; 4] = [0, 0, 0x40, 0x10];
    const NO_ADDITIONAL: [u8; 4] = [0, 0, 0x40, 0x0f];

    /// An IKE record, an IPsec record of it, and one of another behind the same address.
    fn tables() -> Tables {
        let mut tables = Tables::empty();
        let agreed = Agreed { mobike: 1, ..Agreed::NOTHING };
        tables.ike_mut()[0] = IkeRecord { spi: 7, agreed, pair: OLD, ..IkeRecord::FREE };
        tables.ipsec_mut()[0] = IpsecRecord { spi: 1, owner: 7, pair: OLD };
        tables.ipsec_mut()[1] = IpsecRecord { spi: 2, owner: 8, pair: OLD };
        tables.policies[0].count = 1;
        tables.policies[0].rules[0] = Rule { family: 4, ..Rule::ZERO };
        tables
    }

    fn address(last: u8) -> Vec<u8> {
        vec![0, 0, 0x40, 0x0d, 10, 0, 0, last]
    }

    /// A request whose notifications are given without their headers.
    fn request(id: u32, pair: AddressPair, notifications: &[&[u8]]) -> Request {
        let mut body = Vec::new();
        for (place, content) in notifications.iter().enumerate() {
            let next = if place + 1 < notifications.len() { 41 } else { 0 };
            body.extend([next, 0, 0, 4 + content.len() as u8]);
            body.extend_from_slice(content);
        }
        let (nat_source, nat_destination) = (vec![3; 20], vec![4; 20]);
        let first = if body.is_empty() { 0 } else { 41 };
        let output = vec![0xff; 128];
        let (cookie, check_id) = (vec![6; 9], 77);
        Request {
            spi: 7,
            id,
            pair,
            nat_source,
            nat_destination,
            cookie,
            check_id,
            operator: 0,
            first,
            body,
            output,
        }
    }

    /// Number, update and list.
    fn made(tables: &mut Tables, request: &Request) -> (u8, u8, u8) {
        let Reply { number, update, list, .. } = handle(request, tables, &Plain).reply;
        (number, update, list)
    }

    #[test]
    fn a_refused_id_6_still_makes_id_5_stale() {
        let mut tables = tables();
        assert_eq!(made(&mut tables, &request(6, IPV6, &[&UPDATE])), (9, 0, 0));
        assert_eq!(made(&mut tables, &request(5, NEW, &[&UPDATE])), (0, 2, 0));
        assert_eq!(made(&mut tables, &request(5, IPV6, &[&UPDATE])), (0, 2, 0));
        assert_eq!(tables.ike.records[0].pair, OLD);
        assert_eq!(made(&mut tables, &request(7, NEW, &[&UPDATE])), (0, 1, 0));
    }

    #[test]
    fn update_7_does_not_stop_list_5() {
        let mut tables = tables();
        assert_eq!(made(&mut tables, &request(7, NEW, &[&UPDATE])), (0, 1, 0));
        assert_eq!(made(&mut tables, &request(5, NEW, &[&UPDATE, &address(1)])), (0, 2, 1));
        assert_eq!(made(&mut tables, &request(5, NEW, &[&NO_ADDITIONAL])), (0, 0, 2));
        assert_eq!(tables.ike.records[0].count, 1);
    }

    #[test]
    fn a_list_replaces_the_one_before() {
        let mut tables = tables();
        let three = [address(1), address(2), address(3)];
        let three: Vec<&[u8]> = three.iter().map(Vec::as_slice).collect();
        assert_eq!(made(&mut tables, &request(1, NEW, &three)), (0, 0, 1));
        let before = tables.ike.records[0];
        assert_eq!(made(&mut tables, &request(2, NEW, &[&address(9)])), (0, 0, 1));
        let after = tables.ike.records[0];
        assert_eq!((before.count, after.count), (3, 1));
        assert_eq!(after.addresses[0].octets[..4], [10, 0, 0, 9]);
        assert_eq!(after.addresses[1..], IkeRecord::FREE.addresses[1..]);
    }

    #[test]
    fn no_nats_allowed_is_compared_with_the_packet() {
        let told = |port| [&[0, 0, 0x40, 0x12][..], &[0; 8], &[0, port, 0, 0]].concat();
        let mut tables = tables();
        assert_eq!(made(&mut tables, &request(1, NEW, &[&told(1), &UPDATE])), (8, 0, 0));
        assert_eq!(made(&mut tables, &request(2, NEW, &[&UPDATE, &told(2)])), (0, 1, 0));
        assert_eq!(made(&mut tables, &request(3, IPV6, &[&UPDATE, &told(2)])), (8, 0, 0));
        assert_eq!(made(&mut tables, &request(4, NEW, &[&told(1)])), (0, 0, 0));
    }

    #[test]
    fn an_applied_update_moves_the_ike_record_and_begins_a_check() {
        let mut tables = tables();
        let before = tables.ipsec.clone();
        assert_eq!(made(&mut tables, &request(0, NEW, &[&UPDATE])), (0, 1, 0));
        assert_eq!(tables.ike.records[0].pair, NEW);
        assert_eq!(tables.ike.records[0].check, PendingCheck::of(&[6; 9], 77));
        assert_eq!(tables.ipsec, before);
    }

    #[test]
    fn only_an_applied_update_replaces_the_check() {
        let check = PendingCheck { length: 64, octets: [8; 64], id: 3 };
        let mut tables = tables();
        tables.ike_mut()[0].check = check;
        tables.ike_mut()[0].update_mark = 6;
        let others =
            [request(5, NEW, &[&UPDATE]), request(7, IPV6, &[&UPDATE]), request(8, NEW, &[])];
        for (request, made_of_it) in others.iter().zip([(0, 2, 0), (9, 0, 0), (0, 0, 0)]) {
            assert_eq!(made(&mut tables, request), made_of_it);
            assert_eq!(tables.ike.records[0].check, check);
        }
        assert_eq!(made(&mut tables, &request(9, NEW, &[&UPDATE])), (0, 1, 0));
        assert_eq!(tables.ike.records[0].check, PendingCheck::of(&[6; 9], 77));
    }

    #[test]
    fn a_cookie_of_another_length_is_refused_with_an_update_or_without() {
        for length in [0, 7, 65, 264] {
            let mut tables = tables();
            let before = tables.clone();
            for notifications in [&[&UPDATE[..]][..], &[]] {
                let cookie = vec![1; length];
                let request = Request { cookie, ..request(1, NEW, notifications) };
                assert_eq!(made(&mut tables, &request), (1, 0, 0));
            }
            assert_eq!(tables, before);
        }
    }

    #[test]
    fn an_ipsec_list_of_another_length_is_refused_first() {
        for length in [0, 1, 127, 129, 300] {
            let mut tables = tables().with_ipsec_length(length);
            let before = tables.clone();
            let sound = request(1, NEW, &[&UPDATE]);
            let unknown = Request { spi: 9, ..sound.clone() };
            let short = Request { output: vec![], ..sound.clone() };
            for request in [sound, unknown, short] {
                assert_eq!(made(&mut tables, &request), (1, 0, 0));
            }
            assert_eq!(tables, before);
        }
    }

    #[test]
    fn a_cookie_is_handed_out_of_the_body_unless_refused() {
        let cookie = [&[0, 0, 0x40, 0x11][..], &[5; 8]].concat();
        let sound = request(1, IPV6, &[&UPDATE, &cookie]);
        let handed_out = handle(&sound, &mut tables(), &Plain).reply.handed_out;
        assert_eq!(handed_out, Place::in_body(&sound.body, 16, 8));
        let flawed = request(1, NEW, &[&UPDATE, &cookie, &UPDATE]);
        let handed_out = handle(&flawed, &mut tables(), &Plain).reply.handed_out;
        assert_eq!(handed_out, Place::default());
    }

    #[test]
    fn a_request_is_its_operators_and_is_judged_by_that_ones_policy() {
        let mut tables = tables();
        let asked = request(1, NEW, &[&UPDATE]);
        let before = tables.clone();
        for (operator, number) in [(1, 4), (2, 1), (255, 1)] {
            let asked = Request { operator, ..asked.clone() };
            assert_eq!(made(&mut tables, &asked), (number, 0, 0));
            assert!(!asked.is_sound(&tables, &Plain));
        }
        assert_eq!(tables, before);
        tables.ike_mut()[0].agreed.operator = 1;
        let asked = Request { operator: 1, ..asked };
        assert_eq!(made(&mut tables, &asked), (9, 0, 0));
        tables.policies[1] = tables.policies[0];
        tables.policies[0].count = 0;
        let asked = Request { id: 2, ..asked };
        assert_eq!(made(&mut tables, &asked), (0, 1, 0));
        // The lowest place is meant, whosever it is.
        tables.ike_mut()[1] = tables.ike.records[0];
        tables.ike_mut()[0].agreed.operator = 0;
        assert_eq!(made(&mut tables, &asked), (4, 0, 0));
        tables.ike_mut()[0].agreed.operator = 2;
        assert_eq!(made(&mut tables, &asked), (4, 0, 0));
    }

    fn detection(last: u8) -> Vec<u8> {
        [&[0, 0, 0x40, last][..], &[9; 20]].concat()
    }

    /// The two lent values, with this next type after them.
    fn values(next: u8) -> Vec<u8> {
        let source = [&[41, 0, 0, 28, 0, 0, 0x40, 4][..], &[3; 20]].concat();
        let destination = [&[next, 0, 0, 28, 0, 0, 0x40, 5][..], &[4; 20]].concat();
        [source, destination].concat()
    }

    /// Checks the response to a request that is done and changes no table.
    fn leaves_tables(tables: &Tables, request: &Request, response: &[u8]) {
        let mut after = tables.clone();
        let handled = handle(request, &mut after, &Plain);
        assert_eq!(handled.reply.number, 0);
        assert_eq!(handled.response(), response);
        assert_eq!(handled.reply.first, if response.is_empty() { 0 } else { 41 });
        assert_eq!(&after, tables);
    }

    #[test]
    fn a_keepalive_with_both_kinds_gets_the_lent_values() {
        let (source, destination) = (detection(4), detection(5));
        let other = [&[0, 0, 0x40, 0x12][..], &[1; 12]].concat();
        let mut marked = tables();
        marked.ike_mut()[0].update_mark = 9;
        for tables in [tables(), marked] {
            for pair in [OLD, NEW, IPV6] {
                let chains: [&[&[u8]]; 4] = [
                    &[&source, &destination],
                    &[&destination, &source],
                    &[&source, &destination, &source],
                    &[&source, &other, &destination],
                ];
                for chain in chains {
                    leaves_tables(&tables, &request(5, pair, chain), &values(0));
                }
            }
        }
    }

    #[test]
    fn a_keepalive_with_less_than_both_kinds_gets_none() {
        let (source, destination) = (detection(4), detection(5));
        let chains: [&[&[u8]]; 4] = [&[], &[&source], &[&destination], &[&source, &source]];
        for chain in chains {
            leaves_tables(&tables(), &request(5, NEW, chain), &[]);
        }
        let cookie = [&[0, 0, 0x40, 0x11][..], &[5; 8]].concat();
        let copied = [&[0, 0, 0, 16][..], &cookie].concat();
        leaves_tables(&tables(), &request(5, NEW, &[&source, &cookie]), &copied);
        let both = [values(41), copied].concat();
        leaves_tables(&tables(), &request(5, NEW, &[&cookie, &destination, &source]), &both);
    }

    #[test]
    fn lists_and_stale_updates_get_the_lent_values_too() {
        let (source, destination) = (detection(4), detection(5));
        let mut tables = tables();
        let listing = request(5, NEW, &[&source, &address(1), &destination]);
        for list in [1, 2] {
            let handled = handle(&listing, &mut tables, &Plain);
            assert_eq!((handled.reply.update, handled.reply.list), (0, list));
            assert_eq!(handled.response(), values(0));
        }
        tables.ike_mut()[0].update_mark = 9;
        let stale = request(5, IPV6, &[&source, &UPDATE, &destination]);
        leaves_tables(&tables, &stale, &values(0));
    }

    #[test]
    fn refused_updates_get_no_lent_values() {
        let chain: [&[u8]; 3] = [&detection(4), &detection(5), &UPDATE];
        let request = request(1, IPV6, &chain);
        let handled = handle(&request, &mut tables(), &Plain);
        assert_eq!(handled.reply.number, 9);
        assert_eq!(handled.response(), [0, 0, 0, 8, 0, 0, 0, 40]);
    }

    #[test]
    fn the_longest_response_fills_the_least_output() {
        let cookie = [&[1, 0, 0x40, 0x11][..], &[5; 64]].concat();
        let mut expected = values(41);
        expected.extend([0, 0, 0, 72, 0, 0, 0x40, 0x11]);
        expected.extend([5; 64]);
        let asked: [&[u8]; 4] = [&cookie, &detection(5), &detection(4), &UPDATE];
        for asked in [&asked[..], &asked[..3]] {
            let request = request(0, NEW, asked);
            let handled = handle(&request, &mut tables(), &Plain);
            assert_eq!(handled.response(), expected);
            assert_eq!((handled.reply.cookie.offset, handled.reply.cookie.length), (8, 64));
        }
    }
}
