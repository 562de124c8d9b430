//! Every field of the structs that the library is given: it changes a result that is known, so that a
//! field at a wrong offset would be seen.
mod common;
use common::*;
use unmavreth::{
    acceptable, addresses, no_nats, write, Address, Agreed, Ask, Draft, Effect, Flag, Gateway,
    IkeRecord, IpsecRecord, Number, Opening, Operator, Outcome, Pair, PendingCheck, Policy,
    Request, Rule, Seen,
};

/// Octets that are all different.
fn octets(from: u8) -> [u8; 16] {
    std::array::from_fn(|at| from + at as u8)
}

fn written(draft: &Draft) -> Vec<u8> {
    let mut out = [0; 564];
    let written = write(draft, &mut out);
    assert_eq!(written.number(), Number::Done);
    written.body(&out).to_vec()
}

#[test]
fn a_pair_is_written_field_by_field() {
    let ask = Ask { no_nats: true, ..Ask::default() };
    let pair = Pair::ipv6((octets(1), 0x1234), (octets(101), 0x5678));
    let data = [&octets(1)[..], &octets(101), &[0x12, 0x34, 0x56, 0x78]].concat();
    let draft = Draft { ask, pair, ..Draft::default() };
    assert_eq!(written(&draft), chain(&[notify(NO_NATS, &data)]).1);
    let draft = Draft { ask, pair: NEW, ..Draft::default() };
    let data = [198, 51, 100, 7, 192, 0, 2, 1, 0x11, 0x94, 0x11, 0x95];
    assert_eq!(written(&draft), chain(&[notify(NO_NATS, &data)]).1);
}

#[test]
fn an_ask_asks_for_each() {
    let [nat_source, nat_destination] = &VALUES;
    let mut list = [Address::NONE; 16];
    (list[0], list[1]) = (Address::ipv4([10, 0, 0, 1]), Address::ipv6(octets(1)));
    let draft = |ask, cookie| Draft {
        ask,
        pair: NEW,
        addresses: list,
        nat_source,
        nat_destination,
        cookie,
    };
    let none = Ask::default();
    let update = notify(UPDATE, &[]);
    let asked = Ask { update: true, ..none };
    assert_eq!(written(&draft(asked, &[])), chain(&[update]).1);
    let asked = Ask { nat_source: true, nat_destination: true, ..none };
    let both = [notify(NAT_SOURCE, nat_source), notify(NAT_DESTINATION, nat_destination)];
    assert_eq!(written(&draft(asked, &[])), chain(&both).1);
    let asked = Ask { no_additional: true, ..none };
    let both = [notify(NO_ADDITIONAL, &[]), notify(COOKIE2, &COOKIE)];
    assert_eq!(written(&draft(asked, &COOKIE)), chain(&both).1);
    let asked = Ask { count: 2, ..none };
    let both = [notify(IP4, &[10, 0, 0, 1]), notify(IP6, &octets(1))];
    assert_eq!(written(&draft(asked, &[])), chain(&both).1);
    let asked = Ask { clone_supported: true, ..none };
    assert_eq!(written(&draft(asked, &[])), chain(&[notify(CLONE_SUPPORTED, &[])]).1);
    let asked = Ask { clone: true, ..none };
    assert_eq!(written(&draft(asked, &[])), chain(&[notify(CLONE, &[])]).1);
    for one in [Ask { nat_source: true, ..none }, Ask { nat_destination: true, ..none }] {
        assert_eq!(write(&draft(one, &[]), &mut [0; 564]).number(), Number::BadArgument);
    }
}

#[test]
fn each_of_sixteen_addresses_is_written() {
    let addresses = std::array::from_fn(|at| Address::ipv6(octets(10 * at as u8)));
    let draft = Draft { ask: Ask { count: 16, ..Ask::default() }, addresses, ..Draft::default() };
    let listed: Vec<Payload> = addresses.iter().map(|one| notify(IP6, &one.octets)).collect();
    assert_eq!(written(&draft), chain(&listed).1);
}

/// Only rule `place` of a policy matters, its prefixes taken whole; the same for either operator.
fn accepts_at(place: usize, rule: Rule, pair: &Pair) -> bool {
    let mut policy = Policy { count: place as u16 + 1, ..Policy::EMPTY };
    policy.rules[place] = rule;
    let accepted = accepts(policy, pair);
    policy.count -= 1;
    assert!(!accepts(policy, pair), "a rule past the count");
    accepted
}

/// The policy as A's and as B's; the other and one that is neither have no rules.
fn accepts(policy: Policy, pair: &Pair) -> bool {
    let of_a = [policy, Policy::EMPTY];
    let of_b = [Policy::EMPTY, policy];
    let accepted = acceptable(&of_a, pair, A);
    assert_eq!(acceptable(&of_b, pair, B), accepted);
    assert!(!acceptable(&of_a, pair, B) && !acceptable(&of_b, pair, A));
    assert!(!acceptable(&[policy; 2], pair, Operator::from(2)));
    accepted
}

#[test]
fn each_field_of_each_rule_is_asked() {
    let pair = Pair::ipv6((octets(1), 1), (octets(101), 2));
    for place in 0..16 {
        let rule = Rule::ipv6((octets(1), 128), (octets(101), 128));
        assert!(accepts_at(place, rule, &pair));
        assert!(!accepts_at(place, Rule { family: 4, ..rule }, &pair));
        for at in 0..16 {
            let mut other = rule;
            other.source[at] ^= 1;
            assert!(!accepts_at(place, other, &pair));
            other.source_len = at as u8 * 8 + 7;
            assert!(accepts_at(place, other, &pair));
            let mut other = rule;
            other.destination[at] ^= 1;
            assert!(!accepts_at(place, other, &pair));
            other.destination_len = at as u8 * 8 + 7;
            assert!(accepts_at(place, other, &pair));
        }
    }
}

#[test]
fn a_policy_is_kept_as_it_is_set() {
    let rules: [Rule; 16] = std::array::from_fn(|at| {
        Rule::ipv6((octets(at as u8), at as u8), (octets(100 + at as u8), 128 - at as u8))
    });
    for (at, operator) in [A, B].into_iter().enumerate() {
        let mut policies = [Policy { count: 5, rules: [RULE; 16] }; 2];
        let other = policies[1 - at];
        assert_eq!(unmavreth::set_policy(&mut policies, 16, &rules, operator), Number::Done);
        assert_eq!(policies[at], Policy { count: 16, rules });
        assert_eq!(unmavreth::set_policy(&mut policies, 3, &rules, operator), Number::Done);
        assert_eq!((policies[at].count, &policies[at].rules[..3]), (3, &rules[..3]));
        assert_eq!(policies[at].rules[3..], [Rule::NONE; 13]);
        assert_eq!(policies[1 - at], other);
    }
}

#[test]
fn each_of_two_policies_is_asked() {
    let came = chain(&[notify(UPDATE, &[])]);
    for (at, operator) in [A, B].into_iter().enumerate() {
        let mut gateway = gateway();
        gateway.ike[0].agreed.operator = operator;
        gateway.policies = [Policy::EMPTY; 2];
        for set in [0, 1] {
            gateway.policies[set].count = 1;
            gateway.policies[set].rules[0] = RULE;
            let number = if set == at { Number::Done } else { Number::NotAcceptable };
            let told = gateway.handle(&Request { operator, ..request(&came) }, &mut [0; 128]);
            assert_eq!(told.number(), number);
            assert_eq!(gateway.acceptable(&NEW, operator), set == at);
            gateway.policies[set].count = 0;
            gateway.ike[0].update_mark = 0;
        }
    }
}

#[test]
fn what_was_seen_is_given_back() {
    let body: Vec<u8> = (0..200).collect();
    let mut seen = Seen { no_nats: 20, no_nats_len: 12, ..Seen::default() };
    let pair = Pair::ipv4(([20, 21, 22, 23], 0x1c1d), ([24, 25, 26, 27], 0x1e1f));
    assert_eq!(no_nats(&body, &seen), pair);
    seen.no_nats_len = 13;
    assert_eq!(no_nats(&body, &seen), Pair::NONE);
    seen.list.offsets = std::array::from_fn(|at| 8 + 11 * at as u16);
    seen.list.families = std::array::from_fn(|at| [4, 6, 6][at % 3]);
    assert_eq!(addresses(&body, &seen), [Address::NONE; 16]);
    seen.list.count = 16;
    for (at, told) in addresses(&body, &seen).iter().enumerate() {
        let from = 8 + 11 * at as u8;
        let four = Address::ipv4([from, from + 1, from + 2, from + 3]);
        let six = Address::ipv6(octets(from));
        assert_eq!(*told, [four, six, six][at % 3]);
    }
}

#[test]
fn each_field_of_a_record_matters() {
    let both = chain(&[notify(UPDATE, &[]), notify(NO_ADDITIONAL, &[]), bare(200)]);
    let told = |change: fn(&mut IkeRecord)| {
        let mut gateway = gateway();
        change(&mut gateway.ike[0]);
        let reply = gateway.handle(&Request { id: 5, ..request(&both) }, &mut [0; 128]);
        (reply.number(), reply.update(), reply.list(), gateway.ike[0].unknown)
    };
    let (done, applied, stale) = (Number::Done, Effect::Applied, Effect::Stale);
    assert_eq!(told(|_| ()), (done, applied, applied, 1));
    assert_eq!(told(|record| record.update_mark = 6), (done, stale, applied, 1));
    assert_eq!(told(|record| record.update_mark = 5), (done, applied, applied, 1));
    assert_eq!(told(|record| record.list_mark = 6), (done, applied, stale, 1));
    assert_eq!(told(|record| record.unknown = 0x0102_0304).3, 0x0102_0305);
    assert_eq!(told(|record| record.unknown = u32::MAX).3, u32::MAX);
    assert_eq!(told(|record| record.agreed.mobike = Flag::NO).0, Number::MobikeNotAgreed);
    assert_eq!(told(|record| record.agreed.operator = B).0, Number::NoSuchRecord);
    assert_eq!(told(|record| record.agreed.operator = 0x80.into()).0, Number::NoSuchRecord);
    assert_eq!(told(|record| record.spi = 1 << 40).0, Number::NoSuchRecord);
}

/// Those that a clone asks, and what it takes along.
#[test]
fn each_field_of_an_original_matters() {
    let told = |change: fn(&mut IkeRecord)| {
        let (mut gateway, came) = (gateway(), chain(&[notify(CLONE, &[])]));
        gateway.ike[0].agreed = Agreed { cloning: Flag::YES, peer: 0x0102_0304, ..AGREED };
        for at in 2..5 {
            gateway.ike[at] = IkeRecord { spi: at as u64, ..gateway.ike[0] };
        }
        change(&mut gateway.ike[0]);
        let reply = gateway.clone_ike(&clone_request(&came), &mut [0; 128]);
        (reply.number(), gateway.ike[5].agreed.peer)
    };
    assert_eq!(told(|_| ()), (Number::PeerAtLimit, 0));
    assert_eq!(told(|record| record.agreed.peer ^= 1), (Number::Done, 0x0102_0305));
    assert_eq!(told(|record| record.agreed.peer ^= 1 << 31), (Number::Done, 0x8102_0304));
    assert_eq!(told(|record| record.agreed.cloning = Flag::NO).0, Number::CloningNotAgreed);
    assert_eq!(told(|record| record.agreed.operator = B).0, Number::NoSuchRecord);
    assert_eq!(told(|record| record.deleting = Flag::YES).0, Number::CannotCloneNow);
    assert_eq!(told(|record| record.spi = 1 << 40).0, Number::NoSuchRecord);
}

#[test]
fn each_field_of_a_check_matters() {
    let cookie: [u8; 64] = std::array::from_fn(|at| at as u8 + 1);
    let sent = chain(&[notify(COOKIE2, &cookie)]);
    let told = |change: &dyn Fn(&mut PendingCheck)| {
        let mut gateway = gateway();
        gateway.ike[0].check = PendingCheck { length: 64, octets: cookie, id: CHECK_ID };
        change(&mut gateway.ike[0].check);
        let assessed = gateway.check(&response(&sent));
        (assessed.number(), assessed.outcome())
    };
    assert_eq!(told(&|_| ()), (Number::Done, Outcome::Accepted));
    for at in 0..64 {
        let closed = (Number::Done, Outcome::Close);
        assert_eq!(told(&|check| check.octets[at] ^= 1), closed, "octet {at}");
    }
    assert_eq!(told(&|check| check.length = 63), (Number::Done, Outcome::Close));
    for length in [0, 7, 65, 255] {
        let none = (Number::CheckNotPending, Outcome::None);
        assert_eq!(told(&|check| check.length = length), none, "length {length}");
    }
    for bit in 0..32 {
        let another = (Number::CheckNotPending, Outcome::None);
        assert_eq!(told(&|check| check.id ^= 1 << bit), another, "bit {bit} of the ID");
    }
}

#[test]
fn each_field_of_an_opening_is_kept() {
    let opened = |opening| {
        let mut gateway = Gateway::new();
        assert_eq!(gateway.open(&opening), Number::Done);
        (gateway.ike[0], gateway.ipsec[0])
    };
    let opening = Opening { spi: 7, agreed: Agreed::NONE, pair: OLD, child: 70 };
    let ike = IkeRecord { spi: 7, pair: OLD, ..IkeRecord::FREE };
    let ipsec = IpsecRecord { spi: 70, owner: 7, pair: OLD };
    assert_eq!(opened(opening), (ike, ipsec));
    let spi = 0x0102_0304_0506_0708;
    let both = (IkeRecord { spi, ..ike }, IpsecRecord { owner: spi, ..ipsec });
    assert_eq!(opened(Opening { spi, ..opening }), both);
    for agreed in [
        Agreed { mobike: Flag::YES, ..Agreed::NONE },
        Agreed { cloning: Flag::YES, ..Agreed::NONE },
        Agreed { operator: B, ..Agreed::NONE },
        Agreed { peer: 0x1122_3344, ..Agreed::NONE },
    ] {
        assert_eq!(opened(Opening { agreed, ..opening }), (IkeRecord { agreed, ..ike }, ipsec));
    }
    let pair = Pair::ipv6((octets(1), 0x1234), (octets(101), 0x5678));
    let both = (IkeRecord { pair, ..ike }, IpsecRecord { pair, ..ipsec });
    assert_eq!(opened(Opening { pair, ..opening }), both);
    let child = 0x1122_3344;
    assert_eq!(opened(Opening { child, ..opening }), (ike, IpsecRecord { spi: child, ..ipsec }));
}
