//! Every field of the structs that the library fills has the value that is known for it.
mod common;
use common::*;
use unmavreth::{
    assess, read, Address, Agreed, CloneRequest, Effect, Flag, IkeRecord, IpsecRecord, Number,
    Offsets, Opening, Outcome, Pair, PendingCheck, Request, Seen, Tally,
};

/// A chain with every kind of notification that may stand together, errors and unknown ones.
fn mixed() -> (u8, Vec<u8>) {
    chain(&[
        notify(UPDATE, &[]),
        notify(NAT_SOURCE, &[1; 20]),
        notify(NAT_DESTINATION, &[2; 20]),
        notify(NO_NATS, &[3; 36]),
        notify(COOKIE2, &COOKIE),
        notify(IP4, &[10, 0, 0, 1]),
        notify(IP6, &[7; 16]),
        notify(38, &[]),
        notify(41, &[]),
        notify(40000, &[]),
        bare(200),
        bare(33),
    ])
}

#[test]
fn every_field_of_a_reading() {
    let (first, body) = mixed();
    let reading = read(first, &body);
    assert_eq!((reading.number(), reading.critical()), (Number::Done, 0));
    assert_eq!((reading.offset(), reading.ordinal()), (0, 0));
    let seen = reading.seen();
    let tally = Tally {
        payloads: 12,
        unknown_payloads: 1,
        unknown_notifies: 3,
        errors: 2,
        first_error: 38,
    };
    assert_eq!(seen.tally, tally);
    assert_eq!((seen.update, seen.no_additional), (Flag::YES, Flag::NO));
    assert_eq!((seen.nat_source, seen.nat_destination), (16, 44));
    assert_eq!((seen.no_nats, seen.no_nats_len), (72, 36));
    assert_eq!((seen.cookie, seen.cookie_len), (116, 9));
    let (mut offsets, mut families) = ([0; 16], [0; 16]);
    (offsets[0], offsets[1], families[0], families[1]) = (133, 145, 4, 6);
    assert_eq!(seen.list, Offsets { count: 2, offsets, families });
    assert_eq!(reading.cookie(&body), COOKIE);
}

#[test]
fn the_other_flag_of_a_reading() {
    let (first, body) = chain(&[notify(NO_ADDITIONAL, &[])]);
    let reading = read(first, &body);
    assert_eq!((reading.seen().update, reading.seen().no_additional), (Flag::NO, Flag::YES));
}

/// The family of the address at a place of a list, and its octets' count.
fn family_at(at: usize) -> (u8, usize) {
    match at % 3 {
        0 => (4, 4),
        _ => (6, 16),
    }
}

fn listed_at(at: usize) -> Payload {
    let (family, width) = family_at(at);
    notify(if family == 4 { IP4 } else { IP6 }, &vec![at as u8; width])
}

#[test]
fn every_place_of_a_list() {
    let listed: Vec<Payload> = (0..17).map(listed_at).collect();
    let (first, body) = chain(&listed);
    let reading = read(first, &body);
    let list = reading.seen().list;
    assert_eq!(list.count, 17);
    let told = unmavreth::addresses(&body, reading.seen());
    let mut offset = 8;
    for (at, one) in told.iter().enumerate() {
        let (family, width) = family_at(at);
        assert_eq!((list.offsets[at], list.families[at]), (offset, family));
        let mut octets = [0; 16];
        octets[..width].fill(at as u8);
        assert_eq!(*one, Address { family, octets });
        offset += 8 + width as u16;
    }
}

#[test]
fn a_refused_reading() {
    let (first, body) = chain(&[bare(33), (200, 0x80, vec![])]);
    let reading = read(first, &body);
    assert_eq!((reading.number(), reading.critical()), (Number::UnknownCritical, 200));
    assert_eq!((reading.offset(), reading.ordinal()), (4, 1));
    assert_eq!(*reading.seen(), Seen::default());
}

#[test]
fn no_nats_field_by_field() {
    let data: Vec<u8> = (1..=36).collect();
    let (first, body) = chain(&[notify(NO_NATS, &data)]);
    let octets = |from: u8| std::array::from_fn(|at| from + at as u8);
    let pair = Pair::ipv6((octets(1), 0x2122), (octets(17), 0x2324));
    assert_eq!(unmavreth::no_nats(&body, read(first, &body).seen()), pair);
}

/// The check that an applied update leaves.
fn kept(cookie: &[u8]) -> PendingCheck {
    let mut octets = [0; 64];
    octets[..cookie.len()].copy_from_slice(cookie);
    PendingCheck { length: cookie.len() as u8, octets, id: CHECK_ID }
}

#[test]
fn every_octet_of_a_kept_cookie() {
    let came = chain(&[notify(UPDATE, &[])]);
    let octets: [u8; 64] = std::array::from_fn(|at| at as u8 + 1);
    for length in 8..=64 {
        let (mut gateway, cookie) = (gateway(), &octets[..length]);
        let reply = gateway.handle(&Request { cookie, ..request(&came) }, &mut [0; 128]);
        assert_eq!(reply.update(), Effect::Applied);
        assert_eq!(gateway.ike[0].check, kept(cookie));
        assert_eq!(gateway.ike[0].check.cookie(), cookie);
    }
}

#[test]
fn every_field_of_a_record_and_a_reply() {
    let listed = (1..=18).map(|at| notify(IP4, &[10, 0, 0, at]));
    let others = [notify(UPDATE, &[]), bare(200), notify(COOKIE2, &COOKIE)];
    let came = chain(&others.into_iter().chain(listed).collect::<Vec<_>>());
    let mut gateway = gateway();
    let reply = gateway.handle(&Request { id: 0x0a0b_0c0d, ..request(&came) }, &mut [0; 128]);
    assert_eq!((reply.number(), reply.first(), reply.length()), (Number::Done, 41, 17));
    assert_eq!((reply.update(), reply.list()), (Effect::Applied, Effect::Applied));
    assert_eq!((reply.left_off(), reply.payloads()), (2, 21));
    assert_eq!((reply.offset(), reply.ordinal()), (0, 0));
    assert_eq!(reply.cookie(&came.1), COOKIE);
    let record = IkeRecord {
        spi: 7,
        agreed: AGREED,
        pair: NEW,
        update_mark: 0x0a0b_0c0e,
        list_mark: 0x0a0b_0c0e,
        count: 16,
        addresses: std::array::from_fn(|at| Address::ipv4([10, 0, 0, at as u8 + 1])),
        unknown: 1,
        check: kept(&CHECK),
        deleting: Flag::NO,
    };
    assert_eq!(gateway.ike[0], record);
    let others = [
        IpsecRecord { spi: 70, owner: 7, pair: OLD },
        IpsecRecord { spi: 80, owner: 8, pair: OLD },
    ];
    assert_eq!(gateway.ipsec[..2], others);
}

#[test]
fn a_refused_reply() {
    let mut came = chain(&[bare(33), bare(34), notify(UPDATE, &[])]);
    came.1[8 + 3] = 7;
    let reply = gateway().handle(&request(&came), &mut [0; 128]);
    assert_eq!((reply.number(), reply.first(), reply.length()), (Number::BadNotify, 41, 8));
    assert_eq!((reply.left_off(), reply.payloads()), (0, 0));
    assert_eq!((reply.offset(), reply.ordinal()), (8, 2));
    assert!(reply.cookie(&came.1).is_empty());
}

#[test]
fn the_two_marks_are_told_apart() {
    let mut gateway = gateway();
    let update = chain(&[notify(UPDATE, &[])]);
    let reply = gateway.handle(&Request { id: 4, ..request(&update) }, &mut [0; 128]);
    assert_eq!(reply.update(), Effect::Applied);
    assert_eq!((gateway.ike[0].update_mark, gateway.ike[0].list_mark), (5, 0));
    let list = chain(&[notify(NO_ADDITIONAL, &[])]);
    let reply = gateway.handle(&Request { id: 3, ..request(&list) }, &mut [0; 128]);
    assert_eq!((reply.update(), reply.list()), (Effect::None, Effect::Applied));
    assert_eq!((gateway.ike[0].update_mark, gateway.ike[0].list_mark), (5, 4));
    let reply = gateway.handle(&Request { id: 3, ..request(&update) }, &mut [0; 128]);
    assert_eq!((reply.update(), reply.list()), (Effect::Stale, Effect::None));
}

#[test]
fn every_field_of_opened_records() {
    let mut gateway = gateway();
    let mut expected = gateway.clone();
    let pair = Pair::ipv6(([1; 16], 2), ([3; 16], 4));
    let owner = 0x0102_0304_0506_0708;
    for operator in [A, B] {
        let mobike = Flag::YES;
        let agreed = Agreed { mobike, cloning: Flag::YES, operator, peer: 0x0a0b_0c0d };
        let opening = Opening { spi: owner, agreed, pair, child: 0x1122_3344 };
        assert_eq!(gateway.open(&opening), Number::Done);
        expected.ike[2] = IkeRecord { spi: owner, agreed, pair, ..IkeRecord::FREE };
        expected.ipsec[2] = IpsecRecord { spi: 0x1122_3344, owner, pair };
        assert_eq!(gateway, expected);
        assert_eq!(gateway.open_ipsec(0x5566_7788, owner, operator), Number::Done);
        expected.ipsec[3] = IpsecRecord { spi: 0x5566_7788, owner, pair };
        assert_eq!(gateway, expected);
        assert_eq!(gateway.close_ike(owner, operator), Number::Done);
        expected = common::gateway();
        assert_eq!(gateway, expected);
    }
}

/// Each table has its own, and nothing of what stood there stays: an SPI of 0 is all that makes it free.
#[test]
fn the_lowest_free_places_are_opened() {
    let mut gateway = gateway();
    let mut expected = gateway.clone();
    gateway.ike[0] = IkeRecord {
        spi: 0,
        agreed: Agreed { mobike: Flag::YES, cloning: Flag::YES, operator: B, peer: 4 },
        pair: OLD,
        update_mark: 5,
        list_mark: 6,
        count: 16,
        addresses: [Address::ipv4([10, 0, 0, 1]); 16],
        unknown: 7,
        check: kept(&CHECK),
        deleting: Flag::YES,
    };
    gateway.ipsec[1].spi = 0;
    let agreed = Agreed::NONE;
    assert_eq!(gateway.open(&Opening { agreed, ..OPENING }), Number::Done);
    expected.ike[0] = IkeRecord { spi: 9, agreed, pair: NEW, ..IkeRecord::FREE };
    expected.ipsec[1] = IpsecRecord { spi: 90, owner: 9, pair: NEW };
    assert_eq!(gateway, expected);
}

#[test]
fn every_field_of_an_assessment() {
    let (first, body) = chain(&[notify(40, &[]), notify(40000, &[]), bare(200), bare(201)]);
    let assessed = assess(&[], first, &body);
    assert_eq!((assessed.number(), assessed.outcome()), (Number::Done, Outcome::Unacceptable));
    assert_eq!((assessed.payloads(), assessed.tally()), (4, 3));
    assert_eq!((assessed.offset(), assessed.ordinal()), (0, 0));
    assert!(assessed.cookie(&body).is_empty());
    let (first, body) = chain(&[notify(COOKIE2, &[9; 8]), bare(33)]);
    assert_eq!(assess(&[9; 8], first, &body).cookie(&body), [9; 8]);
    assert_eq!(assess(&[8; 8], first, &body).cookie(&body), [9; 8]);
    assert!(assess(&[9; 7], first, &body).cookie(&body).is_empty());
    let (first, mut body) = chain(&[bare(200), bare(201)]);
    body[7] = 3;
    let assessed = assess(&[], first, &body);
    assert_eq!((assessed.number(), assessed.outcome()), (Number::BadChainLength, Outcome::None));
    assert_eq!((assessed.payloads(), assessed.tally()), (0, 0));
    assert_eq!((assessed.offset(), assessed.ordinal()), (4, 1));
}

#[test]
fn every_field_of_a_clone_and_its_reply() {
    let mut gateway = gateway();
    let agreed = Agreed { mobike: Flag::YES, cloning: Flag::YES, operator: B, peer: 0x0a0b_0c0d };
    gateway.ike[0].agreed = agreed;
    let mut expected = gateway.clone();
    let came = chain(&[bare(33), bare(40), notify(CLONE, &[])]);
    let spi = 0x0102_0304_0506_0708;
    let mut out = [9; 128];
    let of_b = CloneRequest { operator: B, ..clone_request(&came) };
    let reply = gateway.clone_ike(&CloneRequest { new_spi: spi, ..of_b }, &mut out);
    assert_eq!((reply.number(), reply.first(), reply.length()), (Number::Done, 41, 8));
    assert_eq!((reply.payloads(), reply.offset(), reply.ordinal()), (3, 0, 0));
    assert_eq!(reply.response(&out), chain(&[notify(CLONE, &[])]).1);
    let pair = expected.ike[0].pair;
    expected.ike[2] = IkeRecord { spi, agreed, pair, ..IkeRecord::FREE };
    assert_eq!(gateway, expected);
    let came = chain(&[bare(33), bare(40), notify(CLONE, &[1])]);
    let of_b = CloneRequest { operator: B, ..clone_request(&came) };
    let reply = gateway.clone_ike(&of_b, &mut out);
    assert_eq!((reply.number(), reply.first(), reply.length()), (Number::BadDataSize, 41, 8));
    assert_eq!((reply.payloads(), reply.offset(), reply.ordinal()), (0, 8, 2));
    assert_eq!(gateway, expected);
}
