//! Every number of every call, at least once; and a refusal leaves what was lent.
mod common;
use common::*;
use unmavreth::limits::{IPSEC_PLACES, IPSEC_SHARE};
use unmavreth::{
    assess, check, close_ike, close_ipsec, handle, open, open_ipsec, read, set_policy, write,
    Address, Agreed, Ask, Draft, Effect, Flag, Gateway, IpsecRecord, Number, Opening, Operator,
    Outcome, Pair, Policy, Request, Rule,
};

/// A pair with a tail after its IPv4 address, one of a family that isn't known, and none.
fn bad_pairs() -> [Pair; 3] {
    let mut tail = NEW;
    tail.destination[15] = 1;
    [tail, Pair { family: 5, ..NEW }, Pair::NONE]
}

#[test]
fn any_octet_has_a_meaning() {
    for octet in 0..=255 {
        let number = Number::from(octet);
        assert_eq!(u8::from(number), octet);
        let given = matches!(octet, 0..=5 | 7..=12 | 14 | 20..=22 | 30..=34 | 40..=44 | 61..=65);
        assert_eq!(number == Number::Other(octet), !given);
        assert_eq!(number.is_malformed(), (61..=65).contains(&octet));
        assert_eq!(number.is_done(), octet == 0);
        assert_eq!(Effect::from(octet) == Effect::Other(octet), octet > 2);
        assert_eq!(Outcome::from(octet) == Outcome::Other(octet), octet > 5);
    }
}

#[test]
fn reading() {
    assert_eq!(read(0, &[]).number(), Number::Done);
    assert_eq!(read(0, &[0; 4097]).number(), Number::BodyTooLong);
    assert_eq!(read(41, &[]).number(), Number::BadChainLength);
    assert_eq!(read(200, &[0, 0x80, 0, 4]).number(), Number::UnknownCritical);
}

/// What is told of a chain with a fault: the number, the offset and the ordinal, of a reading, of a reply
/// and of an assessment alike.
fn faulty(chain: &(u8, Vec<u8>)) -> (Number, u16, u16) {
    let reading = read(chain.0, &chain.1);
    let reply = gateway().handle(&request(chain), &mut [0; 128]);
    let assessed = assess(&[], chain.0, &chain.1);
    let told = (reading.number(), reading.offset(), reading.ordinal());
    assert_eq!((reply.number(), reply.offset(), reply.ordinal()), told);
    assert_eq!((assessed.number(), assessed.offset(), assessed.ordinal()), told);
    assert_eq!((reply.first(), reply.length(), reply.payloads()), (41, 8, 0));
    told
}

#[test]
fn each_fault_has_its_number_and_its_ordinal() {
    let cookie = notify(COOKIE2, &[9; 8]);
    let mut cut = chain(&[bare(33), cookie.clone()]);
    cut.1.pop();
    assert_eq!(faulty(&cut), (Number::BadChainLength, 4, 1));
    // A Notify of 7 octets, and one of 3: a length of the chain comes before one of a Notify.
    let mut short = chain(&[bare(33), bare(34), (41, 0, vec![0, 0, 0x40])]);
    assert_eq!(faulty(&short), (Number::BadNotify, 8, 2));
    short.1[8 + 3] = 3;
    assert_eq!(faulty(&short), (Number::BadChainLength, 8, 2));
    // A second COOKIE2, of 7 octets, then of 8: a size comes before a repetition.
    let seven = chain(&[cookie.clone(), notify(COOKIE2, &[1; 7])]);
    assert_eq!(faulty(&seven), (Number::BadDataSize, 16, 1));
    let second = chain(&[cookie.clone(), bare(33), notify(COOKIE2, &[1; 8]), (200, 0x80, vec![])]);
    assert_eq!(faulty(&second), (Number::Repeated, 20, 2));
    let mut after = chain(&[cookie, bare(33), bare(34)]);
    after.1.push(0xff);
    assert_eq!(faulty(&after), (Number::OctetsAfterEnd, 24, 3));
}

/// What B opens, at SPI 9 as A would.
const OF_B: Opening = Opening { agreed: Agreed { operator: B, ..AGREED }, ..OPENING };

/// As `gateway`, with every place of the IKE table in use, and of the IPsec list not: B has its share, and A
/// the rest.
fn with_full_table() -> Gateway {
    let mut gateway = gateway();
    for spi in 101..131 {
        let sound = if spi < 111 { OPENING } else { OF_B };
        let opening = Opening { spi, child: spi as u32, ..sound };
        assert_eq!(gateway.open(&opening), Number::Done);
    }
    gateway
}

/// With every place of the IPsec list in use: B has its share, of one IKE record more if it had none, and A the
/// rest.
fn with_full_list(mut gateway: Gateway) -> Gateway {
    if gateway.ike_of(B).next().is_none() {
        assert_eq!(gateway.open(&Opening { spi: 130, child: 130, ..OF_B }), Number::Done);
    }
    for spi in (301..).take(IPSEC_SHARE - gateway.ipsec_of(B).count()) {
        assert_eq!(gateway.open_ipsec(spi, 130, B), Number::Done);
    }
    for spi in (201..).take(IPSEC_PLACES - IPSEC_SHARE - gateway.ipsec_of(A).count()) {
        assert_eq!(gateway.open_ipsec(spi, 8, A), Number::Done);
    }
    gateway
}

/// The opening comes to this number, and neither record is opened.
fn opens_neither(gateway: &Gateway, opening: Opening, number: Number) {
    let mut after = gateway.clone();
    assert_eq!(after.open(&opening), number);
    assert_eq!(after, *gateway);
}

#[test]
fn opening_both() {
    let mut gateway = gateway();
    opens_neither(&gateway, Opening { spi: 0, ..OPENING }, Number::BadArgument);
    opens_neither(&gateway, Opening { child: 0, ..OPENING }, Number::BadArgument);
    for pair in bad_pairs() {
        opens_neither(&gateway, Opening { pair, ..OPENING }, Number::BadArgument);
    }
    opens_neither(&gateway, Opening { spi: 8, ..OPENING }, Number::SpiInUse);
    opens_neither(&gateway, Opening { child: 80, ..OPENING }, Number::SpiInUse);
    assert_eq!(gateway.open(&OPENING), Number::Done);
    opens_neither(&gateway, OPENING, Number::SpiInUse);
}

#[test]
fn opening_both_without_a_free_place() {
    let mut gateway = with_full_table();
    opens_neither(&gateway, OPENING, Number::Full);
    opens_neither(&gateway, OF_B, Number::OperatorAtShare);
    opens_neither(&with_full_list(gateway.clone()), OPENING, Number::Full);
    assert_eq!(gateway.close_ike(101, A), Number::Done);
    opens_neither(&gateway, OF_B, Number::OperatorAtShare);
    assert_eq!(gateway.open(&OPENING), Number::Done);
    let mut gateway = with_full_list(common::gateway());
    opens_neither(&gateway, OPENING, Number::Full);
    opens_neither(&gateway, OF_B, Number::OperatorAtShare);
    assert_eq!(gateway.close_ipsec(201, A), Number::Done);
    opens_neither(&gateway, OF_B, Number::OperatorAtShare);
    assert_eq!(gateway.open(&OPENING), Number::Done);
}

#[test]
fn opening_both_checks_in_order() {
    let full_list = with_full_list(gateway());
    let full = with_full_list(with_full_table());
    for gateway in [gateway(), with_full_table(), full_list, full] {
        let in_use = Opening { spi: 8, child: 80, ..OPENING };
        opens_neither(&gateway, Opening { spi: 0, ..in_use }, Number::BadArgument);
        opens_neither(&gateway, Opening { child: 0, ..in_use }, Number::BadArgument);
        opens_neither(&gateway, Opening { pair: Pair::NONE, ..in_use }, Number::BadArgument);
        let neither = Agreed { operator: Operator::from(2), ..AGREED };
        opens_neither(&gateway, Opening { agreed: neither, ..in_use }, Number::BadArgument);
        for sound in [OPENING, OF_B] {
            opens_neither(&gateway, Opening { spi: 8, ..sound }, Number::SpiInUse);
            opens_neither(&gateway, Opening { child: 80, ..sound }, Number::SpiInUse);
            opens_neither(&gateway, Opening { spi: 8, child: 80, ..sound }, Number::SpiInUse);
        }
    }
}

/// A flag of any octet, as memory that a host lends may hold.
fn flag(octet: u8) -> Flag {
    // SAFETY: a flag is an octet, and any is allowed.
    unsafe { std::mem::transmute(octet) }
}

#[test]
fn any_octet_but_0_is_yes() {
    let came = chain(&[notify(UPDATE, &[])]);
    for octet in 0..=255 {
        let (is_set, given) = (octet != 0, Agreed { mobike: flag(octet), ..Agreed::NONE });
        assert_eq!(given.mobike.is_set(), is_set);
        let mut gateway = gateway();
        assert_eq!(gateway.open(&Opening { agreed: given, ..OPENING }), Number::Done);
        assert_eq!(gateway.ike[2].agreed, Agreed { mobike: is_set.into(), ..Agreed::NONE });
        let number = if is_set { Number::Done } else { Number::MobikeNotAgreed };
        let request = Request { spi: 9, ..request(&came) };
        assert_eq!(gateway.handle(&request, &mut [0; 128]).number(), number);
    }
}

#[test]
fn a_record_keeps_what_is_agreed() {
    let came = chain(&[notify(UPDATE, &[]), notify(NO_ADDITIONAL, &[])]);
    for octet in [1, 2, 255] {
        let (mobike, cloning) = (flag(octet), flag(octet));
        let agreed = Agreed { mobike, cloning, operator: A, peer: u32::MAX };
        let mut gateway = gateway();
        gateway.ike[0].agreed = agreed;
        let reply = gateway.handle(&request(&came), &mut [0; 128]);
        assert_eq!((reply.number(), reply.update()), (Number::Done, Effect::Applied));
        assert_eq!(gateway.open(&OPENING), Number::Done);
        assert_eq!(gateway.close_ike(8, A), Number::Done);
        assert_eq!((gateway.ike[0].pair, gateway.ike[0].agreed), (NEW, agreed));
        assert_eq!(gateway.close_ike(7, A), Number::Done);
        assert_eq!(gateway.ike[0].agreed, Agreed::NONE);
    }
}

#[test]
fn an_spi_is_in_use_in_its_own_table_only() {
    let mut gateway = gateway();
    assert_eq!(gateway.open(&Opening { spi: 80, child: 8, ..OPENING }), Number::Done);
    assert_eq!(gateway.open(&Opening { spi: 1 << 32 | 7, child: 7, ..OPENING }), Number::Done);
}

#[test]
fn opening_a_further_ipsec_record() {
    let mut gateway = gateway();
    let before = gateway.clone();
    assert_eq!(gateway.open_ipsec(0, 7, A), Number::BadArgument);
    assert_eq!(gateway.open_ipsec(1, 0, A), Number::BadArgument);
    assert_eq!(gateway.open_ipsec(1, 9, A), Number::NoSuchRecord);
    assert_eq!(gateway.open_ipsec(80, 7, A), Number::SpiInUse);
    assert_eq!(gateway, before);
    let mut gateway = with_full_list(common::gateway());
    let before = gateway.clone();
    assert_eq!(gateway.open_ipsec(1, 7, A), Number::Full);
    assert_eq!(gateway.open_ipsec(1, 130, B), Number::OperatorAtShare);
    assert_eq!(gateway, before);
}

#[test]
fn closing() {
    let mut gateway = gateway();
    let before = gateway.clone();
    assert_eq!(gateway.close_ike(0, A), Number::BadArgument);
    assert_eq!(gateway.close_ike(9, A), Number::NoSuchRecord);
    assert_eq!(gateway.close_ipsec(0, A), Number::BadArgument);
    assert_eq!(gateway.close_ipsec(9, A), Number::NoSuchRecord);
    assert_eq!(gateway, before);
    assert_eq!(gateway.close_ike(7, A), Number::Done);
    assert_eq!((gateway.ike[0], gateway.ike[1]), (Default::default(), before.ike[1]));
    assert_eq!((gateway.ipsec[0], gateway.ipsec[1]), (Default::default(), before.ipsec[1]));
    assert_eq!(gateway.close_ipsec(80, A), Number::Done);
    assert_eq!(gateway.ipsec[..], [IpsecRecord::FREE; 128]);
}

#[test]
fn a_list_of_another_length_than_128() {
    let Gateway { mut ike, ipsec, policies } = gateway();
    let before = ike.clone();
    for length in [0, 127, 129] {
        let mut list: Vec<IpsecRecord> = ipsec.iter().copied().cycle().take(length).collect();
        let kept = list.clone();
        let in_use = Opening { spi: 7, child: 70, ..OPENING };
        for opening in [OPENING, in_use] {
            assert_eq!(open(&mut ike, &mut list, &opening), Number::BadArgument);
        }
        assert_eq!(open_ipsec(&ike, &mut list, 1, 7, A), Number::BadArgument);
        assert_eq!(close_ike(&mut ike, &mut list, 7, A), Number::BadArgument);
        assert_eq!(close_ipsec(&ike, &mut list, 70, A), Number::BadArgument);
        let came = chain(&[notify(UPDATE, &[])]);
        let mut out = [9; 128];
        let reply = handle(&mut ike, &list, &policies, &request(&came), &mut out);
        assert_eq!((reply.number(), reply.length()), (Number::BadArgument, 0));
        let told = check(&mut ike, &mut list, &response(&came));
        assert_eq!((told.number(), told.outcome()), (Number::BadArgument, Outcome::None));
        assert_eq!((&ike, list, out), (&before, kept, [9; 128]));
    }
}

#[test]
fn setting_a_policy() {
    let mut policies = gateway().policies;
    let before = policies;
    let mut rules = [RULE; 16];
    for operator in [A, B, Operator::from(2)] {
        assert_eq!(set_policy(&mut policies, 17, &rules, operator), Number::BadPolicy);
        assert_eq!(set_policy(&mut policies, u16::MAX, &rules, operator), Number::BadPolicy);
    }
    rules[2].source_len = 33;
    for operator in [A, B] {
        assert_eq!(set_policy(&mut policies, 16, &rules, operator), Number::BadPolicy);
    }
    for octet in [2, 255] {
        let number = set_policy(&mut policies, 16, &rules, Operator::from(octet));
        assert_eq!(number, Number::BadArgument, "before a prefix that is too long");
    }
    rules[3].family = 5;
    assert_eq!(set_policy(&mut policies, 16, &rules, A), Number::BadArgument);
    assert_eq!(policies, before);
    assert_eq!(set_policy(&mut policies, 2, &rules, A), Number::Done);
    assert_eq!(set_policy(&mut policies, 0, &rules, A), Number::Done);
    assert_eq!(policies, [Policy::EMPTY; 2]);
}

#[test]
fn setting_a_policy_from_a_list() {
    let mut gateway = gateway();
    assert_eq!(gateway.set_policy(&[Rule::NONE; 17], A), Number::BadPolicy);
    assert_eq!(gateway.set_policy(&vec![RULE; 65552], A), Number::BadPolicy);
    assert_eq!(gateway.set_policy(&[Rule::NONE], A), Number::BadArgument);
    assert!(gateway.acceptable(&NEW, A) && !gateway.acceptable(&OLD, A));
    assert_eq!(gateway.set_policy(&[], A), Number::Done);
    assert!(!gateway.acceptable(&NEW, A));
}

/// What the request comes to, its output of this length, and whether the tables stayed as they were.
fn refused(request: Request, length: usize) -> (Number, bool, Vec<u8>) {
    let mut gateway = gateway();
    let before = gateway.clone();
    let mut out = vec![9; length];
    let reply = gateway.handle(&request, &mut out);
    assert_eq!((reply.update(), reply.list()), (Effect::None, Effect::None));
    assert!(out[usize::from(reply.length())..].iter().all(|&octet| octet == 9));
    (reply.number(), gateway == before, reply.response(&out).to_vec())
}

#[test]
fn requests_refused_1_to_5() {
    let came = chain(&[notify(UPDATE, &[]), notify(COOKIE2, &COOKIE)]);
    let sound = request(&came);
    let bad = |request| assert_eq!(refused(request, 128), (Number::BadArgument, true, vec![]));
    bad(Request { spi: 0, ..sound });
    bad(Request { nat_source: &[0; 19], ..sound });
    bad(Request { nat_destination: &[0; 21], ..sound });
    let (nothing, octets) = ((0, vec![]), [0; 255]);
    for length in [0, 1, 7, 65, 255] {
        bad(Request { cookie: &octets[..length], ..sound });
        bad(Request { cookie: &octets[..length], ..request(&nothing) }); // without an update too
    }
    bad_pairs().into_iter().for_each(|pair| bad(Request { pair, ..sound }));
    for octet in [2, 3, 128, 255] {
        bad(Request { operator: octet.into(), ..sound });
    }
    assert_eq!(refused(sound, 127), (Number::OutputTooShort, true, vec![]));
    assert_eq!(refused(sound, 0), (Number::OutputTooShort, true, vec![]));
    let long = Request { body: &[0; 4097], ..sound };
    assert_eq!(refused(long, 128), (Number::BodyTooLong, true, vec![]));
    assert_eq!(refused(Request { spi: 9, ..sound }, 128), (Number::NoSuchRecord, true, vec![]));
    assert_eq!(refused(Request { spi: 8, ..sound }, 128), (Number::MobikeNotAgreed, true, vec![]));
}

#[test]
fn requests_refused_by_their_chain_and_by_8_and_9() {
    let cut = (41, vec![0, 0, 0]);
    let response = vec![0, 0, 0, 8, 0, 0, 0, 7];
    assert_eq!(refused(request(&cut), 128), (Number::BadChainLength, true, response));
    let critical = (200, vec![0, 0x80, 0, 4]);
    let response = vec![0, 0, 0, 9, 0, 0, 0, 1, 200];
    assert_eq!(refused(request(&critical), 128), (Number::UnknownCritical, true, response));
    let altered = chain(&[notify(UPDATE, &[]), notify(NO_NATS, &[0; 12])]);
    let response = vec![0, 0, 0, 8, 0, 0, 0, 41];
    assert_eq!(refused(request(&altered), 128), (Number::AddressesAltered, false, response));
    let update = chain(&[notify(UPDATE, &[]), notify(COOKIE2, &COOKIE)]);
    let elsewhere = Request { pair: OLD, ..request(&update) };
    let response = chain(&[notify(40, &[]), notify(COOKIE2, &COOKIE)]).1;
    assert_eq!(refused(elsewhere, 128), (Number::NotAcceptable, false, response));
}

#[test]
fn writing() {
    let ask = Ask { count: 1, ..Ask::default() };
    let refused = |draft: &Draft, length: usize, number| {
        let mut out = vec![9; length];
        let told = write(draft, &mut out);
        assert_eq!((told.number(), told.first(), told.length()), (number, 0, 0));
        assert_eq!(out, vec![9; length]);
    };
    let mut draft = Draft { ask, ..Draft::default() };
    refused(&draft, 564, Number::BadArgument);
    refused(&draft, 0, Number::BadArgument);
    draft.addresses[0] = Address::ipv4([10, 0, 0, 1]);
    refused(&draft, 563, Number::OutputTooShort);
    refused(&Draft { cookie: &[1; 7], ..draft }, 564, Number::BadArgument);
    refused(&Draft { cookie: &[1; 65], ..draft }, 564, Number::BadArgument);
    draft.ask.count = 17;
    refused(&draft, 564, Number::BadArgument);
    let none = Ask::default();
    for clone in [Ask { clone: true, ..none }, Ask { clone_supported: true, ..none }] {
        refused(&Draft { ask: clone, ..Draft::default() }, 563, Number::OutputTooShort);
    }
    refused(&Draft::default(), 564, Number::Done);
}

#[test]
fn judging() {
    let assessed = |sent: &[u8], payloads: &[Payload]| {
        let (first, body) = chain(payloads);
        let assessed = assess(sent, first, &body);
        assert_eq!(assessed.number(), Number::Done);
        assessed.outcome()
    };
    assert_eq!(assess(&[1; 7], 0, &[]).number(), Number::BadArgument);
    assert_eq!(assess(&COOKIE, 0, &[0; 4097]).number(), Number::BodyTooLong);
    assert_eq!(assess(&COOKIE, 41, &[]).number(), Number::BadChainLength);
    assert_eq!(assess(&[], 200, &[0, 0x80, 0, 4]).number(), Number::UnknownCritical);
    assert_eq!(assessed(&COOKIE, &[]), Outcome::Close);
    assert_eq!(assessed(&COOKIE, &[notify(COOKIE2, &[1; 9])]), Outcome::Close);
    assert_eq!(assessed(&COOKIE, &[notify(41, &[])]), Outcome::NatSeen);
    assert_eq!(assessed(&[], &[notify(40, &[])]), Outcome::Unacceptable);
    assert_eq!(assessed(&[], &[notify(7, &[])]), Outcome::Failed);
    assert_eq!(assessed(&COOKIE, &[notify(COOKIE2, &COOKIE)]), Outcome::Accepted);
}
