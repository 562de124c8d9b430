//! Two operators on one gateway: each finds its own records and no others, is held to its own policy, and has a share
//! of the places; SPIs and places are for both.
mod common;
use common::*;
use unmavreth::limits::{IKE_PLACES, IKE_SHARE, IPSEC_PLACES, IPSEC_SHARE};
use unmavreth::{
    Agreed, CheckResponse, CloneRequest, Effect, Flag, Gateway, IkeRecord, IpsecRecord, Number,
    Opening, Operator, Outcome, Policy, Request,
};

const CLONING: Agreed = Agreed { cloning: Flag::YES, peer: 5, ..AGREED };

/// What the operator opens, with a child of the same SPI.
fn opening(spi: u64, operator: Operator) -> Opening {
    let agreed = Agreed { operator, ..CLONING };
    Opening { spi, agreed, pair: OLD, child: spi as u32 }
}

/// Opens so many, with SPIs from this one on.
fn open_all(gateway: &mut Gateway, spis: std::ops::Range<u64>, operator: Operator) {
    for spi in spis {
        assert_eq!(gateway.open(&opening(spi, operator)), Number::Done, "SPI {spi}");
    }
}

fn error(kind: u16) -> Vec<u8> {
    chain(&[notify(kind, &[])]).1
}

/// Each call that finds a record by its SPI, on the record 7 and its IPsec record 70: what it comes to. Every one of
/// them is made on the gateway as it is given, and a refusal leaves it so.
fn each_call(gateway: &Gateway, operator: Operator) -> [Number; 7] {
    let (update, cloned) = (chain(&[notify(UPDATE, &[])]), chain(&[notify(CLONE, &[])]));
    let answer = chain(&[notify(COOKIE2, &CHECK)]);
    let request = Request { operator, ..request(&update) };
    let response = CheckResponse { operator, ..response(&answer) };
    let clone = CloneRequest { operator, ..clone_request(&cloned) };
    let made = |call: &dyn Fn(&mut Gateway, &mut [u8; 128]) -> Number| {
        let (mut after, mut out) = (gateway.clone(), [9; 128]);
        let number = call(&mut after, &mut out);
        if number != Number::Done {
            assert_eq!((&after, out), (gateway, [9; 128]));
        }
        number
    };
    [
        made(&|gateway, _| gateway.open_ipsec(1, 7, operator)),
        made(&|gateway, _| gateway.close_ike(7, operator)),
        made(&|gateway, _| gateway.close_ipsec(70, operator)),
        made(&|gateway, _| gateway.mark_deletion(7, operator)),
        made(&|gateway, out| gateway.handle(&request, out).number()),
        made(&|gateway, _| gateway.check(&response).number()),
        made(&|gateway, out| gateway.clone_ike(&clone, out).number()),
    ]
}

/// As the shared gateway, with the first record this operator's, cloning agreed and a check under way; B has the same
/// policy as A.
fn of(operator: Operator) -> Gateway {
    let mut gateway = gateway();
    gateway.ike[0].agreed = Agreed { operator, ..CLONING };
    gateway.policies[1] = gateway.policies[0];
    let update = chain(&[notify(UPDATE, &[])]);
    if operator == A || operator == B {
        let reply = gateway.handle(&Request { operator, ..request(&update) }, &mut [0; 128]);
        assert_eq!(reply.update(), Effect::Applied);
    }
    gateway
}

#[test]
fn a_record_of_the_other_is_none() {
    for (own, other) in [(A, B), (B, A)] {
        assert_eq!(each_call(&of(own), own), [Number::Done; 7]);
        assert_eq!(each_call(&of(own), other), [Number::NoSuchRecord; 7]);
    }
}

#[test]
fn an_operator_that_is_neither_is_a_bad_argument() {
    for octet in 2..=255 {
        let neither = Operator::from(octet);
        assert_eq!(each_call(&of(A), neither), [Number::BadArgument; 7]);
        let mut gateway = of(A);
        let before = gateway.clone();
        assert_eq!(gateway.open(&opening(9, neither)), Number::BadArgument);
        assert_eq!(gateway.set_policy(&[RULE], neither), Number::BadArgument);
        assert_eq!(gateway.set_policy(&[RULE; 17], neither), Number::BadPolicy);
        assert!(!gateway.acceptable(&NEW, neither));
        assert_eq!(gateway, before);
    }
}

/// A record that has such an octet is nobody's, and so is what it owns: it fills its place and holds its SPI.
#[test]
fn a_record_of_neither_is_nobodys() {
    for octet in [2, 3, 255] {
        let mut gateway = of(Operator::from(octet));
        for operator in [A, B] {
            assert_eq!(each_call(&gateway, operator), [Number::NoSuchRecord; 7]);
            assert_eq!(gateway.open(&opening(7, operator)), Number::SpiInUse);
        }
        assert_eq!((gateway.ike_of(A).count(), gateway.ipsec_of(A).count()), (1, 1));
        open_all(&mut gateway, 100..119, A);
        assert_eq!(gateway.open(&opening(119, A)), Number::OperatorAtShare);
        open_all(&mut gateway, 200..211, B);
        assert_eq!(gateway.open(&opening(211, B)), Number::Full);
    }
}

#[test]
fn an_spi_is_in_use_whosever_it_is() {
    let mut gateway = gateway();
    assert_eq!(gateway.open(&opening(9, B)), Number::Done);
    let before = gateway.clone();
    assert_eq!(gateway.open(&Opening { child: 10, ..opening(7, B) }), Number::SpiInUse);
    assert_eq!(gateway.open(&Opening { child: 70, ..opening(10, B) }), Number::SpiInUse);
    assert_eq!(gateway.open(&Opening { child: 10, ..opening(9, A) }), Number::SpiInUse);
    assert_eq!(gateway.open_ipsec(70, 9, B), Number::SpiInUse);
    assert_eq!(gateway.open_ipsec(9, 7, A), Number::SpiInUse);
    let came = chain(&[notify(CLONE, &[])]);
    let clone = CloneRequest { spi: 9, new_spi: 7, operator: B, ..clone_request(&came) };
    assert_eq!(gateway.clone_ike(&clone, &mut [0; 128]).number(), Number::SpiInUse);
    assert_eq!(gateway, before);
}

#[test]
fn a_share_of_the_ike_records() {
    for (one, other) in [(A, B), (B, A)] {
        let mut gateway = Gateway::new();
        open_all(&mut gateway, 1..21, one);
        assert_eq!(gateway.ike_of(one).count(), IKE_SHARE);
        assert_eq!(gateway.open(&opening(21, one)), Number::OperatorAtShare);
        // The other has what is left, and then all places are in use.
        open_all(&mut gateway, 101..113, other);
        assert_eq!(gateway.ike_of(other).count(), IKE_PLACES - IKE_SHARE);
        assert_eq!(gateway.open(&opening(113, other)), Number::Full);
        assert_eq!(gateway.open(&opening(113, one)), Number::OperatorAtShare, "43 before 10");
        for operator in [one, other] {
            assert_eq!(gateway.open(&opening(1, operator)), Number::SpiInUse, "11 before both");
        }
        assert_eq!(gateway.close_ike(1, one), Number::Done);
        assert_eq!(gateway.open(&opening(21, one)), Number::Done);
    }
}

#[test]
fn a_share_of_the_ipsec_records() {
    for (one, other) in [(A, B), (B, A)] {
        let mut gateway = Gateway::new();
        assert_eq!(gateway.open(&opening(1, one)), Number::Done);
        assert_eq!(gateway.open(&opening(2, other)), Number::Done);
        for spi in 101..180 {
            assert_eq!(gateway.open_ipsec(spi, 1, one), Number::Done);
        }
        assert_eq!(gateway.ipsec_of(one).count(), IPSEC_SHARE);
        assert_eq!(gateway.open_ipsec(180, 1, one), Number::OperatorAtShare);
        assert_eq!(gateway.open(&opening(3, one)), Number::OperatorAtShare, "one IKE record");
        assert_eq!(gateway.open_ipsec(179, 1, one), Number::SpiInUse, "11 before 43");
        for spi in 201..248 {
            assert_eq!(gateway.open_ipsec(spi, 2, other), Number::Done);
        }
        assert_eq!(gateway.ipsec_of(other).count(), IPSEC_PLACES - IPSEC_SHARE);
        assert_eq!(gateway.open_ipsec(248, 2, other), Number::Full);
        assert_eq!(gateway.open(&opening(3, other)), Number::Full);
        assert_eq!(gateway.open_ipsec(180, 1, one), Number::OperatorAtShare, "43 before 10");
        // Whoever owns it: a second record of the operator adds to the same count.
        assert_eq!(gateway.close_ipsec(179, one), Number::Done);
        assert_eq!(gateway.open(&opening(3, one)), Number::Done);
        assert_eq!(gateway.open_ipsec(180, 3, one), Number::OperatorAtShare);
    }
}

/// Clones are IKE records as any other: the share is theirs too.
#[test]
fn clones_count() {
    let mut gateway = Gateway::new();
    open_all(&mut gateway, 1..17, B);
    for spi in 1..17 {
        gateway.ike[spi - 1].agreed.peer = spi as u32;
    }
    let came = chain(&[notify(CLONE, &[])]);
    let clone = CloneRequest { spi: 1, operator: B, ..clone_request(&came) };
    let clone_as = |gateway: &mut Gateway, spi, new_spi| {
        let mut out = [9; 128];
        let reply = gateway.clone_ike(&CloneRequest { spi, new_spi, ..clone }, &mut out);
        (reply.number(), reply.response(&out).to_vec(), reply.payloads())
    };
    for (spi, new_spi) in (1..5).zip(100..) {
        assert_eq!(clone_as(&mut gateway, spi, new_spi), (Number::Done, error(CLONE), 1));
    }
    let before = gateway.clone();
    let refused = (Number::OperatorAtShare, error(35), 1);
    assert_eq!(clone_as(&mut gateway, 5, 104), refused);
    assert_eq!(clone_as(&mut gateway, 5, 100), (Number::SpiInUse, vec![], 1), "11 before 43");
    assert_eq!(gateway.open(&opening(104, B)), Number::OperatorAtShare);
    assert_eq!(gateway, before);
    assert_eq!(gateway.open(&opening(104, A)), Number::Done);
    assert_eq!(gateway.close_ike(100, B), Number::Done);
    assert_eq!(clone_as(&mut gateway, 5, 105), (Number::Done, error(CLONE), 1));
}

/// The peer numbers of the two operators are told apart.
#[test]
fn the_limit_of_a_peer_is_the_operators() {
    let mut gateway = Gateway::new();
    open_all(&mut gateway, 1..4, A);
    open_all(&mut gateway, 11..15, B);
    assert_eq!((gateway.of_peer(5, A).count(), gateway.of_peer(5, B).count()), (3, 4));
    let came = chain(&[notify(CLONE, &[])]);
    let clone = |gateway: &mut Gateway, spi, new_spi, operator| {
        let request = CloneRequest { spi, new_spi, operator, ..clone_request(&came) };
        gateway.clone_ike(&request, &mut [0; 128]).number()
    };
    assert_eq!(clone(&mut gateway, 11, 15, B), Number::PeerAtLimit);
    assert_eq!(clone(&mut gateway, 1, 4, A), Number::Done);
    assert_eq!(clone(&mut gateway, 1, 5, A), Number::PeerAtLimit);
}

#[test]
fn each_has_its_own_policy() {
    let mut gateway = Gateway::new();
    assert_eq!(gateway.open(&opening(7, A)), Number::Done);
    assert_eq!(gateway.open(&opening(8, B)), Number::Done);
    let came = chain(&[notify(UPDATE, &[])]);
    let told = |gateway: &mut Gateway, spi, id, operator| {
        let request = Request { spi, id, operator, ..request(&came) };
        gateway.handle(&request, &mut [0; 128]).number()
    };
    assert_eq!(gateway.set_policy(&[RULE], B), Number::Done);
    assert_eq!(gateway.policies[0], Policy::EMPTY);
    assert_eq!(told(&mut gateway, 7, 1, A), Number::NotAcceptable);
    assert_eq!(told(&mut gateway, 8, 1, B), Number::Done);
    assert_eq!(gateway.set_policy(&[RULE, RULE], A), Number::Done);
    assert_eq!((gateway.policies[0].count, gateway.policies[1].count), (2, 1));
    assert_eq!(gateway.set_policy(&[], B), Number::Done);
    assert!(gateway.acceptable(&NEW, A) && !gateway.acceptable(&NEW, B));
    assert_eq!(told(&mut gateway, 7, 2, A), Number::Done);
    assert_eq!(told(&mut gateway, 8, 2, B), Number::NotAcceptable);
}

/// An IPsec record without an owner, as only lent memory has one, is nobody's: it is not closed and counts for nobody,
/// but it fills a place and holds its SPI.
#[test]
fn an_orphan_is_nobodys() {
    let mut gateway = Gateway::new();
    assert_eq!(gateway.open(&opening(7, A)), Number::Done);
    for (at, place) in gateway.ipsec.iter_mut().enumerate().skip(1) {
        *place = IpsecRecord { spi: 100 + at as u32, owner: 6, pair: OLD };
    }
    let before = gateway.clone();
    for operator in [A, B] {
        assert_eq!(gateway.close_ipsec(101, operator), Number::NoSuchRecord);
    }
    assert_eq!(gateway.open_ipsec(101, 7, A), Number::SpiInUse);
    assert_eq!(gateway.open_ipsec(1, 7, A), Number::Full, "no share is reached");
    assert_eq!(gateway, before);
    gateway.ipsec[127] = IpsecRecord::FREE;
    assert_eq!(gateway.open_ipsec(1, 7, A), Number::Done);
}

/// Where several places have an SPI, as only lent memory has them, the lowest is the one that is meant, whosever it is.
#[test]
fn the_lowest_place_is_meant() {
    for (low, high) in [(A, B), (B, A)] {
        let mut gateway = of(low);
        gateway.ike[5] =
            IkeRecord { agreed: Agreed { operator: high, ..CLONING }, ..gateway.ike[0] };
        gateway.ipsec[5] = gateway.ipsec[0];
        assert_eq!(each_call(&gateway, high), [Number::NoSuchRecord; 7]);
        assert_eq!(each_call(&gateway, low), [Number::Done; 7]);
        assert_eq!(gateway.close_ike(7, low), Number::Done);
        assert_eq!(gateway.close_ike(7, high), Number::Done);
    }
}

/// What A sees of a run: the numbers of its calls and its records, with B's calls between or without.
fn seen_by_a(with_b: bool) -> (Vec<Number>, Vec<IkeRecord>, Vec<IpsecRecord>) {
    let (mut gateway, mut numbers) = (Gateway::new(), Vec::new());
    let update = chain(&[notify(UPDATE, &[])]);
    let answer = chain(&[notify(COOKIE2, &CHECK)]);
    let cloned = chain(&[notify(CLONE, &[])]);
    for (step, spi) in (0u32..).zip([7, 8, 9]) {
        for operator in if with_b { vec![A, B] } else { vec![A] } {
            let spi = if operator == A { spi } else { spi + 100 };
            let first = request(&update);
            let request = Request { spi, id: step, operator, ..first };
            let response = CheckResponse { spi, operator, ..response(&answer) };
            let clone =
                CloneRequest { spi, new_spi: spi + 1000, operator, ..clone_request(&cloned) };
            let rules = if operator == A { &[RULE][..] } else { &[] };
            let told = [
                gateway.set_policy(rules, operator),
                gateway.open(&opening(spi, operator)),
                gateway.open_ipsec(spi as u32 + 500, spi, operator),
                gateway.handle(&request, &mut [0; 128]).number(),
                gateway.check(&response).number(),
                gateway.clone_ike(&clone, &mut [0; 128]).number(),
                gateway.mark_deletion(spi, operator),
                gateway.close_ipsec(spi as u32, operator),
                gateway.close_ike(7, operator),
            ];
            if operator == A {
                numbers.extend(told);
            }
        }
    }
    let (mut ike, mut ipsec): (Vec<_>, Vec<_>) =
        (gateway.ike_of(A).copied().collect(), gateway.ipsec_of(A).copied().collect());
    ike.sort_by_key(|record| record.spi);
    ipsec.sort_by_key(|record| record.spi);
    (numbers, ike, ipsec)
}

#[test]
fn what_one_sees_is_as_without_the_other() {
    let alone = seen_by_a(false);
    assert_eq!(seen_by_a(true), alone);
    let (numbers, ike, ipsec) = alone;
    assert_eq!(numbers.iter().filter(|number| number.is_done()).count(), 24);
    assert_eq!((ike.len(), ipsec.len()), (4, 2));
}

#[test]
fn each_closes_its_own_by_a_check() {
    let mut gateway = of(B);
    let wrong = chain(&[notify(COOKIE2, &[1; 16])]);
    let before = gateway.clone();
    assert_eq!(gateway.check(&response(&wrong)).number(), Number::NoSuchRecord);
    assert_eq!(gateway, before);
    let told = gateway.check(&CheckResponse { operator: B, ..response(&wrong) });
    assert_eq!((told.number(), told.outcome()), (Number::Done, Outcome::Close));
    assert_eq!((gateway.ike[0], gateway.ipsec[0]), (IkeRecord::FREE, IpsecRecord::FREE));
    assert_eq!((gateway.ike[1], gateway.ipsec[1]), (before.ike[1], before.ipsec[1]));
}
