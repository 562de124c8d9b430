//! The return routability check: an applied update asks for it, its response moves the IPsec records or closes
//! the IKE SA, and a response that is refused leaves everything, the check too.
mod common;
use common::*;
use unmavreth::{
    read, write_check, CheckResponse, Effect, Gateway, IkeRecord, IpsecRecord, Number, Outcome,
    Pair, PendingCheck, Request, Rule,
};

const OTHER: Pair = Pair::ipv4(([198, 51, 100, 8], 4500), ([192, 0, 2, 1], 4501));

/// The gateway after an update from the new pair was applied: the IPsec records of the first record, 70 and
/// 71, still have the old one.
fn moving() -> Gateway {
    let mut gateway = gateway();
    assert_eq!(gateway.open_ipsec(71, 7, A), Number::Done);
    let came = chain(&[notify(UPDATE, &[])]);
    let reply = gateway.handle(&Request { id: 5, ..request(&came) }, &mut [0; 128]);
    assert_eq!((reply.number(), reply.update()), (Number::Done, Effect::Applied));
    assert_eq!((gateway.ike[0].pair, gateway.ike[0].check.id), (NEW, CHECK_ID));
    assert_eq!(gateway.ike[0].check.cookie(), CHECK);
    assert_eq!((gateway.ipsec[0].pair, gateway.ipsec[2].pair), (OLD, OLD));
    gateway
}

fn copied() -> (u8, Vec<u8>) {
    chain(&[notify(COOKIE2, &CHECK)])
}

#[test]
fn the_right_cookie_moves_the_ipsec_records() {
    let mut gateway = moving();
    let mut expected = gateway.clone();
    let told = gateway.check(&response(&copied()));
    assert_eq!((told.number(), told.outcome()), (Number::Done, Outcome::Accepted));
    assert_eq!((told.payloads(), told.tally(), told.offset(), told.ordinal()), (1, 0, 0, 0));
    assert_eq!(told.cookie(&copied().1), CHECK);
    expected.ike[0].check = PendingCheck::NONE;
    (expected.ipsec[0].pair, expected.ipsec[2].pair) = (NEW, NEW);
    assert_eq!(gateway, expected);
    assert_eq!(gateway.check(&response(&copied())).number(), Number::CheckNotPending);
    assert_eq!(gateway, expected, "a check that has ended");
}

#[test]
fn another_cookie_or_none_closes() {
    for payloads in [vec![], vec![notify(COOKIE2, &COOKIE)], vec![notify(40000, &[])]] {
        let mut gateway = moving();
        let mut expected = gateway.clone();
        let told = gateway.check(&response(&chain(&payloads)));
        assert_eq!((told.number(), told.outcome()), (Number::Done, Outcome::Close));
        expected.ike[0] = IkeRecord::FREE;
        (expected.ipsec[0], expected.ipsec[2]) = (IpsecRecord::FREE, IpsecRecord::FREE);
        assert_eq!(gateway, expected);
        assert_eq!(gateway.check(&response(&copied())).number(), Number::NoSuchRecord);
    }
}

#[test]
fn an_error_ends_the_check_and_moves_nothing() {
    for (error, outcome) in
        [(41, Outcome::NatSeen), (40, Outcome::Unacceptable), (7, Outcome::Failed)]
    {
        let mut gateway = moving();
        let mut expected = gateway.clone();
        let told = gateway.check(&response(&chain(&[notify(error, &[])])));
        assert_eq!((told.number(), told.outcome()), (Number::Done, outcome));
        expected.ike[0].check = PendingCheck::NONE;
        assert_eq!(gateway, expected);
    }
}

/// The response comes to this number, and both tables stay as they were.
fn refused(response: CheckResponse, number: Number) {
    let mut gateway = moving();
    gateway.ike[1].check = PendingCheck { length: 8, id: CHECK_ID, ..PendingCheck::NONE };
    let before = gateway.clone();
    let told = gateway.check(&response);
    assert_eq!((told.number(), told.outcome(), told.payloads()), (number, Outcome::None, 0));
    assert_eq!((told.tally(), told.cookie(response.body)), (0, &[][..]));
    assert_eq!(gateway, before);
}

#[test]
fn refusals_in_their_order() {
    let (copied, cut, critical) = (copied(), (41, vec![0, 0, 0]), (200, vec![0, 0x80, 0, 4]));
    let long = CheckResponse { body: &[0; 4097], ..response(&cut) };
    refused(CheckResponse { spi: 0, ..long }, Number::BadArgument);
    refused(CheckResponse { operator: 2.into(), ..long }, Number::BadArgument);
    refused(CheckResponse { spi: 9, ..long }, Number::BodyTooLong);
    refused(CheckResponse { spi: 9, ..response(&cut) }, Number::NoSuchRecord);
    refused(CheckResponse { operator: B, ..response(&cut) }, Number::NoSuchRecord);
    refused(CheckResponse { spi: 8, id: 1, ..response(&cut) }, Number::MobikeNotAgreed);
    refused(CheckResponse { id: CHECK_ID + 1, ..response(&cut) }, Number::CheckNotPending);
    refused(CheckResponse { id: CHECK_ID - 1, ..response(&copied) }, Number::CheckNotPending);
    refused(response(&cut), Number::BadChainLength);
    refused(response(&critical), Number::UnknownCritical);
}

#[test]
fn a_fault_is_told_with_its_payload() {
    let (first, mut body) = chain(&[notify(COOKIE2, &CHECK), bare(33)]);
    body.push(0xff);
    let told = moving().check(&response(&(first, body)));
    assert_eq!((told.number(), told.offset(), told.ordinal()), (Number::OctetsAfterEnd, 28, 2));
}

/// The tally is told, and the record's own does not grow.
#[test]
fn what_is_unknown_is_told() {
    let mut gateway = moving();
    let answer = chain(&[bare(200), notify(COOKIE2, &CHECK), notify(40000, &[])]);
    let told = gateway.check(&response(&answer));
    assert_eq!((told.outcome(), told.payloads(), told.tally()), (Outcome::Accepted, 3, 2));
    assert_eq!(gateway.ike[0].unknown, 0);
}

#[test]
fn a_later_update_is_checked_in_place_of_the_first() {
    let mut gateway = moving();
    let came = chain(&[notify(UPDATE, &[])]);
    let later = Request { id: 6, pair: OTHER, cookie: &COOKIE, check_id: 9, ..request(&came) };
    assert_eq!(gateway.handle(&later, &mut [0; 128]).update(), Effect::Applied);
    assert_eq!(gateway.check(&response(&copied())).number(), Number::CheckNotPending);
    assert_eq!((gateway.ike[0].pair, gateway.ipsec[0].pair), (OTHER, OLD));
    let answer = chain(&[notify(COOKIE2, &COOKIE)]);
    let told = gateway.check(&CheckResponse { id: 9, ..response(&answer) });
    assert_eq!((told.outcome(), gateway.ipsec[0].pair), (Outcome::Accepted, OTHER));
}

/// Neither a stale update, nor a refused one, nor a request without one ends a check or begins another.
#[test]
fn what_is_not_applied_leaves_the_check() {
    let altered = [notify(UPDATE, &[]), notify(NO_NATS, &[0; 12])];
    let (update, altered) = (chain(&[notify(UPDATE, &[])]), chain(&altered));
    let (cookie, check_id) = (&COOKIE[..], 9);
    for (id, came, pair, number) in [
        (5, &update, OTHER, Number::Done),
        (6, &altered, OTHER, Number::AddressesAltered),
        (6, &update, OLD, Number::NotAcceptable),
        (6, &(0, vec![]), OTHER, Number::Done),
    ] {
        let mut gateway = moving();
        let check = gateway.ike[0].check;
        let reply =
            gateway.handle(&Request { id, pair, cookie, check_id, ..request(came) }, &mut [0; 128]);
        assert_eq!((reply.number(), gateway.ike[0].check), (number, check));
        let told = gateway.check(&response(&copied()));
        assert_eq!((told.outcome(), gateway.ipsec[0].pair), (Outcome::Accepted, NEW));
    }
}

#[test]
fn an_ipsec_record_opened_meanwhile_has_the_new_pair() {
    let mut gateway = moving();
    assert_eq!(gateway.open_ipsec(72, 7, A), Number::Done);
    assert_eq!(gateway.ipsec_record(72).map(|record| record.pair), Some(NEW));
}

#[test]
fn the_check_is_written_if_the_update_was_applied() {
    let mut gateway = gateway();
    let came = chain(&[notify(UPDATE, &[]), notify(COOKIE2, &COOKIE)]);
    let mut out = [0xa5; 564];
    let applied = gateway.handle(&request(&came), &mut [0; 128]);
    let written = write_check(&applied, &request(&came), &mut out);
    assert_eq!((written.number(), written.first(), written.length()), (Number::Done, 41, 24));
    assert_eq!(written.body(&out), copied().1);
    assert_eq!(read(written.first(), written.body(&out)).cookie(written.body(&out)), CHECK);
    assert_eq!(out[24..], [0xa5; 540]);
    let stale = gateway.handle(&request(&came), &mut [0; 128]);
    assert_eq!(stale.update(), Effect::Stale);
    let written = write_check(&stale, &request(&came), &mut out);
    assert_eq!((written.number(), written.first(), written.length()), (Number::Done, 0, 0));
    assert_eq!(
        write_check(&applied, &request(&came), &mut [0; 563]).number(),
        Number::OutputTooShort
    );
}

/// Any octets may stand in a kept check: a length that no call stores is none, and is left as it is.
#[test]
fn a_kept_length_that_no_call_stores() {
    for length in (0..=7).chain(65..=255) {
        let mut gateway = moving();
        gateway.ike[0].check.length = length;
        let before = gateway.clone();
        assert_eq!(gateway.check(&response(&copied())).number(), Number::CheckNotPending);
        assert_eq!(gateway, before);
        assert!(!gateway.ike[0].check.is_pending() && gateway.ike[0].check.cookie().is_empty());
    }
}

/// A record of the other peer, with the same cookie and ID, is not touched.
#[test]
fn only_the_record_that_is_meant() {
    let mut gateway = moving();
    gateway.ike[1].agreed = AGREED;
    gateway.ike[1].check = gateway.ike[0].check;
    assert_eq!(gateway.set_policy(&[Rule::ipv4(([0; 4], 0), ([0; 4], 0))], A), Number::Done);
    let (first, body) = copied();
    let (id, body) = (CHECK_ID, &body);
    let told = gateway.check(&CheckResponse { spi: 8, id, first, body, operator: A });
    assert_eq!(told.outcome(), Outcome::Accepted);
    assert_eq!((gateway.ipsec[0].pair, gateway.ipsec[1].pair), (OLD, OLD));
    assert!(gateway.ike[0].check.is_pending() && !gateway.ike[1].check.is_pending());
}
