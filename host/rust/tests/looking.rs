//! Looking at a gateway's records: by their SPI, by their owner, by their operator, and which of them moved.
mod common;
use common::*;
use unmavreth::{
    interface, Agreed, Effect, IkeRecord, IpsecRecord, Number, Opening, Outcome, INTERFACE,
};

#[test]
fn records_by_their_spi() {
    let gateway = gateway();
    assert_eq!(gateway.ike_record(8), Some(&gateway.ike[1]));
    assert_eq!(gateway.ipsec_record(80), Some(&gateway.ipsec[1]));
    assert_eq!((gateway.ike_record(0), gateway.ike_record(9)), (None, None));
    assert_eq!((gateway.ipsec_record(0), gateway.ipsec_record(8)), (None, None));
}

#[test]
fn records_by_their_operator() {
    let mut gateway = gateway();
    let agreed = Agreed { operator: B, ..AGREED };
    assert_eq!(gateway.open(&Opening { agreed, ..OPENING }), Number::Done);
    assert_eq!(gateway.open_ipsec(91, 9, B), Number::Done);
    let (ike, ipsec): (Vec<_>, Vec<_>) = [A, B, 2.into()]
        .map(|operator| {
            let ike: Vec<u64> = gateway.ike_of(operator).map(|record| record.spi).collect();
            let ipsec: Vec<u32> = gateway.ipsec_of(operator).map(|record| record.spi).collect();
            (ike, ipsec)
        })
        .into_iter()
        .unzip();
    assert_eq!(ike, [vec![7, 8], vec![9], vec![]]);
    assert_eq!(ipsec, [vec![70, 80], vec![90, 91], vec![]]);
    assert_eq!((gateway.of_peer(0, A).count(), gateway.of_peer(0, B).count()), (2, 1));
    // Whose an IPsec record is goes by the lowest place with its owner's SPI, and a free place has no operator.
    gateway.ike[3] = IkeRecord { spi: 7, agreed, ..IkeRecord::FREE };
    gateway.ike[4] = IkeRecord { agreed, ..IkeRecord::FREE };
    gateway.ipsec[4] = IpsecRecord { spi: 5, ..IpsecRecord::FREE };
    assert_eq!((gateway.ike_of(B).count(), gateway.ipsec_of(B).count()), (2, 2));
    assert_eq!((gateway.ike_of(A).count(), gateway.ipsec_of(A).count()), (2, 2));
}

#[test]
fn the_records_that_a_check_moves() {
    let mut gateway = gateway();
    assert_eq!(gateway.open_ipsec(71, 7, A), Number::Done);
    let before = gateway.ipsec.clone();
    assert_eq!(gateway.moved(&before).count(), 0);
    let came = chain(&[notify(UPDATE, &[])]);
    assert_eq!(gateway.handle(&request(&came), &mut [0; 128]).update(), Effect::Applied);
    assert_eq!(gateway.moved(&before).count(), 0);
    let answer = chain(&[notify(COOKIE2, &CHECK)]);
    assert_eq!(gateway.check(&response(&answer)).outcome(), Outcome::Accepted);
    let owned: Vec<u32> = gateway.owned(7).map(|record| record.spi).collect();
    assert_eq!(owned, [70, 71]);
    let moved: Vec<_> =
        gateway.moved(&before).map(|(was, is)| (was.pair, is.spi, is.pair)).collect();
    assert_eq!(moved, [(OLD, 70, NEW), (OLD, 71, NEW)]);
    assert_eq!(gateway.owned(0).count(), 0);
}

#[test]
fn a_closed_record_did_not_move() {
    let mut gateway = gateway();
    let before = gateway.ipsec.clone();
    assert_eq!(gateway.close_ike(7, A), Number::Done);
    assert_eq!(gateway.moved(&before).count(), 0);
}

#[test]
fn the_number_of_the_interface() {
    assert_eq!(interface(), INTERFACE);
}

#[test]
fn a_refusal_is_an_error_with_its_words() {
    let error: Box<dyn std::error::Error> = Box::new(Number::SpiInUse);
    assert_eq!(error.to_string(), "SPI in use");
    assert_eq!((Number::Done.ok(), Number::Full.ok()), (Ok(()), Err(Number::Full)));
}
