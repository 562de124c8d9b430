//! Redirects: what is written reads back, every bound on both sides of it, every number of the decision in
//! its order; and a refusal leaves what was lent.
use unmavreth::limits::{FQDN_MOST, NONCE_MOST, REDIRECTS_MOST, REDIRECT_ROOM};
use unmavreth::redirect::{
    decide, read, read_from, read_supported, write, write_from, write_supported, Exchange,
    Identity, Redirect, Redirects, FQDN_IDENTITY, IP4_IDENTITY, IP6_IDENTITY,
};
use unmavreth::Number;

const NEW: Identity = Identity::ipv4(&[192, 0, 2, 2]);
const NONCE: [u8; 16] = *b"0123456789abcdef";
/// The exchanges in which a REDIRECT may stand without a nonce.
const BARE: [Exchange; 3] = [Exchange::FirstAuth, Exchange::LastAuth, Exchange::Informational];

/// The data that is written; the octets past it stay as they were.
fn written(identity: &Identity, nonce: &[u8]) -> Vec<u8> {
    let mut out = [0xa5; REDIRECT_ROOM + 7];
    let length = write(identity, nonce, &mut out).expect("it is written");
    assert!(out[length..].iter().all(|octet| *octet == 0xa5));
    out[..length].to_vec()
}

/// The number of a refused writing, which leaves the output.
fn refused(identity: &Identity, nonce: &[u8], room: usize) -> Number {
    let mut out = vec![0xa5; room];
    let number = write(identity, nonce, &mut out).expect_err("it is refused");
    assert!(out.iter().all(|octet| *octet == 0xa5));
    number
}

/// Whether an identity of a type may have a size; a name may stand in a REDIRECT only.
fn fits(named: bool, identity_type: u8, size: usize) -> bool {
    match identity_type {
        IP4_IDENTITY => size == 4,
        IP6_IDENTITY => size == 16,
        FQDN_IDENTITY => named && (1..=255).contains(&size),
        _ => false,
    }
}

#[test]
fn octets_in_their_order() {
    assert_eq!(written(&NEW, &[]), [1, 4, 192, 0, 2, 2]);
    assert_eq!(written(&NEW, &NONCE), [&[1, 4, 192, 0, 2, 2], &NONCE[..]].concat());
    assert_eq!(written(&Identity::fqdn(b"gw2"), &[]), *b"\x03\x03gw2");
    assert_eq!(written(&Identity::ipv6(&[7; 16]), &[])[..3], [2, 16, 7]);
}

#[test]
fn what_is_written_reads_back() {
    let octets: Vec<u8> = (0..=255).rev().collect();
    let nonces: Vec<u8> = (0..=255).collect();
    let identities =
        [(IP4_IDENTITY, 4), (IP6_IDENTITY, 16), (FQDN_IDENTITY, 1), (FQDN_IDENTITY, FQDN_MOST)];
    for (identity_type, size) in identities {
        let identity = Identity { identity_type, octets: &octets[..size] };
        for size in [0, 16, 17, 255, NONCE_MOST] {
            let nonce = &nonces[..size];
            let data = written(&identity, nonce);
            let told = read(&data).expect("it is read");
            assert_eq!(told, Redirect { identity, nonce });
            let behind = 2 + identity.octets.len();
            assert_eq!(told.identity.octets.as_ptr_range(), data[2..behind].as_ptr_range());
            assert_eq!(told.nonce.len(), data[behind..].len());
        }
        let mut out = [0xa5; REDIRECT_ROOM];
        match write_from(&identity, &mut out) {
            Ok(length) => assert_eq!(read_from(&out[..length]), Ok(identity)),
            Err(number) => {
                assert_eq!((identity_type, number), (FQDN_IDENTITY, Number::BadRedirect));
                assert_eq!(out, [0xa5; REDIRECT_ROOM]);
            }
        }
    }
    let longest = Identity::fqdn(&octets[..FQDN_MOST]);
    assert_eq!(written(&longest, &nonces).len(), REDIRECT_ROOM);
}

#[test]
fn every_type_and_size_of_an_identity() {
    let octets = [9; 256];
    for identity_type in 0..=255 {
        for size in [0, 1, 2, 3, 4, 5, 15, 16, 17, 254, 255, 256] {
            let identity = Identity { identity_type, octets: &octets[..size] };
            let mut out = [0; REDIRECT_ROOM];
            assert_eq!(write(&identity, &[], &mut out).is_ok(), fits(true, identity_type, size));
            assert_eq!(write_from(&identity, &mut out).is_ok(), fits(false, identity_type, size));
            let Ok(size) = u8::try_from(size) else { continue };
            let data = [&[identity_type, size], identity.octets].concat();
            assert_eq!(read(&data).is_ok(), fits(true, identity_type, size.into()));
            assert_eq!(read_from(&data).is_ok(), fits(false, identity_type, size.into()));
        }
    }
}

#[test]
fn data_cut_or_left_over() {
    let data = written(&Identity::ipv6(&[7; 16]), &[]);
    for length in 0..data.len() {
        assert_eq!(read(&data[..length]), Err(Number::BadRedirect));
        assert_eq!(read_from(&data[..length]), Err(Number::BadRedirect));
    }
    let more = [&data[..], &[1]].concat();
    assert_eq!(read(&more).expect("a nonce of one octet is read").nonce, [1]);
    assert_eq!(read_from(&more), Err(Number::BadRedirect));
    assert_eq!(read_supported(&[]), Ok(()));
    assert_eq!(read_supported(&[0]), Err(Number::BadRedirect));
    assert_eq!(write_supported(&mut [0; REDIRECT_ROOM]), Ok(0));
}

#[test]
fn outputs_and_nonces_to_write() {
    assert_eq!(refused(&NEW, &[], REDIRECT_ROOM - 1), Number::OutputTooShort);
    assert_eq!(refused(&NEW, &[1], REDIRECT_ROOM - 1), Number::OutputTooShort, "2 before 30");
    assert_eq!(refused(&NEW, &[], 0), Number::OutputTooShort);
    let mut short = [0xa5; REDIRECT_ROOM - 1];
    assert_eq!(write_from(&NEW, &mut short), Err(Number::OutputTooShort));
    assert_eq!(write_supported(&mut short), Err(Number::OutputTooShort));
    assert_eq!(short, [0xa5; REDIRECT_ROOM - 1]);
    for size in [1, 15, 257, 4096] {
        assert_eq!(refused(&NEW, &vec![1; size], REDIRECT_ROOM), Number::BadRedirect);
    }
}

/// A decision that refuses, and leaves the record.
fn refuses(record: Redirects, exchange: Exchange, sent: &[u8], time: u64, data: &[u8]) -> Number {
    let mut after = record;
    let number = decide(&mut after, exchange, sent, time, data).expect_err("it is refused");
    assert_eq!(after, record);
    number
}

#[test]
fn nonces_in_ike_sa_init() {
    let mut record = Redirects::FRESH;
    let data = written(&NEW, &NONCE);
    let told = decide(&mut record, Exchange::SaInit, &NONCE, 5, &data).expect("it is accepted");
    assert_eq!(told, Redirect { identity: NEW, nonce: &NONCE });
    assert_eq!(told.nonce.as_ptr_range(), data[6..].as_ptr_range());
    assert_eq!(record, Redirects { count: 1, times: [5, 0, 0, 0, 0] });
    let refuses = |sent: &[u8], data: &[u8]| refuses(record, Exchange::SaInit, sent, 5, data);
    assert_eq!(refuses(&NONCE, &written(&NEW, &[])), Number::WrongNonce);
    assert_eq!(refuses(&NONCE, &data[..21]), Number::WrongNonce, "one octet less");
    assert_eq!(refuses(&NONCE, &[&data[..], &[0]].concat()), Number::WrongNonce);
    for at in 0..NONCE.len() {
        let mut other = NONCE;
        other[at] ^= 1;
        assert_eq!(refuses(&other, &data), Number::WrongNonce);
    }
    for size in [0, 15, 257] {
        let sent = vec![1; size];
        assert_eq!(
            refuses(&sent, &[&[1, 4, 192, 0, 2, 2], &sent[..]].concat()),
            Number::BadRedirect
        );
    }
}

#[test]
fn exchanges() {
    let (bare, data) = (written(&NEW, &[]), written(&NEW, &NONCE));
    for exchange in BARE {
        let mut record = Redirects::FRESH;
        // The nonce sent isn't looked at.
        let told = decide(&mut record, exchange, &[], 0, &bare).expect("it is accepted");
        assert_eq!((told.identity, told.nonce), (NEW, &[][..]));
        assert_eq!(record, Redirects { count: 1, times: [0; 5] });
        assert_eq!(refuses(record, exchange, &NONCE, 0, &data), Number::WrongExchange);
        let one = [&bare[..], &[1]].concat();
        assert_eq!(refuses(record, exchange, &NONCE, 0, &one), Number::WrongExchange);
    }
    for exchange in [2].into_iter().chain(5..=255).map(Exchange::from) {
        let number = refuses(Redirects::FRESH, exchange, &NONCE, 0, &bare);
        assert_eq!(number, Number::WrongExchange);
    }
}

/// A decision at this time on a REDIRECT that has nothing else against it.
fn at(record: &mut Redirects, time: u64) -> Result<(), Number> {
    let before = *record;
    let data = written(&NEW, &[]);
    let told = decide(record, Exchange::Informational, &[], time, &data);
    if told.is_err() {
        assert_eq!(*record, before);
    }
    told.map(|_| ())
}

#[test]
fn no_sixth_within_300_seconds() {
    let mut record = Redirects::FRESH;
    for time in [100, 100, 200, 300, 399] {
        assert_eq!(at(&mut record, time), Ok(()));
    }
    assert_eq!(record, Redirects { count: 5, times: [100, 100, 200, 300, 399] });
    assert_eq!(at(&mut record, 398), Err(Number::TimeBeforeLast));
    assert_eq!(at(&mut record, 399), Err(Number::TooManyRedirects));
    assert_eq!(at(&mut record, 400), Ok(()), "exactly 300 seconds after the first");
    assert_eq!(record, Redirects { count: 5, times: [100, 200, 300, 399, 400] });
    assert_eq!(at(&mut record, 400), Ok(()));
    assert_eq!(at(&mut record, 499), Err(Number::TooManyRedirects));
    assert_eq!(at(&mut record, 500), Ok(()));
    assert_eq!(at(&mut record, u64::MAX), Ok(()));
    assert_eq!(at(&mut record, u64::MAX - 1), Err(Number::TimeBeforeLast));
    for _ in 1..REDIRECTS_MOST {
        assert_eq!(at(&mut record, u64::MAX), Ok(()));
    }
    assert_eq!(at(&mut record, u64::MAX), Err(Number::TooManyRedirects));
}

#[test]
fn the_first_refusal_is_told() {
    let full = Redirects { count: 5, times: [9; 5] };
    let data = written(&NEW, &NONCE);
    let other = [0; 16];
    assert_eq!(refuses(full, Exchange::MiddleAuth, &other, 8, &data[..5]), Number::BadRedirect);
    assert_eq!(refuses(full, Exchange::MiddleAuth, &other, 8, &data), Number::WrongExchange);
    assert_eq!(refuses(full, Exchange::SaInit, &other, 8, &data), Number::WrongNonce);
    assert_eq!(refuses(full, Exchange::SaInit, &NONCE, 8, &data), Number::TimeBeforeLast);
    assert_eq!(refuses(full, Exchange::SaInit, &NONCE, 9, &data), Number::TooManyRedirects);
}

/// A count over five reads as five, and whatever stands past the count isn't looked at.
#[test]
fn records_that_no_decision_leaves() {
    let mut record = Redirects { count: 255, times: [9; 5] };
    assert_eq!(at(&mut record, 9), Err(Number::TooManyRedirects));
    assert_eq!(at(&mut record, 309), Ok(()));
    assert_eq!(record, Redirects { count: 5, times: [9, 9, 9, 9, 309] });
    let mut record = Redirects { count: 1, times: [9; 5] };
    assert_eq!(at(&mut record, 9), Ok(()));
    assert_eq!(record, Redirects { count: 2, times: [9, 9, 0, 0, 0] });
}
