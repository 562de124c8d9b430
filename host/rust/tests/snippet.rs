//! README's snippet runs: a record is opened, an update is handled and answered, and its check decided.
mod common;
use common::{chain, notify, B, COOKIE, COOKIE2, RULE, UPDATE};
use std::net::SocketAddr;

include!("../../snippets/update.rs");

/// What the snippet takes from the host around it.
struct IkeSa {
    own_spi: u64,
    child_spi: u32,
    mobike: bool,
    cloning: bool,
    operator: Operator,
    client: u32,
    next_id: u32,
    peer: SocketAddr,
    own: SocketAddr,
    sent: Vec<(u32, u8, Vec<u8>)>,
    asked: Vec<IkeResponse>,
    closed: bool,
}

struct IkeRequest {
    id: u32,
    from: SocketAddr,
    to: SocketAddr,
    nat_source: [u8; 20],
    nat_destination: [u8; 20],
    first: u8,
    payloads: Vec<u8>,
    fresh: [u8; 16],
}

struct IkeResponse {
    id: u32,
    first: u8,
    payloads: Vec<u8>,
}

impl IkeSa {
    fn respond(&mut self, id: u32, first: u8, payloads: &[u8]) {
        self.sent.push((id, first, payloads.to_vec()));
    }

    /// Keeps the request as the response that copies it.
    fn ask(&mut self, id: u32, first: u8, payloads: &[u8]) {
        self.asked.push(IkeResponse { id, first, payloads: payloads.to_vec() });
    }

    fn close(&mut self) {
        self.closed = true;
    }
}

fn socket(text: &str) -> SocketAddr {
    text.parse().expect("a socket address")
}

#[test]
fn an_update_is_handled_and_answered() {
    let (peer, own) = (socket("203.0.113.5:4500"), socket("192.0.2.1:4500"));
    let (sent, asked) = (vec![], vec![]);
    let (own_spi, child_spi, mobike, next_id, closed) = (7, 70, true, 30, false);
    let (cloning, operator, client) = (true, B, 5);
    let mut sa = IkeSa {
        own_spi,
        child_spi,
        mobike,
        cloning,
        operator,
        client,
        next_id,
        peer,
        own,
        sent,
        asked,
        closed,
    };
    let mut gateway = Gateway::new();
    assert_eq!(mobike_open(&mut gateway, &sa), Ok(()));
    assert_eq!(mobike_open(&mut gateway, &sa), Err(Number::SpiInUse));

    let (first, payloads) = chain(&[notify(UPDATE, &[]), notify(COOKIE2, &COOKIE)]);
    let (from, to) = (socket("[::ffff:198.51.100.7]:4500"), socket("[::ffff:192.0.2.1]:4500"));
    let (nat_source, nat_destination) = ([1; 20], [2; 20]);
    let (id, fresh) = (4, [9; 16]);
    let mut came = IkeRequest { id, from, to, nat_source, nat_destination, first, payloads, fresh };
    assert_eq!(mobike_request(&mut gateway, &mut sa, &came), Err(Number::NotAcceptable));
    let refused = chain(&[notify(40, &[]), notify(COOKIE2, &COOKIE)]);
    assert_eq!(sa.sent.pop(), Some((4, refused.0, refused.1)));
    assert!(sa.asked.is_empty());

    assert_eq!(gateway.set_policy(&[RULE], operator).ok(), Ok(()));
    came.id = 5;
    assert_eq!(mobike_request(&mut gateway, &mut sa, &came), Ok(()));
    let done = chain(&[notify(COOKIE2, &COOKIE)]);
    assert_eq!(sa.sent.pop(), Some((5, done.0, done.1)));
    let (was, moved) = (Pair::between(peer, own), Pair::between(socket("198.51.100.7:4500"), own));
    assert_eq!((gateway.ike[0].pair, gateway.ipsec[0].pair), (moved, was));

    let copied = sa.asked.pop().expect("a check");
    let check = chain(&[notify(COOKIE2, &[9; 16])]);
    assert_eq!((copied.id, copied.first, &copied.payloads), (30, check.0, &check.1));
    assert_eq!(mobike_checked(&mut gateway, &mut sa, &copied), Ok(()));
    assert_eq!((gateway.ike[0].pair, gateway.ipsec[0].pair), (moved, moved));
    let again = mobike_checked(&mut gateway, &mut sa, &copied);
    assert_eq!((again, sa.closed), (Err(Number::CheckNotPending), false));

    came.id = 6;
    assert_eq!(mobike_request(&mut gateway, &mut sa, &came), Ok(()));
    let mut other = sa.asked.pop().expect("another check");
    other.payloads[8] ^= 1;
    assert_eq!(mobike_checked(&mut gateway, &mut sa, &other), Ok(()));
    assert!(sa.closed && gateway == Gateway { policies: gateway.policies, ..Gateway::new() });

    sa.own_spi = 8;
    assert_eq!(mobike_request(&mut gateway, &mut sa, &came), Err(Number::NoSuchRecord));
    assert_eq!(sa.sent.pop(), Some((6, 0, vec![])));
}
