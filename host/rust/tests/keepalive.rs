//! A keepalive has no update; with both kinds of NAT detection it gets both values, and moves nothing.
mod common;
use common::*;
use unmavreth::{Effect, Number};

/// The response to these payloads, its first type and its octets; no table changes.
fn answered(payloads: &[Payload]) -> (u8, Vec<u8>) {
    let mut gateway = gateway();
    let before = gateway.clone();
    let mut out = [0; 128];
    let reply = gateway.handle(&request(&chain(payloads)), &mut out);
    assert_eq!(reply.number(), Number::Done);
    assert_eq!((reply.update(), reply.list()), (Effect::None, Effect::None));
    assert_eq!(gateway, before);
    (reply.first(), reply.response(&out).to_vec())
}

#[test]
fn both_kinds_without_an_update_get_both_values() {
    let source = notify(NAT_SOURCE, &[1; 20]);
    let destination = notify(NAT_DESTINATION, &[2; 20]);
    let cookie = notify(COOKIE2, &COOKIE);
    let values = [notify(NAT_SOURCE, &VALUES[0]), notify(NAT_DESTINATION, &VALUES[1])];
    assert_eq!(answered(&[source.clone(), destination.clone()]), chain(&values));
    assert_eq!(answered(&[destination.clone(), source.clone()]), chain(&values));
    let [first, second] = values;
    let both = [source.clone(), destination.clone(), cookie.clone()];
    assert_eq!(answered(&both), chain(&[first, second, cookie.clone()]));
    assert_eq!(answered(&[source.clone()]), (0, vec![]));
    assert_eq!(answered(&[destination]), (0, vec![]));
    assert_eq!(answered(&[source, cookie.clone()]), chain(&[cookie]));
}
