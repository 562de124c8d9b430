//! What is handed out is a part of the lent body, and what is past a written length stays as it was.
mod common;
use common::*;
use unmavreth::{cookie, nat_value, read, write, Ask, Draft, Number};

#[test]
fn the_cookie_is_a_part_of_the_body() {
    let (first, body) = chain(&[notify(UPDATE, &[]), notify(COOKIE2, &COOKIE)]);
    let part = read(first, &body).cookie(&body);
    assert_eq!(part, COOKIE);
    assert_eq!(part.as_ptr_range(), body[16..25].as_ptr_range());
}

#[test]
fn the_nat_detection_values_are_parts_of_the_body() {
    let (source, destination) = (notify(NAT_SOURCE, &[1; 20]), notify(NAT_DESTINATION, &[2; 20]));
    let (first, body) = chain(&[notify(UPDATE, &[]), source, destination]);
    let reading = read(first, &body);
    assert_eq!(reading.nat_source(&body).as_ptr_range(), body[16..36].as_ptr_range());
    assert_eq!(reading.nat_destination(&body).as_ptr_range(), body[44..64].as_ptr_range());
    assert_eq!(
        (reading.nat_source(&body), reading.nat_destination(&body)),
        (&[1; 20][..], &[2; 20][..])
    );
    let (first, body) = chain(&[notify(UPDATE, &[])]);
    assert!(read(first, &body).nat_source(&body).is_empty());
    assert!(nat_value(&[5; 40], 0).is_empty() && nat_value(&[5; 40], 21).is_empty());
    assert_eq!(nat_value(&[5; 40], 20), [5; 20]);
}

#[test]
fn without_a_cookie_the_part_is_empty() {
    let (first, body) = chain(&[notify(UPDATE, &[])]);
    assert!(read(first, &body).cookie(&body).is_empty());
    let (_, other) = chain(&[notify(COOKIE2, &COOKIE)]);
    let reading = read(41, &other);
    assert_eq!(reading.cookie(&other), COOKIE);
    assert!(reading.cookie(&body).is_empty(), "an offset that another body doesn't have");
    assert!(reading.cookie(&[]).is_empty());
}

#[test]
fn any_offset_and_length_may_be_asked_for() {
    let body = [5; 40];
    let edges = [0, 1, 8, 39, 40, 41, 0x7fff, 0xffff];
    for at in edges {
        for length in edges {
            let part = cookie(&body, at, length);
            let inside = at != 0 && usize::from(at) + usize::from(length) <= body.len();
            assert_eq!(part.len(), if inside { usize::from(length) } else { 0 });
            assert!(cookie(&[], at, length).is_empty());
        }
    }
}

#[test]
fn a_response_leaves_the_rest_of_the_output() {
    let nats = [notify(NAT_SOURCE, &[1; 20]), notify(NAT_DESTINATION, &[2; 20])];
    let [source, destination] = nats;
    let came = chain(&[notify(UPDATE, &[]), source, destination, notify(COOKIE2, &COOKIE)]);
    let mut out = [0xa5; 300];
    let reply = gateway().handle(&request(&came), &mut out);
    assert_eq!((reply.number(), reply.length()), (Number::Done, 73));
    let values = [notify(NAT_SOURCE, &VALUES[0]), notify(NAT_DESTINATION, &VALUES[1])];
    let [source, destination] = values;
    assert_eq!(reply.response(&out), chain(&[source, destination, notify(COOKIE2, &COOKIE)]).1);
    assert_eq!(out[73..], [0xa5; 227]);
    assert_eq!(reply.cookie(&came.1).as_ptr_range(), came.1[72..81].as_ptr_range());
}

#[test]
fn a_request_leaves_the_rest_of_the_output() {
    let draft =
        Draft { ask: Ask { update: true, ..Ask::default() }, cookie: &COOKIE, ..Draft::default() };
    let mut out = [0xa5; 700];
    let written = write(&draft, &mut out);
    assert_eq!((written.number(), written.first(), written.length()), (Number::Done, 41, 25));
    assert_eq!(written.body(&out), chain(&[notify(UPDATE, &[]), notify(COOKIE2, &COOKIE)]).1);
    assert_eq!(out[25..], [0xa5; 675]);
}

#[test]
fn a_part_of_another_output_is_empty_where_it_is_too_short() {
    let came = chain(&[notify(UPDATE, &[]), notify(COOKIE2, &COOKIE)]);
    let mut out = [0; 128];
    let reply = gateway().handle(&request(&came), &mut out);
    assert_eq!((reply.response(&out).len(), reply.response(&out[..16])), (17, &[][..]));
}
