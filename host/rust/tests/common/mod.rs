//! Payload chains, addresses and tables that the tests share.
#![allow(dead_code)]
use unmavreth::{
    Agreed, CheckResponse, CloneRequest, Flag, Gateway, Number, Opening, Operator, Pair, Request,
    Rule,
};

pub const A: Operator = Operator::A;
pub const B: Operator = Operator::B;

pub const NAT_SOURCE: u16 = 16388;
pub const NAT_DESTINATION: u16 = 16389;
pub const IP4: u16 = 16397;
pub const IP6: u16 = 16398;
pub const NO_ADDITIONAL: u16 = 16399;
pub const UPDATE: u16 = 16400;
pub const COOKIE2: u16 = 16401;
pub const NO_NATS: u16 = 16402;
pub const CLONE_SUPPORTED: u16 = 16432;
pub const CLONE: u16 = 16433;

pub const OLD: Pair = Pair::ipv4(([203, 0, 113, 5], 500), ([192, 0, 2, 1], 501));
pub const NEW: Pair = Pair::ipv4(([198, 51, 100, 7], 4500), ([192, 0, 2, 1], 4501));
pub const RULE: Rule = Rule::ipv4(([198, 51, 100, 0], 24), ([192, 0, 2, 0], 24));
pub const COOKIE: [u8; 9] = [1, 2, 3, 4, 5, 6, 7, 8, 9];
pub const AGREED: Agreed = Agreed { mobike: Flag::YES, ..Agreed::NONE };

/// An opening by A with nothing wrong in it, beside the records of `gateway`.
pub const OPENING: Opening = Opening { spi: 9, agreed: AGREED, pair: NEW, child: 90 };

/// What is lent for a check: its cookie, and the message ID of the gateway's next request.
pub const CHECK: [u8; 16] = [0xc0; 16];
pub const CHECK_ID: u32 = 0x0506_0708;

/// The lent NAT detection values.
pub const VALUES: [[u8; 20]; 2] = [[0x51; 20], [0x52; 20]];

/// A payload: its type, its flags, and what stands after its header.
pub type Payload = (u8, u8, Vec<u8>);

pub fn notify(kind: u16, data: &[u8]) -> Payload {
    (41, 0, [&[0, 0], &kind.to_be_bytes()[..], data].concat())
}

pub fn bare(kind: u8) -> Payload {
    (kind, 0, vec![])
}

/// The payloads as a chain: the first type, and the body.
pub fn chain(payloads: &[Payload]) -> (u8, Vec<u8>) {
    let kinds: Vec<u8> = payloads.iter().map(|payload| payload.0).chain([0]).collect();
    let mut body = Vec::new();
    for ((_, flags, rest), next) in payloads.iter().zip(&kinds[1..]) {
        body.extend([*next, *flags]);
        body.extend((4 + rest.len() as u16).to_be_bytes());
        body.extend(rest);
    }
    (kinds[0], body)
}

/// One IKE record, with SPI 7 and the old pair, that agreed on MOBIKE, and an IPsec record of it, with
/// SPI 70; another IKE record, with SPI 8, that didn't agree, and its IPsec record 80; and one rule. All
/// of it is A's.
pub fn gateway() -> Gateway {
    let mut gateway = Gateway::new();
    let first = Opening { spi: 7, agreed: AGREED, pair: OLD, child: 70 };
    assert_eq!(gateway.open(&first), Number::Done);
    let other = Opening { spi: 8, agreed: Agreed::NONE, pair: OLD, child: 80 };
    assert_eq!(gateway.open(&other), Number::Done);
    assert_eq!(gateway.set_policy(&[RULE], A), Number::Done);
    gateway
}

/// A request to the first record, with ID 0 and the new pair.
pub fn request<'a>((first, body): &'a (u8, Vec<u8>)) -> Request<'a> {
    let [nat_source, nat_destination] = &VALUES;
    Request {
        spi: 7,
        id: 0,
        pair: NEW,
        nat_source,
        nat_destination,
        first: *first,
        body,
        cookie: &CHECK,
        check_id: CHECK_ID,
        operator: A,
    }
}

/// The response to the check of the first record.
pub fn response<'a>((first, body): &'a (u8, Vec<u8>)) -> CheckResponse<'a> {
    CheckResponse { spi: 7, id: CHECK_ID, first: *first, body, operator: A }
}

/// A request to clone the first record, as SPI 9.
pub fn clone_request<'a>((first, body): &'a (u8, Vec<u8>)) -> CloneRequest<'a> {
    CloneRequest { spi: 7, new_spi: 9, first: *first, body, operator: A }
}
