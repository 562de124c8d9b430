//! Limits and numbers have the same names and values here, in the C header and in the library's own code.
use unmavreth::limits::*;
use unmavreth::redirect::{self, Exchange};
use unmavreth::trace::Kind;
use unmavreth::{Number, Operator, CLONE_IKE_SA, CLONE_IKE_SA_SUPPORTED};

const HEADER: &str = include_str!("../../include/unmavreth.h");
const LIMITS: &str = include_str!("../../../crates/octets/src/limits.rt");
const NUMBERS: &str = include_str!("../../../crates/octets/src/number.rt");
const NOTIFY: &str = include_str!("../../../crates/notify/src/notify.rt");
const REFUSALS: &str = include_str!("../../../crates/fields/src/refusal.rt");
const FIELDS: &str = include_str!("../../../crates/fields/src/field_type.rt");
const ENTRIES: &str = include_str!("../../../crates/entries/src/lib.rt");
const KINDS: &str = include_str!("../../../crates/entries/src/kind.rt");
const REDIRECTS: &str = include_str!("../../../crates/redirect/src/wire.rt");
const OFTEN: &str = include_str!("../../../crates/redirecting/src/limits.rt");
const EXCHANGES: &str = include_str!("../../../crates/redirecting/src/exchange.rt");

/// Whether the text has these words, and neither digits nor letters behind them.
fn says(text: &str, words: &str) -> bool {
    text.match_indices(words).any(|(at, _)| {
        !text[at + words.len()..].starts_with(|c: char| c.is_ascii_alphanumeric() || c == '_')
    })
}

#[test]
fn limits() {
    for (name, value) in [
        ("BODY_MOST", BODY_MOST),
        ("IKE_PLACES", IKE_PLACES),
        ("IPSEC_PLACES", IPSEC_PLACES),
        ("PEER_RECORDS_MOST", PEER_RECORDS_MOST),
        ("OPERATORS", OPERATORS),
        ("IKE_SHARE", IKE_SHARE),
        ("IPSEC_SHARE", IPSEC_SHARE),
        ("ADDRESSES_MOST", ADDRESSES_MOST),
        ("RULES_MOST", RULES_MOST),
        ("ADDRESS_OCTETS", ADDRESS_OCTETS),
        ("IP4_OCTETS", IP4_OCTETS),
        ("IP6_OCTETS", IP6_OCTETS),
        ("PORT_SIZE", PORT_SIZE),
        ("PAYLOAD_HEADER", PAYLOAD_HEADER),
        ("NOTIFY_HEADER", NOTIFY_HEADER),
        ("NAT_OCTETS", NAT_OCTETS),
        ("COOKIE_LEAST", COOKIE_LEAST),
        ("COOKIE_MOST", COOKIE_MOST),
        ("NO_NATS_LEAST", NO_NATS_LEAST),
        ("NO_NATS_MOST", NO_NATS_MOST),
        ("RESPONSE_ROOM", RESPONSE_ROOM),
        ("REQUEST_ROOM", REQUEST_ROOM),
    ] {
        assert!(says(HEADER, &format!("UNMAVRETH_{name} = {value}")), "{name} in the header");
        assert!(says(LIMITS, &format!("pub const {name}: usize")), "{name} in the library");
        // A limit that is a sum there is a sum here as well, of the same limits.
        let plain = says(LIMITS, &format!("pub const {name}: usize = {value}"));
        assert!(plain || LIMITS.contains(&sum_of(name)), "the value of {name} in the library");
    }
    assert!(says(HEADER, "UNMAVRETH_TALLY_MOST UINT32_MAX"));
    assert!(says(LIMITS, &format!("pub const TALLY_MOST: u32 = {TALLY_MOST}")));
}

/// How this crate writes a limit that is a sum.
fn sum_of(name: &str) -> String {
    let here = include_str!("../src/limits.rs");
    let from = here.find(&format!("pub const {name}:")).expect("a limit");
    here[from..].split_inclusive(';').next().unwrap_or_default().to_owned()
}

/// A name as the header has it, with an underscore before each word.
fn in_capitals(name: &str) -> String {
    let mut words = String::new();
    for letter in name.chars() {
        if letter.is_ascii_uppercase() {
            words.push('_');
        }
        words.push(letter.to_ascii_uppercase());
    }
    words
}

#[test]
fn numbers() {
    let refusals = [14, 20, 21, 22, 30, 31, 32, 33, 34, 40, 41, 42, 43, 44, 61, 62, 63, 64, 65];
    for octet in (0..=5).chain(7..=12).chain(refusals) {
        let name = format!("{:?}", Number::from(octet));
        let (words, whose) =
            if !(20..=22).contains(&octet) { (NUMBERS, "Number") } else { (REFUSALS, "Refusal") };
        assert!(says(words, &format!("{whose}::{name} => {octet}")), "{name} in the library");
        let word = in_capitals(&name);
        assert!(says(HEADER, &format!("UNMAVRETH{word} = {octet}")), "{name} in the header");
    }
}

#[test]
fn operators() {
    for (name, operator) in [("A", Operator::A), ("B", Operator::B)] {
        let octet = u8::from(operator);
        assert!(says(HEADER, &format!("UNMAVRETH_OPERATOR_{name} = {octet}")), "{name}");
        assert_eq!(
            (Operator::from(octet), Operator::ALL[usize::from(octet)]),
            (operator, operator)
        );
    }
}

#[test]
fn kinds_of_entries() {
    for octet in 0..=8 {
        let name = format!("{:?}", Kind::from(octet));
        assert!(says(KINDS, &format!("Kind::{name} => {octet}")), "{name} in the library");
        let word = in_capitals(&name);
        assert!(says(HEADER, &format!("UNMAVRETH_KIND{word} = {octet}")), "{name} in the header");
    }
}

#[test]
fn limits_of_entries() {
    for (name, value) in
        [("ENTRY_SLOTS", ENTRY_SLOTS), ("STRING_MOST", STRING_MOST), ("ENTRY_MOST", ENTRY_MOST)]
    {
        assert!(says(HEADER, &format!("UNMAVRETH_{name} = {value}")), "{name} in the header");
    }
    assert!(says(ENTRIES, &format!("pub const ENTRY_SLOTS: usize = {ENTRY_SLOTS}")));
    assert!(says(FIELDS, &format!("pub const STRING_MOST: u64 = {STRING_MOST}")));
    assert!(says(FIELDS, &format!("pub const LIST_PLACES: usize = {RULES_MOST}")));
}

#[test]
fn types_of_cloning() {
    for (name, value) in
        [("CLONE_IKE_SA_SUPPORTED", CLONE_IKE_SA_SUPPORTED), ("CLONE_IKE_SA", CLONE_IKE_SA)]
    {
        assert!(says(HEADER, &format!("UNMAVRETH_{name} = {value}")), "{name} in the header");
        assert!(says(NOTIFY, &format!("pub const {name}: u16 = {value}")), "{name} in the library");
    }
}

#[test]
fn redirects() {
    for (name, value) in [
        ("REDIRECT_SUPPORTED: u16", usize::from(redirect::REDIRECT_SUPPORTED)),
        ("REDIRECT: u16", usize::from(redirect::REDIRECT)),
        ("REDIRECTED_FROM: u16", usize::from(redirect::REDIRECTED_FROM)),
        ("IP4_IDENTITY: u8", usize::from(redirect::IP4_IDENTITY)),
        ("IP6_IDENTITY: u8", usize::from(redirect::IP6_IDENTITY)),
        ("FQDN_IDENTITY: u8", usize::from(redirect::FQDN_IDENTITY)),
        ("FQDN_LEAST: usize", FQDN_LEAST),
        ("FQDN_MOST: usize", FQDN_MOST),
        ("NONCE_LEAST: usize", NONCE_LEAST),
        ("NONCE_MOST: usize", NONCE_MOST),
        ("IDENTITY_HEADER: usize", IDENTITY_HEADER),
        ("REDIRECTS_MOST: usize", REDIRECTS_MOST),
        ("PERIOD_SECONDS: u64", PERIOD_SECONDS as usize),
    ] {
        let known = [REDIRECTS, OFTEN].concat();
        assert!(says(&known, &format!("pub const {name} = {value}")), "{name} in the library");
        let name = name.split(':').next().unwrap_or_default();
        assert!(says(HEADER, &format!("UNMAVRETH_{name} = {value}")), "{name} in the header");
    }
    assert!(REDIRECTS.contains(&sum_of("REDIRECT_ROOM")), "the room in the library");
    assert!(says(HEADER, &format!("UNMAVRETH_REDIRECT_ROOM = {REDIRECT_ROOM}")));
}

#[test]
fn exchanges_of_redirects() {
    for octet in 0..=255 {
        let exchange = Exchange::from(octet);
        assert_eq!(u8::from(exchange), octet);
        assert_eq!(exchange == Exchange::Other(octet), octet > 4);
    }
    for octet in 0..=4 {
        let name = format!("{:?}", Exchange::from(octet));
        assert!(says(EXCHANGES, &format!("{octet} => Exchange::{name}")), "{name} in the library");
        let word = in_capitals(&name);
        assert!(says(HEADER, &format!("UNMAVRETH{word} = {octet}")), "{name} in the header");
    }
}
