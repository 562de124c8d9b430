//! Every number and type has the words of the table that the C header and the program `show_chain` are held to.
use std::collections::BTreeMap;
use unmavreth::{notify_words, payload_words, Effect, Number, Outcome};

const TABLE: &str = include_str!("../../words/words.txt");
const NUMBERS: &str = include_str!("../../../crates/octets/src/number.rt");
const NOTIFY: &str = include_str!("../../../crates/notify/src/notify.rt");

/// The numbers of the calls on paths, which are proved and not in the interface yet.
const NOT_YET: [&str; 3] = ["50", "51", "52"];

/// The rows of one kind, by their number or "other".
fn rows(kind: &str) -> BTreeMap<&'static str, &'static str> {
    let lines = TABLE.lines().filter_map(|line| line.strip_prefix(kind)?.strip_prefix(' '));
    let rows: Vec<_> = lines.filter_map(|row| row.split_once(' ')).collect();
    assert!(!rows.is_empty() && rows.iter().all(|(_, words)| !words.is_empty()), "{kind}");
    let by_number = BTreeMap::from_iter(rows.iter().copied());
    assert_eq!(by_number.len(), rows.len(), "a number of {kind} stands twice");
    by_number
}

/// What the crate says of each octet is what the table says, and it is a number of the library exactly
/// if it has a row.
fn same(kind: &str, words: fn(u8) -> &'static str, is_other: fn(u8) -> bool) {
    let rows = rows(kind);
    for octet in 0..=u8::MAX {
        let row = rows.get(octet.to_string().as_str());
        assert_eq!(row.is_none(), is_other(octet), "{kind} {octet}");
        assert_eq!(words(octet), *row.unwrap_or(&rows["other"]), "{kind} {octet}");
    }
}

#[test]
fn numbers_and_outcomes() {
    same("number", |n| Number::from(n).words(), |n| Number::from(n) == Number::Other(n));
    same("update", |n| Effect::from(n).update_words(), |n| Effect::from(n) == Effect::Other(n));
    same("list", |n| Effect::from(n).list_words(), |n| Effect::from(n) == Effect::Other(n));
    same("outcome", |n| Outcome::from(n).words(), |n| Outcome::from(n) == Outcome::Other(n));
    assert_eq!(format!("{:>16}", Number::SpiInUse), "      SPI in use");
    assert_eq!(Outcome::NatSeen.to_string(), "NAT seen");
}

#[test]
fn types() {
    let (notify, payload) = (rows("notify"), rows("payload"));
    for number in 0..=u16::MAX {
        assert_eq!(notify_words(number), notify.get(number.to_string().as_str()).copied());
    }
    for number in 0..=u8::MAX {
        assert_eq!(payload_words(number), payload.get(number.to_string().as_str()).copied());
        assert_eq!(payload_words(number).is_some(), (33..=48).contains(&number));
    }
}

/// Each number and each notify type that the library's own code names has its row.
#[test]
fn none_is_left_out() {
    let numbers = NUMBERS.lines().filter_map(|line| line.trim().strip_prefix("Number::"));
    let told: Vec<_> = numbers
        .filter_map(|line| line.split_once(" => "))
        .map(|(_, n)| n.trim_end_matches(','))
        .filter(|n| !NOT_YET.contains(n))
        .collect();
    assert!(told.len() > 16 && told.iter().all(|n| rows("number").contains_key(n)));
    let consts = NOTIFY.lines().filter_map(|line| line.trim().strip_prefix("pub const "));
    let named: BTreeMap<_, _> = consts
        .filter_map(|line| line.split_once(": u16 = "))
        .filter(|(name, _)| *name != "FIRST_STATUS")
        .map(|(name, number)| (number.trim_end_matches(';'), name))
        .collect();
    assert_eq!(named, rows("notify"));
}
