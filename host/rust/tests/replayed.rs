//! The stored trace of the day, its calls made again through this crate: each line is the one that is stored.
use std::fmt::Write;
use unmavreth::limits::RESPONSE_ROOM;
use unmavreth::trace::{read_entry, Entry};
use unmavreth::{Effect, Gateway, Pair};

const TRACE: &[u8] = include_bytes!("../../../crates/replay/stdin");
const LINES: &str = include_str!("../../../crates/replay/stdout");

fn word(effect: Effect, applied: &'static str) -> &'static str {
    match effect {
        Effect::None => "none",
        Effect::Applied => applied,
        Effect::Stale => "stale",
        Effect::Other(_) => "other",
    }
}

/// Makes the call of an entry, and tells what a line says of it.
fn made(gateway: &mut Gateway, entry: &Entry) -> String {
    let number = match entry {
        Entry::OpenBoth(opening) => gateway.open(opening),
        Entry::AddIpsec { spi, owner, operator } => gateway.open_ipsec(*spi, *owner, *operator),
        Entry::CloseIke { spi, operator } => gateway.close_ike(*spi, *operator),
        Entry::CloseIpsec { spi, operator } => gateway.close_ipsec(*spi, *operator),
        Entry::CheckResponse(response) => gateway.check(response).number(),
        Entry::Clone(request) => gateway.clone_ike(request, &mut [0; RESPONSE_ROOM]).number(),
        Entry::MarkDeletion { spi, operator } => gateway.mark_deletion(*spi, *operator),
        Entry::Policy { policy, operator } => {
            gateway.set_policy(&policy.rules[..usize::from(policy.count)], *operator)
        }
        Entry::Request(request) => {
            let reply = gateway.handle(request, &mut [0; RESPONSE_ROOM]);
            let (update, list) = (word(reply.update(), "applied"), word(reply.list(), "replaced"));
            return format!("{} {update} {list}", u8::from(reply.number()));
        }
    };
    format!("{} none none", u8::from(number))
}

fn pair_line(table: &str, spi: u64, pair: &Pair) -> String {
    let hex = |octets: [u8; 16]| u128::from_be_bytes(octets);
    let (source, destination) = (hex(pair.source), hex(pair.destination));
    let (from, to) = (pair.source_port, pair.destination_port);
    format!("{table} {spi} {} {source:032x} {destination:032x} {from} {to}\n", pair.family)
}

#[test]
fn the_day() {
    let (mut gateway, mut lines, mut ordinal, mut at) = (Gateway::new(), String::new(), 0, 0);
    while at < TRACE.len() {
        let (entry, next) = read_entry(TRACE, at).expect("an entry");
        writeln!(lines, "{ordinal} {}", made(&mut gateway, &entry)).expect("a line");
        (ordinal, at) = (ordinal + 1, next);
    }
    for record in gateway.ike.iter().filter(|record| record.spi != 0) {
        lines += &pair_line("ike", record.spi, &record.pair);
    }
    for record in gateway.ipsec.iter().filter(|record| record.spi != 0) {
        lines += &pair_line("ipsec", record.spi.into(), &record.pair);
    }
    assert_eq!(lines, LINES);
}
