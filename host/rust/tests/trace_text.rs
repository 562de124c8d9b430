//! The text form of a trace, both ways: each kind, each form of a word, and what isn't understood.
#[path = "../examples/trace_text/form/mod.rs"]
mod form;
use form::{to_text, to_trace, Turned};
use unmavreth::trace::{write_entry, Entry};
use unmavreth::{Agreed, CheckResponse, CloneRequest, Flag, Opening, Operator};
use unmavreth::{Pair, Policy, Request, Rule};

const OPEN: &str = "open 7 1 4 192.0.2.1 198.51.100.1 4500 4500 9 5 1 1\n";
const FOUR: Pair = Pair::ipv4(([192, 0, 2, 1], 4500), ([198, 51, 100, 1], 4500));

/// A line of each kind, and what it says.
fn lines() -> Vec<(String, Entry<'static>)> {
    let (a, b) = (Operator::A, Operator::B);
    let agreed = Agreed { mobike: Flag::YES, cloning: Flag::YES, operator: b, peer: 5 };
    let opening = Opening { spi: 7, agreed, pair: FOUR, child: 9 };
    let (mut six, mut gateway) = ([0; 16], [0; 16]);
    six[..4].copy_from_slice(&[0x20, 1, 0xd, 0xb8]);
    gateway[15] = 1;
    let request = Request {
        spi: u64::MAX,
        id: u32::MAX,
        pair: Pair::ipv6((six, 1), (gateway, 65535)),
        nat_source: &[0x0a, 0xff],
        nat_destination: &[],
        first: 41,
        body: &[0; 4],
        cookie: &[0x0b, 0xfe],
        check_id: 4294967294,
        operator: b,
    };
    let (id, first, body) = (4294967294, 41, &[0x0c; 5]);
    let response = CheckResponse { spi: 7, id, first, body, operator: a };
    let (new_spi, first, body) = (u64::MAX, 33, &[0x0d; 4]);
    let clone = CloneRequest { spi: 7, new_spi, first, body, operator: b };
    let mut rules = Policy { count: 2, ..Policy::EMPTY };
    rules.rules[0] = Rule::ipv4(([10, 0, 0, 0], 8), ([0; 4], 0));
    rules.rules[1] = Rule::ipv6((six, 32), (gateway, 128));
    [
        (OPEN, Entry::OpenBoth(opening)),
        ("add 70 7 0\n", Entry::AddIpsec { spi: 70, owner: 7, operator: a }),
        ("close 7 1\n", Entry::CloseIke { spi: 7, operator: b }),
        ("close-ipsec 70 0\n", Entry::CloseIpsec { spi: 70, operator: a }),
        (
            "request 18446744073709551615 4294967295 6 2001:db8:: ::1 1 65535 0aff - 41 00000000 0bfe 4294967294 1\n",
            Entry::Request(request),
        ),
        ("policy 0 0\n", Entry::Policy { policy: Policy::EMPTY, operator: a }),
        ("policy 0 1\n", Entry::Policy { policy: Policy::EMPTY, operator: b }),
        (
            "policy 2 4 10.0.0.0 0.0.0.0 8 0 6 2001:db8:: ::1 32 128 1\n",
            Entry::Policy { policy: rules, operator: b },
        ),
        ("check-response 7 4294967294 41 0c0c0c0c0c 0\n", Entry::CheckResponse(response)),
        ("clone 7 18446744073709551615 33 0d0d0d0d 1\n", Entry::Clone(clone)),
        ("mark-deletion 7 1\n", Entry::MarkDeletion { spi: 7, operator: b }),
    ]
    .map(|(line, entry)| (line.to_string(), entry))
    .to_vec()
}

fn written(entry: &Entry) -> Vec<u8> {
    let mut out = [0; 1000];
    let length = write_entry(entry, &mut out).expect("an entry");
    out[..length].to_vec()
}

fn sound(octets: impl Into<Vec<u8>>) -> Turned {
    Turned { octets: octets.into(), fault: None }
}

#[test]
fn each_kind_both_ways() {
    let (mut text, mut trace) = (String::new(), Vec::new());
    for (line, entry) in lines() {
        assert_eq!(to_trace(line.as_bytes()), sound(written(&entry)), "{line}");
        assert_eq!(to_text(&written(&entry)), sound(line.as_str()));
        text += &line;
        trace.extend(written(&entry));
    }
    assert_eq!(to_trace(text.as_bytes()), sound(trace.clone()));
    assert_eq!(to_text(&trace), sound(text));
}

/// The example of the page, which has a comment in two of its lines.
#[test]
fn the_example_of_the_page() {
    let page = include_str!("../../../docs/TRACE.md");
    let example = page.split("This text\n").nth(1).unwrap_or_default();
    let example = example.split("gives a trace").next().unwrap_or_default();
    let Turned { octets, fault } = to_trace(example.as_bytes());
    assert_eq!(fault, None);
    let plain = |line: &str| line.split('#').next().unwrap_or_default().trim().to_string();
    let lines: Vec<String> = example.lines().map(plain).filter(|line| !line.is_empty()).collect();
    assert_eq!(lines.len(), 8);
    assert_eq!(to_text(&octets), sound(lines.join("\n") + "\n"));
}

#[test]
fn comments_and_blanks() {
    let text = "# a comment\n\n  close\t7 0 # of the first\r\n#close 8\nclose 9 1#";
    assert_eq!(to_trace(text.as_bytes()), sound([2, 7, 0, 2, 9, 1]));
    assert_eq!(to_trace(b""), sound([]));
    assert_eq!(to_trace(b"# \xff\n"), sound([]));
    assert_eq!(to_text(b""), sound([]));
}

/// An address that its family doesn't say whole, and one of another family.
#[test]
fn addresses_in_hex() {
    let bare = "c0000201000000000000000000000000";
    let same = OPEN.replace("192.0.2.1", bare);
    assert_eq!(to_trace(same.as_bytes()), to_trace(OPEN.as_bytes()));
    for text in [
        OPEN.replace("192.0.2.1", "c0000201000000000000000000000001"),
        format!("open 7 0 5 {bare} {bare} 1 2 9 0 0 0\n"),
    ] {
        assert_eq!(to_text(&to_trace(text.as_bytes()).octets), sound(text.as_str()));
    }
    let upper = OPEN.replace("192.0.2.1", &bare.to_uppercase());
    assert_eq!(to_trace(upper.as_bytes()), to_trace(OPEN.as_bytes()));
}

#[test]
fn lines_that_are_not_understood() {
    let rules = " 4 10.0.0.0 10.0.0.0 8 8".repeat(17);
    for (line, fault) in [
        ("shut 7", "no call is named shut"),
        ("close", "a number in decimal, of 64 bits is missing"),
        ("close 7", "a number in decimal, of 64 bits is missing"),
        ("close 7 0 8", "8 is one word too many"),
        ("close 7 2", "22: something is too large for its field"),
        ("close +7", "+7 is not a number in decimal, of 64 bits"),
        ("close 0x7", "0x7 is not a number in decimal, of 64 bits"),
        (
            "close 18446744073709551616",
            "18446744073709551616 is not a number in decimal, of 64 bits",
        ),
        ("close-ipsec 4294967296 0", "22: something is too large for its field"),
        ("close-ipsec 70 2", "22: something is too large for its field"),
        ("add 70 7", "a number in decimal, of 64 bits is missing"),
        ("add 70 7 2", "22: something is too large for its field"),
        ("open 7 2 4 ::1 ::1 1 1 9 0 0 0", "22: something is too large for its field"),
        ("open 7 1 4 ::1 ::1 1 1 9 4294967296 0 0", "22: something is too large for its field"),
        ("open 7 1 4 ::1 ::1 1 1 9 0 2 0", "22: something is too large for its field"),
        ("open 7 1 4 ::1 ::1 1 1 9 0 0 2", "22: something is too large for its field"),
        ("open 7 1 4 ::1 ::1 1 1 9", "a number in decimal, of 64 bits is missing"),
        ("open 7 1 4 192.0.2 ::1 1 1 9", "192.0.2 is not an address"),
        ("open 7 1 4 c000 ::1 1 1 9", "c000 is not an address"),
        ("request 7 1 4 ::1 ::1 1 1 0", "0 is not hex digits, two for each octet, or -"),
        ("request 7 1 4 ::1 ::1 1 1 0g", "0g is not hex digits, two for each octet, or -"),
        ("request 7 1 4 ::1 ::1 1 1 - - 0 - -", "a number in decimal, of 64 bits is missing"),
        (
            "request 7 1 4 ::1 ::1 1 1 - - 0 - - 4294967296 0",
            "22: something is too large for its field",
        ),
        ("request 7 1 4 ::1 ::1 1 1 - - 0 - - 1 2", "22: something is too large for its field"),
        ("check-response 7 1 256 - 0", "22: something is too large for its field"),
        ("check-response 7 1 0 - 2", "22: something is too large for its field"),
        ("check-response 7 1 0", "hex digits, two for each octet, or - is missing"),
        ("clone 7 8 256 - 0", "22: something is too large for its field"),
        ("clone 7 8 0 - 2", "22: something is too large for its field"),
        ("clone 7 8 0", "hex digits, two for each octet, or - is missing"),
        ("mark-deletion", "a number in decimal, of 64 bits is missing"),
        ("mark-deletion 7 2", "22: something is too large for its field"),
        ("policy 1", "a number in decimal, of 64 bits is missing"),
        ("policy 0", "a number in decimal, of 64 bits is missing"),
        ("policy 0 2", "22: something is too large for its field"),
        ("policy 17", "22: something is too large for its field"),
        (&format!("policy 17{rules} 0"), "22: something is too large for its field"),
    ] {
        let told = to_trace(format!("close 1 0\n\n{line}\nshut\n").as_bytes());
        let fault = Some(format!("line 3: {fault}"));
        assert_eq!(told, Turned { octets: vec![], fault }, "{line}");
    }
}

#[test]
fn strings_of_every_length() {
    let line =
        |octets: usize| format!("request 7 1 4 ::1 ::1 1 1 - - 41 {} - 1 0", "0f".repeat(octets));
    assert_eq!(to_trace(line(4096).as_bytes()).fault, None);
    let fault = "line 1: 22: something is too large for its field";
    assert_eq!(to_trace(line(4097).as_bytes()).fault.as_deref(), Some(fault));
}

#[test]
fn a_trace_that_is_refused() {
    for (number, octets) in
        [(20, &[2][..]), (20, &[2, 7]), (21, &[9]), (22, &[5, 17]), (22, &[2, 7, 2])]
    {
        let told = to_text(&[&[2, 7, 0], octets].concat());
        let fault = Some(format!("{number} at 3: the trace is refused here"));
        assert_eq!(told, Turned { octets: b"close 7 0\n".to_vec(), fault });
    }
}

/// The stored trace of the day has each kind, and its text says all of it.
#[test]
fn the_stored_trace() {
    let trace = include_bytes!("../../../crates/replay/stdin");
    let Turned { octets, fault } = to_text(trace);
    assert_eq!(fault, None);
    assert_eq!(to_trace(&octets), sound(*trace));
    let text = String::from_utf8(octets).expect("a text");
    let words = [
        "open ",
        "add ",
        "close ",
        "close-ipsec ",
        "request ",
        "policy ",
        "check-response ",
        "clone ",
        "mark-deletion ",
    ];
    for word in words {
        assert!(text.lines().any(|line| line.starts_with(word)), "{word}");
    }
}
