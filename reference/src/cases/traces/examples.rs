// Traces worked out by hand, with what each prints: those of request E3, and others about its sentences.

/// 192.0.2.1 to 198.51.100.1, ports 4500 and 4500, as an entry holds it.
const PAIR: &str = "04 c0000201000000000000000000000000 c6336401000000000000000000000000 9423 9423";

/// 203.0.113.7 to 198.51.100.1, ports 1024 and 4500.
const OTHER_PAIR: &str =
    "04 cb007107000000000000000000000000 c6336401000000000000000000000000 8008 9423";

/// The same two as they are printed.
const PRINTED: &str =
    "4 c0000201000000000000000000000000 c6336401000000000000000000000000 4500 4500";
const OTHER_PRINTED: &str =
    "4 cb007107000000000000000000000000 c6336401000000000000000000000000 1024 4500";

/// Lent with every request, and our request has ID 3.
const COOKIE: &str = "0102030405060708";

const UPDATE: &str = "0000000800004010";

const CLONE: &str = "0000000800004031";

pub struct Example {
    pub trace: Vec<u8>,
    pub printed: String,
}

/// Opens IKE 7 and IPsec 9 for operator 0, of peer 5, with cloning agreed.
pub fn opening() -> Vec<u8> {
    from_hex(&format!("00 07 01 {PAIR} 09 05 01 00"))
}

/// A request to clone IKE 7 to this SPI.
pub fn clone(new_spi: u8) -> Vec<u8> {
    from_hex(&format!("07 07 {new_spi:02x} 29 08 {CLONE} 00"))
}

/// Accepts all pairs of IPv4.
pub fn any_ipv4() -> Vec<u8> {
    from_hex(&format!("05 01 04 {} 00 00 00", "00".repeat(32)))
}

/// A request to IKE 7 from the other pair.
pub fn request(id: u8, first: u8, body: &[u8]) -> Vec<u8> {
    let values = format!("14 {zeros} 14 {zeros}", zeros = "00".repeat(20));
    let mut octets = from_hex(&format!("04 07 {id:02x} {OTHER_PAIR} {values} {first:02x}"));
    octets.push(u8::try_from(body.len()).expect("a short body"));
    octets.extend_from_slice(body);
    octets.extend(from_hex(&format!("08 {COOKIE} 03 00")));
    octets
}

/// A response to the check of the request above, with this chain.
pub fn response(first: u8, body: &str) -> Vec<u8> {
    let body = from_hex(body);
    let length = u8::try_from(body.len()).expect("a short body");
    [vec![6, 7, 3, first, length], body, vec![0]].concat()
}

/// A trace with an entry of every kind, none of which is refused.
pub fn all_kinds() -> Vec<u8> {
    let list = from_hex("29 00000800004010 0000000c 0000400d 0a000001");
    let adding = from_hex("01 ac02 07 00 01 ad02 07 00");
    let closing = from_hex("03 ac02 00");
    let entries = [
        opening(),
        any_ipv4(),
        adding,
        request(5, 41, &from_hex(UPDATE)),
        closing,
        request(6, 41, &list),
        request(0, 0, &[]),
        response(41, &format!("00000010 00004011 {COOKIE}")),
        clone(8),
        from_hex("08 07 00"),
        from_hex("02 07 00"),
        opening(),
    ];
    entries.concat()
}

pub fn all() -> Vec<Example> {
    let update = request(5, 41, &from_hex(UPDATE));
    let moved = [opening(), any_ipv4(), update.clone()].concat();
    let at_47 = [opening(), from_hex("02 07 00 09")].concat();
    let answered = |chain: Vec<u8>| [&moved[..], &chain].concat();
    let right = answered(response(41, &format!("00000010 00004011 {COOKIE}")));
    let wrong = answered(response(41, &format!("00000010 00004011 {COOKIE}").replace("08", "09")));
    let error = answered(response(41, "0000000800000007"));
    let twice = [right.clone(), response(0, "")].concat();
    let (ike, ipsec) = (format!("ike 7 {PRINTED}"), format!("ipsec 9 {PRINTED}"));
    let (moved_ike, moved_ipsec) =
        (format!("ike 7 {OTHER_PRINTED}"), format!("ipsec 9 {OTHER_PRINTED}"));
    let done = ["0 0 none none", "1 0 none none"];
    let none = ["1 61 none none", "2 62 none none", "3 63 none none", "4 64 none none"];
    let none = [&none[..], &["5 65 none none", "6 7 none none"]].concat();
    let refused_lines = [&done[..1], &none, &[&ike, &ipsec]].concat();
    let (applied, decided) = ("2 0 applied none", "3 0 none none");
    let clones = [8, 10, 11].map(|spi| format!("ike {spi} {PRINTED}"));
    let opened = |behind: &[Vec<u8>]| [opening(), behind.concat()].concat();
    let asking = |spi: &str, chain: &str| from_hex(&format!("07 07 {spi} {chain} 00"));
    let unagreed = with_octet(opening(), 42, 0);
    let others_policy = [opening(), of_other(any_ipv4()), update.clone()].concat();
    let others_request = [opening(), any_ipv4(), of_other(update.clone())].concat();
    // Twenty-one openings of one operator, and one of the other.
    let (at_share, at_share_lines) = twenty_one();
    let at_share_lines: Vec<&str> = at_share_lines.iter().map(String::as_str).collect();
    let examples: [(Vec<u8>, &[&str]); 50] = [
        (from_hex("02 07 00"), &["0 4 none none"]),
        (vec![], &[]),
        (opening(), &[done[0], &ike, &ipsec]),
        (at_47, &[done[0], done[1], "21 at 47"]),
        (moved.clone(), &[done[0], done[1], applied, &moved_ike, &ipsec]),
        // The check of that update: right, wrong, an error, and answered twice.
        (right, &[done[0], done[1], applied, decided, &moved_ike, &moved_ipsec]),
        (wrong, &[done[0], done[1], applied, decided]),
        (error, &[done[0], done[1], applied, decided, &moved_ike, &ipsec]),
        (twice, &[done[0], done[1], applied, decided, "4 14 none none", &moved_ike, &moved_ipsec]),
        (from_hex("03 80 80 80 80 10"), &["22 at 0"]),
        (from_hex("02 80 80 80 80 10 00"), &["0 4 none none"]),
        (from_hex("05 11"), &["22 at 0"]),
        (from_hex("05 10"), &["20 at 0"]),
        (from_hex("05 00 01"), &["0 0 none none"]),
        // The kind: a number first, and unknown at once however large.
        (from_hex("82 00"), &["20 at 0"]),
        (from_hex("80"), &["20 at 0"]),
        (from_hex("ff ff ff ff ff ff ff ff ff 01"), &["21 at 0"]),
        // A family that is cut isn't judged, and one that is read whole is.
        (from_hex("00 07 01 ff ff"), &["20 at 0"]),
        (from_hex("00 07 01 ff ff 03"), &["22 at 0"]),
        // Of an opening, a family of 5 and an SPI of 0 are the call's to refuse.
        (with_octet(opening(), 3, 5), &["0 1 none none"]),
        (with_octet(opening(), 1, 0), &["0 1 none none"]),
        (each_flaw(), &refused_lines),
        // Clones: one, as many as a peer may have, and with each refusal.
        (opened(&[clone(8)]), &[done[0], done[1], &ike, &clones[0], &ipsec]),
        (
            opened(&[clone(8), clone(10), clone(11), clone(12)]),
            &[
                done[0],
                done[1],
                "2 0 none none",
                "3 0 none none",
                "4 42 none none",
                &ike,
                &clones[0],
                &clones[1],
                &clones[2],
                &ipsec,
            ],
        ),
        (opened(&[clone(7)]), &[done[0], "1 11 none none", &ike, &ipsec]),
        (opened(&[clone(0)]), &[done[0], "1 1 none none", &ike, &ipsec]),
        (opened(&[asking("08", "00 00")]), &[done[0], "1 44 none none", &ike, &ipsec]),
        (opened(&[asking("08", "29 00")]), &[done[0], "1 61 none none", &ike, &ipsec]),
        ([unagreed, clone(8)].concat(), &[done[0], "1 40 none none", &ike, &ipsec]),
        (
            opened(&[from_hex("08 07 00"), clone(8)]),
            &[done[0], done[1], "2 41 none none", &ike, &ipsec],
        ),
        (clone(8), &["0 4 none none"]),
        // The mark for being deleted, without a record and of SPI 0; an SPI has 64 bits.
        (from_hex("08 07 00"), &["0 4 none none"]),
        (from_hex("08 00 00"), &["0 1 none none"]),
        (from_hex("08 80 80 80 80 10 01"), &["0 4 none none"]),
        // An opening's peer past 32 bits, and its last yes or no past a bit.
        (with_end(opening(), "80 80 80 80 10 01 00"), &["22 at 0"]),
        (with_end(opening(), "05 02 00"), &["22 at 0"]),
        // An operator past a bit, and none; the other one's record is not found, nor is its IPsec record.
        (with_end(opening(), "05 01 02"), &["22 at 0"]),
        (with_end(opening(), "05 01"), &["20 at 0"]),
        (from_hex("02 07 02"), &["22 at 0"]),
        (from_hex("02 07"), &["20 at 0"]),
        (from_hex("05 00 02"), &["22 at 0"]),
        (opened(&[from_hex("02 07 01")]), &[done[0], "1 4 none none", &ike, &ipsec]),
        (opened(&[from_hex("03 09 01")]), &[done[0], "1 4 none none", &ike, &ipsec]),
        (opened(&[from_hex("08 07 01")]), &[done[0], "1 4 none none", &ike, &ipsec]),
        (opened(&[from_hex("01 0a 07 01")]), &[done[0], "1 4 none none", &ike, &ipsec]),
        (opened(&[from_hex("02 07 00")]), &done),
        (opened(&[of_other(clone(8))]), &[done[0], "1 4 none none", &ike, &ipsec]),
        // The other's policy accepts nothing of one's.
        (others_policy, &[done[0], done[1], "2 9 none none", &ike, &ipsec]),
        (others_request, &[done[0], done[1], "2 4 none none", &ike, &ipsec]),
        (at_share, &at_share_lines),
    ];
    let example = |(trace, lines): (Vec<u8>, &[&str])| Example {
        trace,
        printed: lines.iter().map(|line| format!("{line}\n")).collect(),
    };
    examples.map(example).into()
}

/// The same entry for the other operator.
fn of_other(mut entry: Vec<u8>) -> Vec<u8> {
    if let Some(operator) = entry.last_mut() {
        *operator ^= 1;
    }
    entry
}

/// An operator's openings up to its share and one more, which gives 43; then one of the other operator, and one more
/// after a closing.
fn twenty_one() -> (Vec<u8>, Vec<String>) {
    let open = |spi: u8| with_octet(with_octet(opening(), 1, spi), 40, spi);
    let first = (1..=21).flat_map(open);
    let others = [of_other(open(30)), from_hex("02 05 00"), open(22)].concat();
    let trace = first.chain(others).collect();
    let number = |ordinal: usize| if ordinal == 20 { 43 } else { 0 };
    let mut lines: Vec<String> =
        (0..24).map(|ordinal| format!("{ordinal} {} none none", number(ordinal))).collect();
    let spis: Vec<u8> = [&[1, 2, 3, 4, 22][..], &(6..=20).collect::<Vec<u8>>(), &[30]].concat();
    for table in ["ike", "ipsec"] {
        lines.extend(spis.iter().map(|spi| format!("{table} {spi} {PRINTED}")));
    }
    (trace, lines)
}

/// Requests whose chains give 61 to 65 and 7.
fn each_flaw() -> Vec<u8> {
    let chains = [
        (41, ""),
        (41, "00000007000040"),
        (41, "0000000f00004011 01020304050607"),
        (41, "2900000800004010 0000000800004010"),
        (41, "0000000800004010 ff"),
        (100, "00800004"),
    ];
    let requests = chains.map(|(first, body)| request(5, first, &from_hex(body)));
    [opening(), requests.concat()].concat()
}

/// An opening whose peer, last yes or no and operator stand as these octets.
fn with_end(mut opening: Vec<u8>, end: &str) -> Vec<u8> {
    opening.truncate(opening.len() - 3);
    [opening, from_hex(end)].concat()
}

fn with_octet(mut octets: Vec<u8>, place: usize, octet: u8) -> Vec<u8> {
    octets[place] = octet;
    octets
}

/// Octets written as two digits each, with blanks anywhere between them.
pub fn from_hex(digits: &str) -> Vec<u8> {
    let digits: Vec<u32> = digits.chars().filter_map(|digit| digit.to_digit(16)).collect();
    digits.chunks(2).map(|two| (16 * two[0] + two[1]) as u8).collect()
}
