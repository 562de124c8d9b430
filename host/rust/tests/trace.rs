//! Entries of a trace: every field of each kind is written where it belongs and read back; every number.
mod common;
use common::*;
use unmavreth::limits::{ENTRY_MOST, ENTRY_SLOTS, STRING_MOST};
use unmavreth::trace::{read_entry, read_slots, write_entry, write_slots, Entry, Kind};
use unmavreth::{
    Agreed, CheckResponse, CloneRequest, Flag, Number, Opening, Operator, Pair, Policy, Request,
    Rule,
};

/// Octets that are all different.
fn octets(from: u8) -> [u8; 16] {
    std::array::from_fn(|at| from + at as u8)
}

/// A pair, and how it is written.
fn pair() -> (Pair, Vec<u8>) {
    let pair = Pair::ipv6((octets(1), 300), (octets(101), 5));
    (pair, [&[6][..], &octets(1), &octets(101), &[0xac, 2, 5]].concat())
}

/// An opening, and how it is written.
fn opening() -> (Entry<'static>, Vec<u8>) {
    let (pair, written) = pair();
    let agreed = Agreed { mobike: Flag::NO, cloning: Flag::YES, operator: B, peer: u32::MAX };
    let entry = Entry::OpenBoth(Opening { spi: u64::MAX, agreed, pair, child: 0x1122_3344 });
    let spi = [0xff, 0xff, 0xff, 0xff, 0xff, 0xff, 0xff, 0xff, 0xff, 1];
    let later = [0xc4, 0xe6, 0x88, 0x89, 1, 0xff, 0xff, 0xff, 0xff, 0xf, 1, 1];
    (entry, [&[0][..], &spi, &[0], &written, &later].concat())
}

/// A request with strings of several lengths, and how it is written.
fn request() -> (Entry<'static>, Vec<u8>) {
    let (pair, written) = pair();
    let (nat_source, nat_destination, body) = (&[1, 2, 3][..], &[][..], &[7; 200][..]);
    let (cookie, check_id) = (&[8, 9][..], 300);
    let request = Request {
        spi: 7,
        id: 128,
        pair,
        nat_source,
        nat_destination,
        first: 41,
        body,
        cookie,
        check_id,
        operator: B,
    };
    let strings = [&[3, 1, 2, 3][..], &[0], &[41], &[0xc8, 1], body].concat();
    let check = [2, 8, 9, 0xac, 2, 1];
    (Entry::Request(request), [&[4, 7, 0x80, 1][..], &written, &strings, &check].concat())
}

/// A response to a check, and how it is written.
fn check_response() -> (Entry<'static>, Vec<u8>) {
    let response = CheckResponse { spi: 300, id: 128, first: 200, body: &[5; 130], operator: B };
    let written = [&[6, 0xac, 2, 0x80, 1, 0xc8, 1, 0x82, 1][..], &[5; 130], &[1]].concat();
    (Entry::CheckResponse(response), written)
}

/// A request to clone, and how it is written.
fn cloning() -> (Entry<'static>, Vec<u8>) {
    let (new_spi, first, operator) = (128, 200, B);
    let request = CloneRequest { spi: 300, new_spi, first, body: &[5; 130], operator };
    let written = [&[7, 0xac, 2, 0x80, 1, 0xc8, 1, 0x82, 1][..], &[5; 130], &[1]].concat();
    (Entry::Clone(request), written)
}

/// A policy of so many rules, of either operator in turn, and how it is written.
fn policy(count: u16) -> (Entry<'static>, Vec<u8>) {
    let operator = [A, B][usize::from(count % 2)];
    let mut policy = Policy { count, ..Policy::EMPTY };
    let mut written = vec![5, count as u8];
    for (at, rule) in policy.rules.iter_mut().enumerate().take(usize::from(count)) {
        let at = at as u8;
        *rule = Rule::ipv6((octets(at), 100 + at), (octets(100 + at), at));
        written.push(6);
        written.extend(octets(at).iter().chain(&octets(100 + at)).chain(&[100 + at, at]));
    }
    written.push(operator.into());
    (Entry::Policy { policy, operator }, written)
}

fn entries() -> Vec<(Entry<'static>, Vec<u8>)> {
    let owner = [0x80, 0x80, 0x80, 0x80, 0x80, 0x80, 0x80, 0x80, 0x80, 1];
    let mut entries = vec![
        opening(),
        (
            Entry::AddIpsec { spi: 300, owner: 1 << 63, operator: B },
            [&[1, 0xac, 2][..], &owner, &[1]].concat(),
        ),
        (Entry::CloseIke { spi: 7, operator: A }, vec![2, 7, 0]),
        (Entry::CloseIke { spi: 7, operator: B }, vec![2, 7, 1]),
        (Entry::CloseIpsec { spi: u32::MAX, operator: B }, vec![3, 0xff, 0xff, 0xff, 0xff, 0xf, 1]),
        request(),
        check_response(),
        cloning(),
        (Entry::MarkDeletion { spi: 300, operator: B }, vec![8, 0xac, 2, 1]),
    ];
    entries.extend((0..=16).map(policy));
    entries
}

#[test]
fn each_kind_is_written_and_read_back() {
    for (entry, octets) in entries() {
        let mut out = vec![9; octets.len() + 3];
        assert_eq!(write_entry(&entry, &mut out), Ok(octets.len()));
        assert_eq!(out[..octets.len()], octets);
        assert_eq!(out[octets.len()..], [9; 3], "past the length");
        assert_eq!(read_entry(&octets, 0), Ok((entry, octets.len())));
        // Behind other octets, and with others behind it.
        let between = [&[0xff; 5][..], &octets, &[0xff; 5]].concat();
        assert_eq!(read_entry(&between, 5), Ok((entry, 5 + octets.len())));
    }
}

#[test]
fn a_cut_entry() {
    for (entry, octets) in entries() {
        for cut in 0..octets.len() {
            assert_eq!(read_entry(&octets[..cut], 0), Err(Number::Cut));
            let mut out = vec![9; cut];
            assert_eq!(write_entry(&entry, &mut out), Err(Number::OutputTooShort));
            assert_eq!(out, vec![9; cut]);
        }
        for at in [octets.len(), octets.len() + 1, usize::MAX] {
            assert_eq!(read_entry(&octets, at), Err(Number::Cut));
        }
    }
}

#[test]
fn numbers_that_are_not_read() {
    assert_eq!(read_entry(&[2, 0x87, 0], 0), Err(Number::Cut));
    let mut past = [&[2][..], &[0xff; 9], &[1, 0]].concat();
    let close = Entry::CloseIke { spi: u64::MAX, operator: A };
    assert_eq!(read_entry(&past, 0), Ok((close, 12)));
    past[10] = 2;
    assert_eq!(read_entry(&past, 0), Err(Number::Cut));
    assert_eq!(read_entry(&[9, 7], 0), Err(Number::UnknownKind));
    assert_eq!(read_entry(&[0x82, 0], 0), Err(Number::Cut));
    assert_eq!(read_entry(&[3, 0x80, 0x80, 0x80, 0x80, 0x10], 0), Err(Number::TooLarge));
    assert_eq!(read_entry(&[5, 17], 0), Err(Number::TooLarge));
    let id = [0x80, 0x80, 0x80, 0x80, 0x10];
    assert_eq!(read_entry(&[&[6, 7], &id[..]].concat(), 0), Err(Number::TooLarge));
    assert_eq!(read_entry(&[6, 7, 0, 0x80, 2], 0), Err(Number::TooLarge), "a first type of 256");
    assert_eq!(read_entry(&[6, 7, 0, 0, 0x81, 0x20], 0), Err(Number::TooLarge));
    for (_, mut octets) in entries() {
        *octets.last_mut().expect("an operator") = 2;
        assert_eq!(read_entry(&octets, 0), Err(Number::TooLarge), "an operator of 2");
        octets.pop();
        assert_eq!(read_entry(&octets, 0), Err(Number::Cut), "no operator");
    }
    let (_, mut octets) = request();
    octets.truncate(octets.len() - 3);
    assert_eq!(read_entry(&[&octets[..], &id].concat(), 0), Err(Number::TooLarge));
    let (_, mut octets) = opening();
    octets.truncate(octets.len() - 7);
    assert_eq!(read_entry(&[&octets[..], &id, &[1]].concat(), 0), Err(Number::TooLarge), "a peer");
    assert_eq!(read_entry(&[&octets[..], &[5, 2]].concat(), 0), Err(Number::TooLarge), "cloning");
    assert_eq!(read_entry(&[7, 7, 8, 0x80, 2], 0), Err(Number::TooLarge), "a first type of 256");
    assert_eq!(read_entry(&[7, 7, 8, 0, 0x81, 0x20], 0), Err(Number::TooLarge));
}

#[test]
fn what_is_too_large_to_write() {
    let Entry::Request(sound) = request().0 else { unreachable!() };
    let (long, most) = ([1; STRING_MOST + 1], [1; STRING_MOST]);
    let neither = Operator::from(2);
    for one in [
        Entry::Request(Request { nat_source: &long, ..sound }),
        Entry::Request(Request { nat_destination: &long, ..sound }),
        Entry::Request(Request { body: &long, ..sound }),
        Entry::Request(Request { cookie: &long, ..sound }),
        Entry::CheckResponse(CheckResponse { spi: 7, body: &long, ..CheckResponse::default() }),
        Entry::Clone(CloneRequest { spi: 7, body: &long, ..CloneRequest::default() }),
        Entry::Policy { policy: Policy { count: 17, ..Policy::EMPTY }, operator: A },
        Entry::Policy { policy: Policy { count: u16::MAX, ..Policy::EMPTY }, operator: A },
        Entry::Request(Request { operator: neither, ..sound }),
        Entry::CheckResponse(CheckResponse { operator: neither, ..CheckResponse::default() }),
        Entry::Clone(CloneRequest { operator: neither, ..CloneRequest::default() }),
        Entry::OpenBoth(Opening { agreed: Agreed { operator: neither, ..AGREED }, ..OPENING }),
        Entry::Policy { policy: Policy::EMPTY, operator: neither },
        Entry::AddIpsec { spi: 1, owner: 7, operator: neither },
        Entry::CloseIke { spi: 7, operator: neither },
        Entry::CloseIpsec { spi: 1, operator: neither },
        Entry::MarkDeletion { spi: 7, operator: neither },
    ] {
        let mut out = [9; 10];
        assert_eq!(write_entry(&one, &mut out), Err(Number::TooLarge));
        assert_eq!(out, [9; 10]);
    }
    let pair = Pair { family: 255, source_port: u16::MAX, destination_port: u16::MAX, ..OLD };
    let strings =
        Request { nat_source: &most, nat_destination: &most, body: &most, cookie: &most, ..sound };
    let (spi, id, check_id) = (u64::MAX, u32::MAX, u32::MAX);
    let longest = Request { spi, id, pair, first: 255, check_id, ..strings };
    let mut out = [0; ENTRY_MOST];
    assert_eq!(write_entry(&Entry::Request(longest), &mut out), Ok(ENTRY_MOST));
    assert_eq!(read_entry(&out, 0), Ok((Entry::Request(longest), ENTRY_MOST)));
}

#[test]
fn slots_that_point_elsewhere() {
    let mut slots = [0; ENTRY_SLOTS];
    let mut out = [9; 200];
    assert_eq!(write_slots(Kind::Other(9), &slots, &[], &mut out), Err(Number::UnknownKind));
    for offset in [1, 16, 17, u64::MAX - 15, u64::MAX] {
        slots[3] = offset;
        let told = write_slots(Kind::OpenBoth, &slots, &[0; 16], &mut out);
        assert_eq!(told, Err(Number::TooLarge));
    }
    slots[3] = 0;
    slots[1] = 2;
    let told = write_slots(Kind::OpenBoth, &slots, &[0; 16], &mut out);
    assert_eq!((told, out), (Err(Number::TooLarge), [9; 200]), "a yes or no of 2");
    slots[1] = 1;
    for (slot, value) in [(8, 1 << 32), (9, 2), (10, 2)] {
        slots[slot] = value;
        let told = write_slots(Kind::OpenBoth, &slots, &[0; 16], &mut out);
        assert_eq!((told, out), (Err(Number::TooLarge), [9; 200]), "slot {slot}");
        slots[slot] = 0;
    }
    assert_eq!(write_slots(Kind::OpenBoth, &slots, &[0; 16], &mut out), Ok(42));
}

#[test]
fn slots_of_a_request() {
    let (_, octets) = request();
    let (kind, slots, next) = read_slots(&octets, 0).expect("an entry");
    assert_eq!((kind, next), (Kind::Request, octets.len()));
    assert_eq!(slots[..14], [7, 128, 6, 5, 21, 300, 5, 41, 3, 45, 0, 41, 48, 200]);
    assert_eq!(slots[14..18], [249, 2, 300, 1]);
    assert_eq!(slots[18..], [0; ENTRY_SLOTS - 18]);
}

/// The operator stands behind all sixteen rules, whatever the count.
#[test]
fn slots_of_a_policy() {
    for count in 0..=16 {
        let (_, octets) = policy(count);
        let (kind, slots, next) = read_slots(&octets, 0).expect("an entry");
        assert_eq!((kind, next), (Kind::Policy, octets.len()));
        assert_eq!((slots[0], slots[81]), (count.into(), (count % 2).into()));
        assert!(slots[1 + 5 * usize::from(count)..81].iter().all(|slot| *slot == 0));
    }
}

#[test]
fn slots_of_a_check_response() {
    let (_, octets) = check_response();
    let (kind, slots, next) = read_slots(&octets, 0).expect("an entry");
    assert_eq!((kind, next), (Kind::CheckResponse, octets.len()));
    assert_eq!(slots[..6], [300, 128, 200, 9, 130, 1]);
    assert_eq!(slots[6..], [0; ENTRY_SLOTS - 6]);
}

#[test]
fn slots_of_an_opening_and_a_clone() {
    let (_, octets) = opening();
    let (kind, slots, next) = read_slots(&octets, 0).expect("an entry");
    assert_eq!((kind, next), (Kind::OpenBoth, octets.len()));
    assert_eq!(slots[..8], [u64::MAX, 0, 6, 13, 29, 300, 5, 0x1122_3344]);
    assert_eq!(slots[8..11], [u64::from(u32::MAX), 1, 1]);
    assert_eq!(slots[11..], [0; ENTRY_SLOTS - 11]);
    let (_, octets) = cloning();
    let (kind, slots, next) = read_slots(&octets, 0).expect("an entry");
    assert_eq!((kind, next), (Kind::Clone, octets.len()));
    assert_eq!(slots[..6], [300, 128, 200, 9, 130, 1]);
    assert_eq!(slots[6..], [0; ENTRY_SLOTS - 6]);
}

#[test]
fn any_yes_is_written_as_1() {
    // SAFETY: a flag is an octet, and any is allowed.
    let yes = unsafe { std::mem::transmute::<u8, Flag>(200) };
    let agreed = Agreed { mobike: yes, cloning: yes, peer: 5, ..Agreed::NONE };
    let mut out = [0; 100];
    let opening = Opening { agreed, ..OPENING };
    assert!(write_entry(&Entry::OpenBoth(opening), &mut out).is_ok());
    let agreed = Agreed { cloning: Flag::YES, peer: 5, ..AGREED };
    let yes = Opening { agreed, ..opening };
    assert_eq!(read_entry(&out, 0).map(|(entry, _)| entry), Ok(Entry::OpenBoth(yes)));
}

#[test]
fn any_octet_is_a_kind() {
    for octet in 0..=255 {
        assert_eq!(u8::from(Kind::from(octet)), octet);
        assert_eq!(Kind::from(octet) == Kind::Other(octet), octet > 8);
    }
}
