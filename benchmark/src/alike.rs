// Tests that the lean baseline tells the same as the library on far more inputs than the rows'.
use crate::job::{draft, Asking, Checking, Cloning, Deciding, Handling, Job, OpeningBoth};
use crate::rows;
use crate::side::Side;
use unmavreth::{Address, Draft, Flag, IpsecRecord, Operator, Pair, Rule};

/// What the library and the lean baseline tell must be the same, a check bit by bit too.
fn alike(job: &Job) {
    let ours = Side::Ours.told(job).expect("every call");
    for side in [Side::Lean, Side::Bits] {
        if let Some(told) = side.told(job) {
            assert_eq!(ours.fields, told.fields);
            assert!(ours == told, "the octets or the tables differ: {:?}", ours.fields);
        }
    }
}

/// The body of a row's call, if it has one.
fn body(job: &mut Job) -> Option<&mut Vec<u8>> {
    match job {
        Job::Read { body, .. } | Job::Assess { body, .. } => Some(body),
        Job::Handle(handling) => Some(&mut handling.body),
        Job::Check(checking) => Some(&mut checking.body),
        Job::Clone(cloning) => Some(&mut cloning.body),
        _ => None,
    }
}

/// Every octet of the shorter bodies as another one, and every body cut short or run on.
#[test]
fn of_chains() {
    const OCTETS: [u8; 18] = [0, 1, 3, 4, 5, 8, 12, 13, 14, 15, 16, 17, 18, 28, 33, 41, 0x80, 200];
    for row in rows::all() {
        let mut job = (row.job)();
        let Some(whole) = body(&mut job).cloned() else { continue };
        let length = whole.len().min(400);
        for (at, octet) in (0..length).flat_map(|at| OCTETS.map(|octet| (at, octet))) {
            let changed = body(&mut job).expect("a body");
            changed.clone_from(&whole);
            changed[at] = octet;
            alike(&job);
        }
        for length in 0..=length {
            *body(&mut job).expect("a body") = whole[..length].to_vec();
            alike(&job);
        }
        *body(&mut job).expect("a body") = [whole, vec![0; 3]].concat();
        alike(&job);
    }
}

/// Every three of these notifications after one another, each by its type and the octets of its data.
#[test]
fn of_repeated_notifications() {
    let notifies: [&[u8]; 9] = [
        &[0x40, 4, 20],
        &[0x40, 5, 20],
        &[0x40, 12, 3],
        &[0x40, 13, 4],
        &[0x40, 14, 16],
        &[0x40, 15, 0],
        &[0x40, 16, 0],
        &[0x40, 17, 9],
        &[0x40, 18, 12],
    ];
    let more: [&[u8]; 9] = [
        &[0x40, 18, 36],
        &[0, 40, 0],
        &[0, 41, 2],
        &[0, 0, 0],
        &[0x3f, 255, 1],
        &[0x40, 0, 0],
        &[0x40, 48, 0],
        &[0x40, 49, 0],
        &[0x40, 49, 1],
    ];
    let all: Vec<&[u8]> = notifies.into_iter().chain(more).collect();
    for [one, two, three] in triples(all.len()) {
        let mut body = Vec::new();
        for (next, of) in [(41, all[one]), (41, all[two]), (0, all[three])] {
            body.extend([next, 0, 0, 8 + of[2], 0, 0, of[0], of[1]]);
            body.extend(vec![7; of[2].into()]);
        }
        alike_of_chain(body);
    }
}

/// One notification of every known type, with every SPI size and data size around the allowed ones.
#[test]
fn of_sizes() {
    for (low, spi) in (3..=19u8).chain(47..=50).flat_map(|low| [0, 1, 9].map(|spi| (low, spi))) {
        for size in 0..=66 {
            let head = [0, 0, 0, 8 + size, 0, spi, 0x40, low];
            alike_of_chain([&head[..], &vec![7; size.into()]].concat());
        }
    }
}

/// Fewer additional addresses than are kept, as many, and more.
#[test]
fn of_long_lists() {
    for count in 14..=19 {
        let mut body = [41, 0, 0, 12, 0, 0, 0x40, 13, 1, 2, 3, 4].repeat(count);
        body[12 * count - 12] = 0;
        alike_of_chain(body);
    }
}

/// NO_NATS_ALLOWED with the packet's addresses and ports, and with each of its octets changed.
#[test]
fn of_paths() {
    let [source, destination] = [[5; 16], [6; 16]];
    let ipv4 = Pair::ipv4(([5; 4], 0x102), ([6; 4], 0x304));
    let ipv6 = Pair::ipv6((source, 0x102), (destination, 0x304));
    for (pair, octets) in [(ipv4, 4), (ipv6, 16), (ipv4, 16), (ipv6, 4)] {
        let path = [&source[..octets], &destination[..octets], &[1, 2, 3, 4]].concat();
        let update = [41, 0, 0, 8, 0, 0, 0x40, 16];
        let head = [0, 0, 0, 8 + path.len() as u8, 0, 0, 0x40, 18];
        for changed in 0..=path.len() {
            let mut body = [&update[..], &head, &path].concat();
            if let Some(octet) = body.get_mut(16 + changed) {
                *octet ^= 1;
            }
            let mut handling = Handling::of(41, body);
            handling.pair = pair;
            handling.gateway.policies[0].rules[0] = Rule { family: pair.family, ..Rule::NONE };
            alike(&Job::Handle(Box::new(handling)));
        }
    }
}

/// Cookies for a check of every length around the allowed ones, lent with a request and kept in a record.
#[test]
fn of_kept_cookies() {
    for length in 0..=67u8 {
        let mut handling = Handling::of(41, vec![0, 0, 0, 8, 0, 0, 0x40, 16]);
        handling.cookie = (0..length).collect();
        alike(&Job::Handle(Box::new(handling)));
        for octet in [0x61, 0x62] {
            let mut checking = Checking::owning(2);
            checking.gateway.ike[31].check.length = length;
            checking.gateway.ike[31].check.octets[7] = octet;
            alike(&Job::Check(Box::new(checking)));
        }
    }
}

/// A chain read, assessed, as the response to a check, as a rekey, and as a request to a record whose tally is all but full.
fn alike_of_chain(body: Vec<u8>) {
    let mut handling = Handling::of(41, body.clone());
    handling.gateway.ike[0].unknown = u32::MAX - 1;
    alike(&Job::Handle(Box::new(handling)));
    alike(&Job::Read { first: 41, body: body.clone() });
    alike(&Job::Check(Box::new(Checking { body: body.clone(), ..Checking::owning(2) })));
    alike(&Job::Clone(Box::new(Cloning { body: body.clone(), ..Cloning::of_last() })));
    alike(&Job::Assess { first: 41, body });
}

fn triples(count: usize) -> impl Iterator<Item = [usize; 3]> {
    (0..count * count * count).map(move |of| [of / count / count, of / count % count, of % count])
}

#[test]
fn of_arguments() {
    let pairs = [Pair::NONE, Pair { family: 5, ..Pair::NONE }, Pair { family: 4, ..Pair::NONE }];
    let tails = [Pair { source: [1; 16], ..pairs[2] }, Pair { destination: [1; 16], ..pairs[2] }];
    let ipv6 = Pair { family: 6, source: [1; 16], ..Pair::NONE };
    for pair in pairs.into_iter().chain(tails).chain([ipv6]) {
        for (spi, mark) in [(0, 0), (7, 0), (7, 3), (7, 4), (7, 5), (8, 4), (9, 4)] {
            let mut handling = Handling::owning(3);
            handling.gateway.ike[30].spi = 8;
            handling.gateway.ike[31].update_mark = mark;
            handling.gateway.ike[31].list_mark = 7 - mark;
            handling.gateway.ike[31].unknown = u32::MAX - 1;
            handling.gateway.ipsec[1].spi = 0;
            handling.gateway.policies[0].rules[0] = Rule { family: pair.family, ..Rule::NONE };
            (handling.spi, handling.pair) = (spi, pair);
            alike(&Job::Handle(Box::new(handling)));
            let mut checking = Checking::owning(3);
            checking.gateway.ike[31].pair = pair;
            checking.gateway.ike[31].spi = spi;
            checking.gateway.ike[31].unknown = u32::MAX;
            checking.gateway.ipsec[1].spi = 0;
            checking.id = mark as u32 / 4;
            alike(&Job::Check(Box::new(checking)));
            let mut opening = OpeningBoth::on_empty();
            (opening.opening.spi, opening.opening.pair) = (spi, pair);
            opening.gateway.ike[0].spi = 8;
            opening.gateway.ipsec[0].spi = mark as u32 + 68;
            opening.opening.child = if mark == 5 { 0 } else { 72 };
            alike(&Job::Open(Box::new(opening)));
        }
    }
}

/// Every call by either operator and by one that is neither, on records of each; one record may have the SPI of
/// another's.
#[test]
fn of_operators() {
    let octets = [0, 1, 2, 255].map(Operator::from);
    for [named, of, twin] in triples(octets.len()).map(|of| of.map(|at| octets[at])) {
        for twins in [false, true] {
            let mut handling = Handling::owning(3);
            handling.operator = named;
            handling.gateway.policies[1] = handling.gateway.policies[0];
            handling.gateway.policies[usize::from(twins)].count = 0;
            let mut checking = Checking { operator: named, ..Checking::owning(3) };
            let mut cloning = Cloning { operator: named, ..Cloning::of_last() };
            for (gateway, place) in [
                (&mut handling.gateway, 31),
                (&mut checking.gateway, 31),
                (&mut cloning.gateway, 30),
            ] {
                gateway.ike[place].agreed.operator = of;
                gateway.ike[2].agreed.operator = twin;
                if twins {
                    gateway.ike[2].spi = gateway.ike[place].spi;
                }
            }
            alike(&Job::Handle(Box::new(handling)));
            alike(&Job::Check(Box::new(checking)));
            alike(&Job::Clone(Box::new(cloning)));
        }
    }
}

/// Openings and clones by an operator with so many records of its own, a place free or none, and with orphans.
#[test]
fn of_shares() {
    for (own, free) in (17..=21).flat_map(|own| [false, true].map(|free| (own, free))) {
        for named in [0, 1, 2].map(Operator::from) {
            let mut cloning = Cloning { operator: named, ..Cloning::of_last() };
            let records = &mut cloning.gateway.ike;
            records[31] = records[30];
            records[31].spi = if free { 0 } else { 132 };
            for (place, record) in records.iter_mut().enumerate() {
                record.agreed.operator = Operator::from(u8::from((30 - own..30).contains(&place)));
            }
            records[30].agreed.operator = named;
            alike(&Job::Clone(Box::new(cloning)));
        }
        for (owned, orphans) in [47, 48, 79, 80, 81].into_iter().flat_map(|of| [(of, 0), (of, 9)]) {
            let mut opening = OpeningBoth::on_full();
            let (ike, ipsec) = (&mut opening.gateway.ike, &mut opening.gateway.ipsec);
            for (place, record) in ipsec.iter_mut().enumerate() {
                record.owner = if place < owned { 7 } else { 101 };
                record.owner = if place < orphans { 9 } else { record.owner };
            }
            if free {
                (ike[3].spi, ipsec[100]) = (0, IpsecRecord::FREE);
            }
            for (place, record) in ike.iter_mut().enumerate() {
                record.agreed.operator = Operator::from(u8::from(place < 32 - own));
            }
            for named in [0, 1, 2].map(Operator::from) {
                let (gateway, mut given) = (opening.gateway.clone(), opening.opening);
                given.agreed.operator = named;
                alike(&Job::Open(Box::new(OpeningBoth { gateway, opening: given })));
            }
        }
    }
}

/// Clones of records that did not agree or are being deleted, among others of their peer and with no place free,
/// to SPIs that are in use.
#[test]
fn of_clones() {
    for (others, free) in (0..=5).flat_map(|others| [false, true].map(|free| (others, free))) {
        for (spi, new_spi) in [(0, 8), (7, 0), (7, 7), (7, 8), (7, 101), (101, 8), (9, 8)] {
            for (cloning, deleting) in [(1, 0), (1, 1), (0, 0), (0, 1)] {
                let mut of = Cloning { spi, new_spi, ..Cloning::of_last() };
                let record = of.gateway.ike[30];
                for other in &mut of.gateway.ike[..others] {
                    other.agreed.peer = record.agreed.peer;
                    other.agreed.operator = record.agreed.operator;
                }
                of.gateway.ike[30].agreed.cloning = Flag::from(cloning == 1);
                of.gateway.ike[30].deleting = Flag::from(deleting == 1);
                of.gateway.ike[31].spi = if free { 0 } else { 132 };
                of.room = if others == 5 { 127 } else { 128 };
                alike(&Job::Clone(Box::new(of)));
            }
        }
    }
}

#[test]
fn of_drafts() {
    let cookies: [&[u8]; 6] = [&[], &[1; 7], &[1; 8], &[1; 64], &[1; 65], &[1; 20]];
    let addresses = [Address::ipv6([3; 16]), Address { family: 4, octets: [3; 16] }];
    for (flags, count) in (0..256).flat_map(|flags| [0, 1, 2, 3, 16, 17].map(|of| (flags, of))) {
        let set = |bit: u32| flags >> bit & 1 == 1;
        for (place, cookie) in cookies.into_iter().enumerate() {
            let mut of: Draft<'static> = draft();
            (of.ask.update, of.ask.no_nats, of.ask.nat_source) = (set(0), set(1), set(2));
            (of.ask.nat_destination, of.ask.no_additional) = (set(3), set(4));
            (of.ask.clone_supported, of.ask.clone) = (set(6), set(7));
            (of.ask.count, of.cookie) = (count, cookie);
            of.pair = if set(5) { Pair::ipv6(([5; 16], 1), ([6; 16], 2)) } else { of.pair };
            of.addresses[1] = addresses[place % 2];
            alike(&Job::Write(Box::new(of)));
        }
    }
}

/// Every exchange, data cut, run on and with each octet changed, nonces sent of other sizes, and records of any
/// count with times before, now and later.
#[test]
fn of_redirects() {
    for (exchange, since) in (0..=6).flat_map(|of| [0, 1, 299, 300, 301].map(|since| (of, since))) {
        let of = || Deciding { exchange: u8::into(exchange), ..Deciding::after(since) };
        for length in 0..=of().data.len() {
            let data = of().data[..length].to_vec();
            alike(&Job::Decide(Box::new(Deciding { data, ..of() })));
        }
        for (at, octet) in (0..of().data.len()).flat_map(|at| [0, 2, 3, 9, 16].map(|to| (at, to))) {
            let mut changed = of();
            changed.data[at] = octet;
            alike(&Job::Decide(Box::new(changed)));
        }
        for size in [0, 15, 16, 31, 33, 256, 257] {
            let (sent, data) = (vec![7; size], [&[1, 4, 1, 2, 3, 4], &vec![7; size][..]].concat());
            alike(&Job::Decide(Box::new(Deciding { sent, data, ..of() })));
        }
        for (count, time) in (0..=7).flat_map(|of| [0, 998, 999, u64::MAX].map(|at| (of, at))) {
            for length in [6, of().data.len()] {
                let mut changed = Deciding { time, ..of() };
                changed.record.count = count;
                changed.data.truncate(length);
                alike(&Job::Decide(Box::new(changed)));
            }
        }
    }
}

#[test]
fn of_policies() {
    for length in 0..=140 {
        for bit in 0..=130u8 {
            let mut of = Asking::ipv6(0, 0);
            of.operator = Operator::from(bit % 3 % 2);
            of.policy.count = u16::from(bit % 20);
            for rule in &mut of.policy.rules {
                (rule.source_len, rule.destination_len) = (length, 130 - bit);
            }
            of.policy.rules[3].family = 4 + 2 * (bit % 2);
            of.pair.family = of.policy.rules[3].family;
            of.pair.source[usize::from(bit / 8 % 16)] ^= 0x80 >> (bit % 8);
            alike(&Job::Acceptable(Box::new(of)));
        }
    }
}
