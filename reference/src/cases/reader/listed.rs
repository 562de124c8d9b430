// The cases every run begins with: the papers' rows, single flaws, boundary sizes and types.
use super::damage::Damage;
use super::draft::{ChainDraft, Draft};
use super::{atoms, told, well_formed, Case};
use crate::notify::NotifyType;
use crate::reader::MAX_BODY;
use crate::rng::Rng;

const SKIPPED: u8 = 33;
const UNKNOWN: u8 = 200;
const UNKNOWN_STATUS: NotifyType = NotifyType(16403);

/// How often each single flaw is listed, at changing places of changing chains.
const CHAINS_PER_FLAW: u64 = 6;

pub fn all() -> Vec<Case> {
    [
        rows(),
        single_flaws(),
        body_sizes(),
        many_payloads(),
        many_addresses(),
        contradictions(),
        pairs(),
        lengths_told(),
        data_sizes(),
        notify_types(),
        first_types(),
        spi_sizes(),
        cookies_alike(),
        told::all(),
        redirects(),
        of_clones(),
    ]
    .concat()
}

fn chain_of(payloads: Vec<Draft>) -> Case {
    ChainDraft::of(payloads).assemble()
}

fn empty_payload(payload_type: u8, flags: u8) -> Draft {
    Draft::payload(payload_type, flags, vec![])
}

/// A notification with the smallest data that its type allows.
fn smallest(notify_type: NotifyType) -> Draft {
    let data: Vec<u8> = (1..).take(atoms::allowed_sizes(notify_type)[0]).collect();
    Draft::notify(notify_type, &data)
}

/// The notifications of a redirect, with data as they have it and other, before and behind others.
fn redirects() -> Vec<Case> {
    let update = smallest(NotifyType::UPDATE_SA_ADDRESSES);
    let mut cases = Vec::new();
    for notify_type in 16_406..=16_408 {
        for data in [&[][..], &[0], &[1, 4, 192, 0, 2, 1], &[1, 4, 192, 0, 2], &[3, 1, 97, 5, 6]] {
            let redirect = Draft::notify(NotifyType(notify_type), data);
            cases.push(chain_of(vec![redirect.clone()]));
            cases.push(chain_of(vec![redirect.clone(), update.clone(), redirect]));
        }
    }
    cases
}

/// The two of clones, which are unknown here: with data and an SPI or none, before and behind others.
fn of_clones() -> Vec<Case> {
    let update = smallest(NotifyType::UPDATE_SA_ADDRESSES);
    let mut cases = Vec::new();
    for notify_type in NotifyType::OF_CLONES {
        for (spi_size, rest) in [(0, 0), (0, 1), (0, 8), (1, 1), (8, 8), (8, 9), (1, 0), (9, 8)] {
            let notify = Draft::notify_with_spi(notify_type, spi_size, &vec![1; rest]);
            cases.push(chain_of(vec![notify.clone()]));
            cases.push(chain_of(vec![notify.clone(), update.clone(), notify]));
        }
    }
    cases
}

/// Rows a to h of the table, and row c with a cookie.
fn rows() -> Vec<Case> {
    let update = smallest(NotifyType::UPDATE_SA_ADDRESSES);
    let mut with_tail = ChainDraft::of(vec![update.clone()]);
    with_tail.tail.push(0xff);
    vec![
        Case { first: 0, body: vec![] },
        Case { first: 41, body: vec![] },
        chain_of(vec![update.clone()]),
        with_tail.assemble(),
        chain_of(vec![Draft::notify(NotifyType::COOKIE2, &[1; 7])]),
        chain_of(vec![Draft::notify(NotifyType::COOKIE2, &[1; 64])]),
        chain_of(vec![empty_payload(UNKNOWN, 0x80)]),
        chain_of(vec![empty_payload(UNKNOWN, 0)]),
        chain_of(vec![update, smallest(NotifyType::COOKIE2)]),
    ]
}

fn single_flaws() -> Vec<Case> {
    let mut cases = Vec::new();
    for (place, damage) in Damage::all().into_iter().enumerate() {
        for turn in 0..CHAINS_PER_FLAW {
            let mut rng = Rng::from_words(&[place as u64, turn]);
            let mut chain = well_formed::chain(&mut rng);
            damage.apply(&mut rng, &mut chain);
            cases.push(chain.assemble());
        }
    }
    cases
}

/// Bodies of one payload that fills them or not, and of zeros, about all sizes that matter.
fn body_sizes() -> Vec<Case> {
    let around_limit = MAX_BODY - 5..=MAX_BODY + 5;
    let sizes = (0..=12).chain(around_limit).chain([8192, 65535, 65536, 70000]);
    let mut cases = Vec::new();
    for size in sizes {
        for first in [0, SKIPPED, 41, UNKNOWN] {
            cases.push(Case { first, body: vec![0; size] });
        }
        for last_next in [0, SKIPPED, 41, UNKNOWN] {
            let content = vec![0; size.saturating_sub(4)];
            let payloads = vec![Draft::payload(SKIPPED, 0, content)];
            cases.push(ChainDraft { payloads, last_next, tail: vec![] }.assemble());
        }
    }
    cases
}

/// As many payloads as a body holds, one fewer and one more, of every class.
fn many_payloads() -> Vec<Case> {
    let kinds = [
        empty_payload(SKIPPED, 0x80),
        empty_payload(UNKNOWN, 0x7f),
        empty_payload(UNKNOWN, 0x80),
        Draft::notify(UNKNOWN_STATUS, &[]),
        Draft::notify(NotifyType(7), &[]),
        Draft::notify(NotifyType::MOBIKE_SUPPORTED, &[]),
        smallest(NotifyType::UPDATE_SA_ADDRESSES),
        smallest(NotifyType::NAT_DETECTION_SOURCE_IP),
    ];
    let mut cases = Vec::new();
    for kind in kinds {
        let most = MAX_BODY / kind.size();
        for count in [255, 256, 257, most - 1, most, most + 1] {
            let mut chain = ChainDraft::of(vec![kind.clone(); count]);
            cases.push(chain.assemble());
            chain.last_next = 41;
            cases.push(chain.assemble());
        }
        let mut last_differs = vec![empty_payload(SKIPPED, 0); 1023];
        last_differs.push(kind);
        cases.push(chain_of(last_differs));
    }
    cases
}

/// Lists of addresses about the sixteen that are kept, and as many as a body holds.
fn many_addresses() -> Vec<Case> {
    let address = |place: usize, ipv6: bool| {
        let octets: Vec<u8> = (0..16).map(|octet| (place + octet) as u8 | 1).collect();
        if ipv6 {
            Draft::notify(NotifyType::ADDITIONAL_IP6_ADDRESS, &octets)
        } else {
            Draft::notify(NotifyType::ADDITIONAL_IP4_ADDRESS, &octets[..4])
        }
    };
    let mut cases = Vec::new();
    for count in [1, 2, 15, 16, 17, 18, 32, 170, 171, 227, 255, 256, 257, 340, 341, 342] {
        let ipv4 = (0..count).map(|place| address(place, false)).collect();
        let ipv6 = (0..count).map(|place| address(place, true)).collect();
        let mixed: Vec<Draft> = (0..count).map(|place| address(place, place % 2 == 1)).collect();
        let no_additional = smallest(NotifyType::NO_ADDITIONAL_ADDRESSES);
        let then_none = [&mixed[..], &[no_additional]].concat();
        cases.extend([ipv4, ipv6, mixed, then_none].map(chain_of));
    }
    let mut full: Vec<Draft> = (0..341).map(|place| address(place, false)).collect();
    full.push(empty_payload(UNKNOWN, 0));
    cases.push(chain_of(full));
    cases
}

/// Every chain of two and three of NO_ADDITIONAL_ADDRESSES and the two kinds of address.
fn contradictions() -> Vec<Case> {
    let kinds = [
        smallest(NotifyType::NO_ADDITIONAL_ADDRESSES),
        smallest(NotifyType::ADDITIONAL_IP4_ADDRESS),
        smallest(NotifyType::ADDITIONAL_IP6_ADDRESS),
    ];
    let mut cases = Vec::new();
    for one in &kinds {
        for two in &kinds {
            cases.push(chain_of(vec![one.clone(), two.clone()]));
            for three in &kinds {
                cases.push(chain_of(vec![one.clone(), two.clone(), three.clone()]));
            }
        }
    }
    cases
}

/// Every ordered pair of sound and flawed payloads, so also every repeat and every order of flaws.
fn pairs() -> Vec<Case> {
    let bad_length = |payload_type, flags, told| {
        let mut draft = empty_payload(payload_type, flags);
        draft.told_length = Some(told);
        draft
    };
    let mut kinds = vec![
        empty_payload(SKIPPED, 0x80),
        empty_payload(UNKNOWN, 0),
        empty_payload(UNKNOWN, 0x80),
        empty_payload(41, 0),
        bad_length(UNKNOWN, 0x80, 3),
        bad_length(UNKNOWN, 0x80, 300),
        bad_length(41, 0, 0),
        Draft::notify(NotifyType(7), &[]),
        Draft::notify(UNKNOWN_STATUS, &[]),
        Draft::notify_with_spi(UNKNOWN_STATUS, 5, &[0; 4]),
        Draft::notify_with_spi(NotifyType::MOBIKE_SUPPORTED, 1, &[0]),
        Draft::notify(NotifyType::COOKIE2, &[0; 65]),
        Draft::notify(NotifyType::NO_NATS_ALLOWED, &[0; 24]),
    ];
    kinds.extend(NotifyType::KNOWN.map(smallest));
    let mut cases = Vec::new();
    for one in &kinds {
        for two in &kinds {
            cases.push(chain_of(vec![one.clone(), two.clone()]));
        }
    }
    cases
}

/// Every small length, and great ones, in the header of a payload of each class, alone and second.
fn lengths_told() -> Vec<Case> {
    let mut cases = Vec::new();
    for told in (0..=17).chain([255, 256, 4095, 4096, 4097, 32767, 32768, 65535]) {
        for (payload_type, flags) in [(SKIPPED, 0), (41, 0), (UNKNOWN, 0), (UNKNOWN, 0x80)] {
            let mut draft = Draft::payload(payload_type, flags, vec![0; 12]);
            draft.told_length = Some(told);
            cases.push(chain_of(vec![draft.clone()]));
            cases.push(chain_of(vec![empty_payload(SKIPPED, 0), draft]));
        }
    }
    cases
}

/// Every known notify type with every data size up to past the greatest that is allowed.
fn data_sizes() -> Vec<Case> {
    let mut cases = Vec::new();
    for known in NotifyType::KNOWN {
        for size in (0..=70).chain([255, 256, 264, 1000, 4088]) {
            let data: Vec<u8> = (0..size).map(|place: usize| place as u8).collect();
            cases.push(chain_of(vec![Draft::notify(known, &data)]));
        }
    }
    cases
}

/// The notify types about the known ones, 0 and 16384, and the known ones with octets swapped.
fn notify_types() -> Vec<Case> {
    let swapped = NotifyType::KNOWN.map(|known| known.0.swap_bytes());
    let types = (0..64).chain(16370..16450).chain(swapped).chain([255, 256, 32768, 65535]);
    types
        .flat_map(|notify_type| {
            let notify = Draft::notify(NotifyType(notify_type), &[]);
            [
                chain_of(vec![notify.clone()]),
                chain_of(vec![Draft::notify(NotifyType(9), &[]), notify]),
            ]
        })
        .collect()
}

/// Every first type with no body, and as a bare payload with each meaning of the flags.
fn first_types() -> Vec<Case> {
    (0..=255)
        .flat_map(|first| {
            let bodies = [vec![], vec![0, 0, 0, 4], vec![0, 0x80, 0, 4], vec![0, 0x7f, 0, 4]];
            bodies.map(|body| Case { first, body })
        })
        .collect()
}

/// Every SPI size: fitting, one octet short, and with known types.
fn spi_sizes() -> Vec<Case> {
    (0..=255)
        .flat_map(|size| {
            let spi = vec![1; usize::from(size)];
            let short = &spi[..spi.len().saturating_sub(1)];
            let cookie = [&spi[..], &[2; 8]].concat();
            [
                Draft::notify_with_spi(UNKNOWN_STATUS, size, &spi),
                Draft::notify_with_spi(UNKNOWN_STATUS, size, short),
                Draft::notify_with_spi(NotifyType::MOBIKE_SUPPORTED, size, &spi),
                Draft::notify_with_spi(NotifyType::COOKIE2, size, &cookie),
            ]
            .map(|notify| chain_of(vec![notify]))
        })
        .collect()
}

/// Octets before the cookie that are alike, and cookies at the end of the body and before it.
fn cookies_alike() -> Vec<Case> {
    let mut cases = Vec::new();
    for size in [8, 9, 63, 64] {
        let data: Vec<u8> = (1..=size).collect();
        let cookie = Draft::notify(NotifyType::COOKIE2, &data);
        for before in
            [Draft::payload(SKIPPED, 0, data.clone()), Draft::notify(UNKNOWN_STATUS, &data)]
        {
            cases.push(chain_of(vec![before.clone(), cookie.clone()]));
            cases.push(chain_of(vec![before.clone(), cookie.clone(), before]));
        }
    }
    cases
}
