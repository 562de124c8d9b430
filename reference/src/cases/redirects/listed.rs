// The redirects every run begins with: each type, length, output, exchange, nonce and set of refusals.
use super::times;
use crate::redirect::data::Writing;
use crate::redirect::decision::{exchange, Redirect, Redirects};
use crate::redirect::program::Given;

/// A record, and redirects that are decided one behind the other.
pub type Run = (Redirects, Vec<Redirect>);

/// Each of what is read with one of what is written and one of what is decided, in turn, up to the end of all.
pub fn all() -> Vec<Given> {
    let (data, writings, runs) = (data(), writings(), runs());
    let most = data.len().max(writings.len()).max(runs.len());
    let given = |place: usize| {
        let (record, redirects) = runs[place % runs.len()].clone();
        let (data, writing) = (&data[place % data.len()], &writings[place % writings.len()]);
        Given { data: data.clone(), writing: writing.clone(), record, redirects }
    };
    (0..most).map(given).collect()
}

/// Octets that differ from place to place.
pub fn octets(start: u8, length: usize) -> Vec<u8> {
    (0..length).map(|place| start.wrapping_add(place as u8)).collect()
}

/// Types about those allowed, with lengths about those allowed, and about as many octets behind as are told or as a
/// nonce may have; every type with each length of an address.
fn data() -> Vec<Vec<u8>> {
    let with = |identity_type: u8, told: usize, there: usize| {
        [&[identity_type, told as u8], &octets(0x40, there)[..]].concat()
    };
    let mut all = vec![vec![], vec![1], vec![3], vec![3, 3, b'a', b'.', b'b'], with(3, 255, 4094)];
    for identity_type in [0, 1, 2, 3, 4, 5, 128, 255] {
        for told in [0, 1, 2, 3, 4, 5, 15, 16, 17, 254, 255] {
            let behind = [0, 1, 2, 14, 15, 16, 17, 255, 256, 257, 300];
            all.extend(behind.map(|behind| with(identity_type, told, told + behind)));
            let cut = [1, 2, told].into_iter().filter(|&cut| cut <= told);
            all.extend(cut.map(|cut| with(identity_type, told, told - cut)));
        }
    }
    for identity_type in 0..=255 {
        all.extend([4, 16].map(|told| with(identity_type, told, told)));
    }
    all
}

/// Types and lengths as above, those alike in their low octet too, with nonces and outputs about those allowed.
fn writings() -> Vec<Writing> {
    let with = |identity_type: u8, length: usize, nonce: usize, room: usize| Writing {
        identity_type,
        identity: octets(0x40, length),
        nonce: octets(0x80, nonce),
        output: vec![0xa5; room],
    };
    let mut all = Vec::new();
    for identity_type in [0, 1, 2, 3, 4, 255] {
        for length in [0, 1, 3, 4, 5, 15, 16, 17, 254, 255, 256, 257, 260, 272, 511] {
            for nonce in [0, 1, 15, 16, 17, 255, 256, 257, 272] {
                for room in [513, 512] {
                    all.push(with(identity_type, length, nonce, room));
                }
            }
        }
    }
    for room in [0, 1, 2, 6, 20, 21, 22, 256, 257, 511, 512, 513, 514, 600, 4_096] {
        for (identity_type, length, nonce) in [(1, 4, 0), (3, 3, 16), (3, 255, 256), (1, 5, 15)] {
            all.push(with(identity_type, length, nonce, room));
        }
    }
    for identity_type in 0..=255 {
        all.extend([4, 16].map(|length| with(identity_type, length, 16, 513)));
    }
    all
}

fn runs() -> Vec<Run> {
    [examples(), together(), exchanges(), nonces(), times::runs()].concat()
}

/// Data of a REDIRECT to an address, with this nonce.
fn to_address(nonce: &[u8]) -> Vec<u8> {
    [&[1, 4, 192, 0, 2, 1], nonce].concat()
}

/// One without a nonce in an INFORMATIONAL request.
pub fn informational(time: u64) -> Redirect {
    let (sent, data) = (octets(0, 16), to_address(&[]));
    Redirect { exchange: exchange::INFORMATIONAL, sent, time, data }
}

fn initial(time: u64, sent: &[u8], nonce: &[u8]) -> Redirect {
    let (sent, data) = (sent.to_vec(), to_address(nonce));
    Redirect { exchange: exchange::SA_INIT, sent, time, data }
}

fn examples() -> Vec<Run> {
    let sent = octets(0, 16);
    let longer = octets(0, 17);
    let times = [7, 7, 7, 7, 7, 7, 306, 307, 306];
    let nonces = [&sent[..], &[], &sent[..15], &longer];
    vec![
        (Redirects::FRESH, times.map(informational).into()),
        (Redirects::FRESH, nonces.map(|nonce| initial(10, &sent, nonce)).into()),
    ]
}

/// Every way to pass or fail each check with every one of the others.
fn together() -> Vec<Run> {
    let sent = octets(0, 16);
    let mut wrong = sent.clone();
    wrong[15] ^= 1;
    let full = Redirects { count: 5, times: [100; 5] };
    let mut runs = Vec::new();
    for nonce in [&[][..], &sent, &wrong, &sent[..15], &[0]] {
        for whole in [true, false] {
            let data = if whole { to_address(nonce) } else { [&[1, 5], nonce].concat() };
            for exchange in [0, 1, 2, 3, 4, 5] {
                for length in [16, 15, 0] {
                    for (record, time) in [(full, 400), (full, 99), (full, 399), (full, 100)] {
                        let (sent, data) = (octets(0, length), data.clone());
                        runs.push((record, vec![Redirect { exchange, sent, time, data }]));
                    }
                }
            }
        }
    }
    runs
}

/// Every exchange, without a nonce, with the right one, and with a single octet.
fn exchanges() -> Vec<Run> {
    let mut runs = Vec::new();
    for exchange in 0..=255 {
        for nonce in [0, 16, 1] {
            let redirect = initial(5, &octets(0, 16), &octets(0, nonce));
            runs.push((Redirects::FRESH, vec![Redirect { exchange, ..redirect }]));
        }
    }
    runs
}

/// Lengths of the nonce sent and of the one received about those allowed, and each octet changed.
fn nonces() -> Vec<Run> {
    let lengths = [0, 1, 14, 15, 16, 17, 31, 255, 256, 257, 258, 272, 512];
    let mut all = Vec::new();
    for sent in lengths {
        for received in lengths {
            all.push(initial(5, &octets(9, sent), &octets(9, received)));
        }
    }
    for length in [16, 17, 256] {
        for place in 0..length {
            let mut changed = octets(9, length);
            changed[place] ^= 1 << (place % 8);
            all.push(initial(5, &octets(9, length), &changed));
        }
    }
    all.into_iter().map(|redirect| (Redirects::FRESH, vec![redirect])).collect()
}
