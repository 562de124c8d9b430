// The runs that every run begins with: to each share and past it, and to the end of the places.
use super::super::runs::listed::{
    add, adds, answer, clone, close, close_ipsec, mark, move_to_ipv6, open, open_of, opens, policy,
    row,
};
use super::Case;
use crate::any_call::AnyCall;
use crate::operator::other;

pub fn all() -> Vec<Case> {
    let runs = [0, 1].into_iter().flat_map(|own| [ike(own), ipsec(own), freed(own)].concat());
    runs.map(|calls| Case { calls }).collect()
}

/// One's IKE records up to the share, by openings and by clones, with so many of the other's, and a few calls more.
fn ike(own: u8) -> Vec<Vec<AnyCall>> {
    let its = other(own);
    let mut runs = Vec::new();
    for others in [0, 1, 11, 12, 13, 19, 20, 21] {
        for count in [11, 12, 13, 19, 20, 21] {
            let more = [
                open(90, own),
                clone(0, 91, own),
                open(190, its),
                clone(100, 191, its),
                clone(1, 92, own),
                open(93, own),
            ];
            let (first, second) = (opens(0..count, own), opens(100..100 + others, its));
            runs.push(row(&[&first, &second, &more]));
            runs.push(row(&[&second, &first, &more]));
        }
    }
    // By clones: of five peers, each up to its limit; then of a record that is being deleted.
    let mut cloned = Vec::new();
    for peer in 0..6 {
        cloned.push(open_of(peer, peer as u32, own));
        cloned.extend((0..4).map(|number| clone(peer, 20 + 4 * peer + number, own)));
    }
    let marked = [mark(0, own), clone(0, 80, own), mark(100, its), clone(100, 180, its)];
    runs.push(row(&[&cloned, &opens(100..113, its), &marked]));
    runs.push(row(&[&[open(0, own), mark(0, own), clone(0, 1, own)]]));
    runs.push(row(&[
        &opens(100..120, its),
        &opens(0..11, own),
        &marked,
        &[open(30, own), open(31, own)],
    ]));
    runs.push(row(&[&opens(100..120, its), &opens(0..12, own), &marked, &[clone(1, 30, own)]]));
    runs
}

/// One's IPsec records up to the share, with so many of the other's.
fn ipsec(own: u8) -> Vec<Vec<AnyCall>> {
    let its = other(own);
    let mut runs = Vec::new();
    for others in [0, 47, 48, 49, 80, 81] {
        for count in [47, 48, 49, 79, 80, 81] {
            let first = row(&[&[open(0, own)], &adds(1..count, 0, own)]);
            let second = if others == 0 {
                vec![]
            } else {
                row(&[&[open(200, its)], &adds(201..200 + others, 200, its)])
            };
            let more = [
                add(150, 0, own),
                open(151, own),
                add(350, 200, its),
                open(351, its),
                add(152, 0, own),
            ];
            runs.push(row(&[&first, &second, &more]));
            runs.push(row(&[&[open(0, own)], &second, &first[1..], &more]));
        }
    }
    // Of several owners.
    let owners = opens(0..4, own);
    let adding: Vec<AnyCall> = (4..90).map(|number| add(number, number % 4, own)).collect();
    runs.push(row(&[&owners, &adding, &[close(1, own), add(95, 0, own)]]));
    runs
}

/// Places and shares that are freed again: by closings of either sort, and by a check that closes.
fn freed(own: u8) -> Vec<Vec<AnyCall>> {
    let its = other(own);
    let share = opens(0..20, own);
    let by_check = [policy(true, own), move_to_ipv6(3, 5, own), answer(3, 5, false, own)];
    let ipsec_share = row(&[&[open(0, own)], &adds(1..80, 0, own)]);
    vec![
        row(&[&share, &[close(3, own), open(20, own), open(21, own)]]),
        row(&[&share, &[close(3, its), open(20, own)]]),
        row(&[&share, &by_check, &[open(20, own), clone(1, 21, own)]]),
        row(&[&share, &opens(100..112, its), &[close(100, its), open(20, own), open(113, its)]]),
        row(&[&ipsec_share, &[close_ipsec(7, its), add(90, 0, own)]]),
        row(&[&ipsec_share, &[close_ipsec(7, own), add(90, 0, own), add(91, 0, own)]]),
        row(&[&ipsec_share, &[close(0, own), open(90, own), add(91, 90, own)]]),
    ]
}
