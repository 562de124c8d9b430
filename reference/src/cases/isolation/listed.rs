// The pairs of runs that every run begins with: each two numbers that may differ first, and what must not be noticed.
use super::super::runs::listed::{
    add, adds, answer, clone, close, close_ipsec, mark, move_to_ipv6, open, open_of, opens, policy,
    row,
};
use super::Case;
use crate::any_call::AnyCall;
use crate::operator::other;

/// Each of them for either operator; each run of the two first.
pub fn all() -> Vec<Case> {
    let mut cases = Vec::new();
    for operator in [0, 1] {
        for [one, other] in [differing(operator), unnoticed(operator)].concat() {
            cases.push(Case { runs: [one.clone(), other.clone()], operator });
            cases.push(Case { runs: [other, one], operator });
        }
    }
    cases
}

type Runs = [Vec<AnyCall>; 2];

/// Where the other has taken the places or the SPI.
fn differing(own: u8) -> Vec<Runs> {
    let its = other(own);
    // Displays of the other, of which it may have 20, and of one's own.
    let taken = opens(100..120, its);
    let twelve = opens(0..12, own);
    let share = opens(0..20, own);
    let of_peer: Vec<AnyCall> = (0..4).map(|number| open_of(number, 7, own)).collect();
    let eight = opens(4..12, own);
    let rest = opens(100..112, its);
    // 128 IPsec records: of the other 80, of one's own 48.
    let ipsec_taken = row(&[&[open(100, its)], &adds(101..180, 100, its)]);
    let ipsec_own = row(&[&[open(0, own)], &adds(1..48, 0, own)]);
    let ipsec_share = row(&[&[open(0, own)], &adds(1..80, 0, own)]);
    let alone = |calls: &[AnyCall], last: &[AnyCall], before: &[AnyCall]| {
        [row(&[before, calls, last]), row(&[calls, last])]
    };
    let mut runs = vec![
        // 0 and 10, 0 and 11, 0 and 41.
        alone(&twelve, &[open(12, own)], &taken),
        alone(&ipsec_own, &[add(50, 0, own)], &ipsec_taken),
        alone(&ipsec_own, &[open(50, own)], &ipsec_taken),
        alone(&[], &[open(12, own)], &[open(12, its)]),
        alone(&[open(0, own)], &[add(50, 0, own)], &[open(50, its)]),
        alone(&[open(0, own)], &[clone(0, 50, own)], &[open(50, its)]),
        alone(&twelve, &[clone(0, 12, own)], &taken),
        // 11 and 43: one has its share, and the other may have the SPI.
        alone(&share, &[open(150, own)], &[open(150, its)]),
        alone(&share, &[clone(0, 150, own)], &[open(150, its)]),
        alone(&ipsec_share, &[add(150, 0, own)], &[open(150, its)]),
        // 41 and 42, 41 and 43.
        alone(&row(&[&of_peer, &eight]), &[clone(0, 12, own)], &taken),
        alone(&share, &[clone(0, 20, own)], &rest),
        // What follows a difference may differ in any way.
        alone(
            &twelve,
            &[open(12, own), close(12, own), open(12, own), add(60, 12, own), close(0, own)],
            &taken,
        ),
        alone(
            &[policy(true, own)],
            &[open(12, own), move_to_ipv6(12, 5, own), answer(12, 5, true, own), mark(12, own)],
            &[open(12, its)],
        ),
        alone(&share[..19], &[open(150, own), open(19, own), open(20, own)], &[open(150, its)]),
    ];
    // 10 and 11: the table is full, and in one of the runs the other has the SPI.
    let (full, with_spi) = (opens(100..120, its), opens(101..121, its));
    runs.push([
        row(&[&full, &twelve, &[open(120, own)]]),
        row(&[&with_spi, &twelve, &[open(120, own)]]),
    ]);
    // 11 and 41: the SPI in one run, a full table in the other.
    let some = opens(115..121, its);
    runs.push([
        row(&[&full, &twelve, &[clone(0, 120, own)]]),
        row(&[&some, &twelve, &[clone(0, 120, own)]]),
    ]);
    // The place is freed again before the call.
    runs.push([
        row(&[&taken, &twelve, &[close(105, its), open(12, own)]]),
        row(&[&twelve, &[open(12, own)]]),
    ]);
    runs
}

/// Where nothing that the other does shows: places, shares, peers, policies, and calls for records that aren't its own.
fn unnoticed(own: u8) -> Vec<Runs> {
    let its = other(own);
    let between = |calls: &[AnyCall], others: &[AnyCall]| {
        // Each of the other's in turn before one of one's own.
        let mut run = Vec::new();
        let mut left = others.iter();
        for call in calls {
            run.extend(left.next().cloned());
            run.push(call.clone());
        }
        run.extend(left.cloned());
        [run, calls.to_vec()]
    };
    let night = [
        policy(true, own),
        open(0, own),
        add(1, 0, own),
        move_to_ipv6(0, 5, own),
        answer(0, 5, true, own),
        open(2, own),
        move_to_ipv6(2, 6, own),
        close(0, own),
        open(3, own),
        clone(2, 4, own),
        answer(2, 6, false, own),
        mark(4, own),
        clone(4, 5, own),
        move_to_ipv6(4, 7, own),
        answer(4, 7, true, own),
        close_ipsec(3, own),
    ];
    // Calls of the other for one's own records, and with its own policy.
    let meddling: Vec<AnyCall> = (0..5)
        .flat_map(|number| {
            vec![
                close(number, its),
                close_ipsec(number, its),
                mark(number, its),
                add(200 + number, number, its),
                move_to_ipv6(number, 9, its),
                answer(number, 5, false, its),
                clone(number, 210 + number, its),
            ]
        })
        .collect();
    let mut runs = vec![
        between(&night, &meddling),
        between(&night, &[policy(false, its), open(100, its), policy(true, its), close(100, its)]),
        between(&night, &opens(100..120, its)),
    ];
    for call in &meddling {
        runs.push(between(&night, &vec![call.clone(); night.len()]));
    }
    // One's updates are judged by one's own policy alone.
    let judged =
        [open(0, own), move_to_ipv6(0, 5, own), policy(true, own), move_to_ipv6(0, 6, own)];
    runs.push(between(&judged, &[policy(true, its), policy(true, its), policy(false, its)]));
    // Places taken and freed between.
    let placed = [open(0, own), open(1, own), close(0, own), open(2, own), open(3, own)];
    for others in [
        [open(100, its), open(101, its), open(102, its), open(103, its), open(104, its)],
        [open(100, its), close(100, its), open(101, its), open(102, its), close(102, its)],
    ] {
        runs.push(between(&placed, &others));
    }
    // A peer of both has 4 records of each.
    let peer: Vec<AnyCall> = (0..3).map(|number| open_of(number, 7, own)).collect();
    let same: Vec<AnyCall> = (100..104).map(|number| open_of(number, 7, its)).collect();
    let cloning = [clone(0, 10, own), clone(1, 11, own)];
    runs.push([row(&[&same, &peer, &cloning]), row(&[&peer, &same, &cloning])]);
    runs.push([row(&[&same, &peer, &cloning]), row(&[&peer, &cloning])]);
    // One's share, with room left by the other, and not.
    let share = opens(0..20, own);
    runs.push([
        row(&[&opens(100..112, its), &share, &[open(20, own)]]),
        row(&[&share, &[open(20, own)]]),
    ]);
    runs.push([
        row(&[&opens(100..111, its), &share, &[clone(0, 20, own)]]),
        row(&[&share, &[clone(0, 20, own)]]),
    ]);
    let ipsec_share = row(&[&[open(0, own)], &adds(1..80, 0, own)]);
    let others = row(&[&[open(100, its)], &adds(101..148, 100, its)]);
    runs.push([
        row(&[&others, &ipsec_share, &[add(90, 0, own)]]),
        row(&[&ipsec_share, &[add(90, 0, own)]]),
    ]);
    // Up to one's share beside as many of the other's as leave room.
    runs.push([row(&[&opens(100..112, its), &share]), row(&[&share])]);
    runs.push([row(&[&others, &ipsec_share]), row(&[&ipsec_share])]);
    // 43 and 11 and 10 in both runs are no difference.
    runs.push([
        row(&[&opens(100..120, its), &opens(0..12, own), &[open(12, own), open(0, own)]]),
        row(&[&opens(0..12, own), &opens(130..150, its), &[open(12, own), open(0, own)]]),
    ]);
    runs
}
