// Times of redirects about 300 seconds, about the least and the greatest, and records that no decision leaves.
use super::listed::{informational, Run};
use crate::redirect::decision::{Redirect, Redirects};

pub fn runs() -> Vec<Run> {
    [about_300(), orders(), counts(), from_fresh()].concat()
}

/// Steps of time about those that matter.
const STEPS: [i128; 11] = [-301, -300, -1, 0, 1, 74, 75, 298, 299, 300, 301];

/// Times about 0, about 300, about powers of two, and about the greatest.
const BASES: [u64; 9] = [0, 1, 299, 300, 301, 1 << 32, 1 << 63, u64::MAX - 300, u64::MAX];

fn stepped(base: u64, step: i128) -> Option<u64> {
    u64::try_from(i128::from(base) + step).ok()
}

/// Five of one time, or four and one that is a step older or newer, and a time that is a step later.
fn about_300() -> Vec<Run> {
    let mut runs = Vec::new();
    for base in BASES {
        for step in STEPS {
            let Some(time) = stepped(base, step) else { continue };
            for place in 0..5 {
                for other in [-300, -1, 0, 1, 300] {
                    let Some(other) = stepped(base, other) else { continue };
                    let mut times = [base; 5];
                    times[place] = other;
                    runs.push((Redirects { count: 5, times }, vec![informational(time)]));
                }
            }
        }
    }
    runs
}

/// Records whose times aren't in order, or are in the future.
fn orders() -> Vec<Run> {
    let times = [
        [5, 4, 3, 2, 1],
        [u64::MAX, u64::MAX, u64::MAX, u64::MAX, 3],
        [3, 3, 3, 3, u64::MAX],
        [u64::MAX, 0, u64::MAX, 0, 400],
        [1000, 0, 0, 0, 0],
        [0, 0, 0, 0, 1000],
        [100, 900, 500, 700, 300],
    ];
    let now =
        [0, 1, 2, 3, 4, 5, 299, 300, 301, 303, 400, 599, 600, 999, 1000, 1299, 1300, u64::MAX];
    let mut runs = Vec::new();
    for times in times {
        for count in [0, 1, 4, 5, 6] {
            let all = now.map(|time| (Redirects { count, times }, vec![informational(time)]));
            runs.extend(all);
        }
    }
    runs
}

/// Every count, with something in every place, and a time that passes or doesn't.
fn counts() -> Vec<Run> {
    let mut runs = Vec::new();
    for count in 0..=255 {
        for times in [[10, 20, 30, 40, 50], [50, 40, 30, 20, 10], [0; 5]] {
            for time in [9, 10, 49, 50, 309, 310, 350] {
                if count < 8 || count % 16 == 0 || count > 250 {
                    let again = vec![informational(time), informational(time)];
                    runs.push((Redirects { count, times }, again));
                }
            }
        }
    }
    runs
}

/// Runs from a fresh record with even steps, and with a pause behind five of one second.
fn from_fresh() -> Vec<Run> {
    let mut runs = Vec::new();
    for first in [0, 1, 1 << 40, u64::MAX - 1_000] {
        for step in [0, 1, 49, 50, 59, 60, 61, 74, 75, 76, 299, 300] {
            let times = (0..12).filter_map(|place| stepped(first, place * step));
            runs.push((Redirects::FRESH, times.map(informational).collect::<Vec<Redirect>>()));
        }
        for pause in [0, 1, 298, 299, 300, 301] {
            let early = (0..5).filter_map(|place| stepped(first, place));
            let late = (0..5).filter_map(|place| stepped(first, pause + place));
            let redirects = early.chain(late).map(informational).collect();
            runs.push((Redirects::FRESH, redirects));
        }
    }
    runs
}
