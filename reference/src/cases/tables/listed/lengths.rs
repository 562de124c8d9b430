// IPsec lists of each length that matters: every call on them, alone and in a row.
use super::super::{lengths, spis, Case};
use super::contents::{self, NEW_IKE, NEW_IPSEC};
use crate::calls::Call;
use crate::opening::Adding;
use crate::tables::{Tables, IPSEC_PLACES};

pub fn all() -> Vec<Case> {
    let mut cases = Vec::new();
    for tables in tables() {
        for length in lengths::LISTED {
            let tables = tables.with_ipsec_length(length);
            cases.extend(alone(&tables));
            cases.push(Case { tables, calls: calls() });
        }
    }
    cases.extend(alone(&contents::full().with_ipsec_length(lengths::LONGEST)));
    cases
}

/// Empty, full, nothing but leftovers, and full but for the places at both ends and past them, of the
/// IPsec list and of both.
fn tables() -> [Tables; 5] {
    let free_at_ends = contents::with_free_ipsec(&[0, 126, 127]);
    let both_free_at_ends = contents::with_free(&[0, 31], &[0, 126, 127]);
    [Tables::empty(), contents::full(), contents::leftovers(), free_at_ends, both_free_at_ends]
}

fn alone(tables: &Tables) -> Vec<Case> {
    let case = |call| Case { tables: tables.clone(), calls: vec![call] };
    calls().into_iter().map(case).collect()
}

/// Each call with SPIs that pass, that fail check 1 and that a record has or no record has.
fn calls() -> Vec<Call> {
    let mut calls = Vec::new();
    let last = spis::ipsec(IPSEC_PLACES - 1);
    for child in [NEW_IPSEC - 2, 0, spis::ipsec(0), last] {
        for spi in [NEW_IKE - 2, 0, spis::ike(0)] {
            calls.push(contents::open_both(spi, contents::pair(40), child));
        }
    }
    for spi in [NEW_IPSEC, 0, spis::ipsec(0), last] {
        for owner in [spis::ike(0), 0, NEW_IKE - 1] {
            calls.push(Call::OpenIpsec(Adding { spi, owner, operator: 0 }));
        }
    }
    calls.extend(
        [last, 0, spis::ipsec(0), NEW_IPSEC - 1].map(|spi| Call::CloseIpsec { spi, operator: 0 }),
    );
    calls.extend([spis::ike(0), 0, NEW_IKE - 1].map(|spi| Call::MarkDeletion { spi, operator: 0 }));
    calls.extend([spis::ike(0), 0, NEW_IKE - 1].map(|spi| Call::CloseIke { spi, operator: 0 }));
    calls
}
