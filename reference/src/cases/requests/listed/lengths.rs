// IPsec lists of each length that matters, with requests that would be done, stale or refused.
use super::super::super::tables::lengths;
use super::setting;
use super::Case;
use crate::tables::Tables;

pub fn all() -> Vec<Case> {
    let mut cases = Vec::new();
    for length in lengths::LISTED.into_iter().chain([lengths::LONGEST]) {
        for tables in tables() {
            let tables = tables.with_ipsec_length(length);
            let case = |request| Case { tables: tables.clone(), request };
            cases.extend(setting::each_effect().into_iter().map(case));
        }
    }
    cases
}

/// All acceptable, and none.
fn tables() -> [Tables; 2] {
    [setting::tables(), setting::closed_tables()]
}
