// The check that an update leaves pending, over none, others and such as no call leaves, with each effect.
use super::setting::{self, each_effect, lent_cookie, tables_with};
use super::Case;
use crate::operator::OPERATORS;
use crate::pending::PendingCheck;
use crate::policy::Policy;
use crate::request::Request;
use crate::tables::Tables;

pub fn all() -> Vec<Case> {
    [older(), ids()].concat()
}

/// Each length of an older cookie, with each effect, all pairs acceptable and none; new ones shorter and longer.
fn older() -> Vec<Case> {
    let mut cases = Vec::new();
    for length in [0, 1, 7, 8, 9, 19, 63, 64, 65, 128, 255] {
        for past in [0, 0x77] {
            let open = tables_with(|record| {
                record.check = PendingCheck { length, octets: [past; 64], id: 5 };
            });
            let closed = Tables { policies: [Policy::EMPTY; OPERATORS], ..open.clone() };
            for tables in [open, closed] {
                for size in [8, 64] {
                    let with_cookie = |request| Request { cookie: lent_cookie(size), ..request };
                    let requests = each_effect().into_iter().map(with_cookie);
                    cases.extend(requests.map(|request| Case { tables: tables.clone(), request }));
                }
            }
        }
    }
    cases
}

/// IDs of our request about the bounds and about that of the peer's, new and as it was kept.
fn ids() -> Vec<Case> {
    let mut cases = Vec::new();
    for check_id in [0, 1, setting::MARKED_ID, setting::NEW_ID, 1 << 31, u32::MAX] {
        for id in [0, 1, setting::MARKED_ID, setting::NEW_ID, u32::MAX] {
            let request = Request { id, check_id, ..setting::moving() };
            let tables = tables_with(|record| record.check.id = check_id);
            cases.extend([Case { tables, request: request.clone() }, setting::case(request)]);
        }
    }
    cases
}
