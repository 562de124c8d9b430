// Updates and lists with message IDs about the marks, fit or refused: stale comes first.
use super::super::super::reader::draft::Draft;
use super::setting::{self, cookie, list, packet, request, unknown, update};
use super::Case;
use crate::notifications::no_nats_data;
use crate::notify::NotifyType;
use crate::operator::OPERATORS;
use crate::policy::Policy;
use crate::request::Request;
use crate::tables::Tables;

/// As kept: none, or the number after a message ID; those over 2^32 are never reached.
const MARKS: [u64; 9] = [0, 1, 2, 6, 256, (1 << 32) - 1, 1 << 32, (1 << 32) + 1, u64::MAX];

const IDS: [u32; 10] = [0, 1, 2, 4, 5, 6, 255, 256, u32::MAX - 1, u32::MAX];

pub fn all() -> Vec<Case> {
    let mut cases = Vec::new();
    for mark in MARKS {
        for marks in [(mark, mark), (mark, 6), (6, mark)] {
            let tables = setting::tables_with(|record| {
                (record.update_mark, record.list_mark) = marks;
            });
            let closed = Tables { policies: [Policy::EMPTY; OPERATORS], ..tables.clone() };
            for request in requests() {
                cases.push(Case { tables: tables.clone(), request: request.clone() });
                cases.push(Case { tables: closed.clone(), request });
            }
        }
    }
    cases
}

/// Each ID with an update, a list, both, and both where the update isn't fit.
fn requests() -> Vec<Request> {
    let altered = no_nats_data(&packet(6).swapped());
    let altered = Draft::notify(NotifyType::NO_NATS_ALLOWED, &altered);
    let chains = [
        vec![update(), unknown(), cookie(8)],
        [list(17), vec![cookie(9)]].concat(),
        [vec![update()], list(2)].concat(),
        [vec![update(), altered, unknown(), cookie(8)], list(0)].concat(),
    ];
    let with_id = |id| chains.each_ref().map(|chain| Request { id, ..request(chain) });
    IDS.into_iter().flat_map(with_id).collect()
}
