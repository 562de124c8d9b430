// The unknown tally: about its greatest value, with every effect of the request.
use super::super::super::reader::draft::Draft;
use super::setting::{self, list, request, unknown, unknown_critical, update};
use super::Case;
use crate::notify::NotifyType;
use crate::request::Request;

const TALLIES: [u32; 8] = [0, 1, 255, 65535, u32::MAX - 1024, u32::MAX - 2, u32::MAX - 1, u32::MAX];

pub fn all() -> Vec<Case> {
    let notification = Draft::notify(NotifyType(40), &[]);
    let unknowns = [
        vec![],
        vec![unknown()],
        vec![notification.clone()],
        vec![unknown(), notification.clone()],
        vec![notification.clone(), unknown(), notification],
        vec![unknown(); 1022],
        vec![unknown(); 1024],
    ];
    let mut cases = Vec::new();
    for tally in TALLIES {
        for unknowns in &unknowns {
            cases.extend(effects(unknowns).into_iter().map(|request| {
                let tables = setting::tables_with(|record| record.unknown = tally);
                Case { tables, request }
            }));
        }
    }
    cases
}

/// Nothing else, an update that is applied, stale, 8 or 1, a list, 6, and 7.
fn effects(unknowns: &[Draft]) -> Vec<Request> {
    let with = |others: &[Draft]| request(&[unknowns, others].concat());
    let altered = Draft::notify(NotifyType::NO_NATS_ALLOWED, &[1; 12]);
    let cut = Draft::payload(41, 0, vec![]);
    let mut unsound = with(&[update()]);
    unsound.pair.family = 0;
    vec![
        with(&[]),
        with(&[update()]),
        Request { id: setting::MARKED_ID, ..with(&[update()]) },
        with(&[update(), altered]),
        unsound,
        with(&list(1)),
        with(&[cut]),
        with(&[unknown_critical()]),
    ]
}
