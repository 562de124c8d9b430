// What is agreed as each octet: only 0 gives 5, and a request leaves the octet as it is, and so the one of cloning and
// the mark for being deleted.
use super::super::super::tables::agreements::YES;
use super::setting::{self, each_effect, moving};
use super::Case;
use crate::operator::OPERATORS;
use crate::policy::Policy;
use crate::request::Request;
use crate::tables::Tables;

pub fn all() -> Vec<Case> {
    [octets(), other_octets(), effects()].concat()
}

fn tables(mobike: u8) -> Tables {
    setting::tables_with(|record| record.agreed.mobike = mobike)
}

/// Each octet, with a request of which every part has an effect.
fn octets() -> Vec<Case> {
    (0..=255).map(|octet| Case { tables: tables(octet), request: moving() }).collect()
}

/// Each octet of what is agreed of cloning, and of the mark, with an applied update and with a stale one.
fn other_octets() -> Vec<Case> {
    let stale = Request { id: setting::MARKED_ID, ..moving() };
    let mut cases = Vec::new();
    for octet in 0..=255 {
        for request in [moving(), stale.clone()] {
            let cloning = setting::tables_with(|record| record.agreed.cloning = octet);
            let deleting = setting::tables_with(|record| record.deleting = octet);
            let both = setting::tables_with(|record| {
                (record.agreed.cloning, record.deleting, record.agreed.peer) = (octet, !octet, 0);
            });
            let case = |tables| Case { tables, request: request.clone() };
            cases.extend([cloning, deleting, both].map(case));
        }
    }
    cases
}

/// No, and each sort of yes, with every effect; all pairs acceptable, and none.
fn effects() -> Vec<Case> {
    let mut cases = Vec::new();
    for octet in YES.into_iter().chain([0]) {
        let open = tables(octet);
        let closed = Tables { policies: [Policy::EMPTY; OPERATORS], ..open.clone() };
        for tables in [open, closed] {
            let case = |request| Case { tables: tables.clone(), request };
            cases.extend(each_effect().into_iter().map(case));
        }
    }
    cases
}
