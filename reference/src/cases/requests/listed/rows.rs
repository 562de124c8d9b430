// The papers' rows a to j, and the whole request with its refused response.
use super::super::super::reader::draft::Draft;
use super::setting::{self, case, cookie, request, unknown, unknown_critical, update};
use super::Case;
use crate::request::Request;

/// Rows a to j, then row c with a cookie, accepted and not.
pub fn all() -> Vec<Case> {
    let none = |payloads: &[Draft]| Case {
        tables: setting::tables_with(|record| (record.update_mark, record.unknown) = (0, 0)),
        request: request(payloads),
    };
    let mut with_tail = none(&[update()]);
    with_tail.request.body.push(0xff);
    let mut announced = none(&[]);
    announced.request.first = 41;
    let mut id_0 = none(&[update()]);
    id_0.request.id = 0;
    let marked = Request { id: setting::MARKED_ID, ..request(&[update()]) };
    let whole = request(&[update(), cookie(8)]);
    vec![
        none(&[]),
        announced,
        none(&[update()]),
        with_tail,
        none(&[cookie(7)]),
        none(&[cookie(64)]),
        none(&[unknown_critical()]),
        none(&[unknown()]),
        id_0,
        case(marked),
        case(whole.clone()),
        Case { tables: setting::closed_tables(), request: whole },
    ]
}

#[cfg(test)]
mod tests {
    use super::*;
    use crate::handler::handle;
    use crate::reply::Reply;
    use crate::rules::Plain;

    const WHOLE: [u8; 24] =
        [0x29, 0, 0, 8, 0, 0, 0x40, 0x10, 0, 0, 0, 0x10, 0, 0, 0x40, 0x11, 1, 2, 3, 4, 5, 6, 7, 8];
    const REFUSED: [u8; 24] =
        [0x29, 0, 0, 8, 0, 0, 0, 0x28, 0, 0, 0, 0x10, 0, 0, 0x40, 0x11, 1, 2, 3, 4, 5, 6, 7, 8];

    /// Checks number, offset, ordinal, update, payloads and the response of a row, and gives its tally.
    fn row(place: usize, told: (u8, usize, usize, u8, usize), response: &[u8]) -> u32 {
        let Case { mut tables, request } = all().swap_remove(place);
        let handled = handle(&request, &mut tables, &Plain);
        let Reply { number, offset, ordinal, update, payloads, .. } = handled.reply;
        assert_eq!((number, offset, ordinal, update, payloads), told);
        let Reply { first, list, left_off, .. } = handled.reply;
        assert_eq!(handled.response(), response);
        assert_eq!((first, list, left_off), (if response.is_empty() { 0 } else { 41 }, 0, 0));
        assert!(handled.leaves_rest(&request.output));
        let moved = tables.ike.records[setting::PLACE].pair == request.pair;
        assert_eq!(moved, update == 1);
        tables.ike.records[setting::PLACE].unknown
    }

    const INVALID_SYNTAX: [u8; 8] = [0, 0, 0, 8, 0, 0, 0, 7];

    #[test]
    fn rows_a_to_j() {
        row(0, (0, 0, 0, 0, 0), &[]);
        row(1, (61, 0, 0, 0, 0), &INVALID_SYNTAX);
        row(2, (0, 0, 0, 1, 1), &[]);
        row(3, (65, 8, 1, 0, 0), &INVALID_SYNTAX);
        row(4, (63, 0, 0, 0, 0), &INVALID_SYNTAX);
        let cookie: Vec<u8> = [0, 0, 0, 72, 0, 0, 0x40, 0x11].into_iter().chain(1..=64).collect();
        row(5, (0, 0, 0, 0, 1), &cookie);
        assert_eq!(row(6, (7, 0, 0, 0, 0), &[0, 0, 0, 9, 0, 0, 0, 1, 200]), 0);
        assert_eq!(row(7, (0, 0, 0, 0, 1), &[]), 1);
        row(8, (0, 0, 0, 1, 1), &[]);
        row(9, (0, 0, 0, 2, 1), &[]);
    }

    #[test]
    fn row_c_with_a_cookie_whole() {
        assert_eq!(all()[10].request.body, WHOLE);
        assert_eq!(all()[11].request.body, WHOLE);
        row(10, (0, 0, 0, 1, 2), &WHOLE[8..]);
        row(11, (9, 0, 0, 0, 2), &REFUSED);
    }
}
