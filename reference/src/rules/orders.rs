// The rules of demand 3: document 00, with document 01, "One request, step by step", and requests E6 and E9 of document
// 02.
use crate::asked::Asked;
use crate::request::Request;
use crate::steps::mark;
use crate::tables::IkeRecord;

pub trait OrderRules {
    /// "which keeps each IKE SA's own requests in sequence".
    fn keeps_sequence(&self, _spi: u64) -> bool {
        true
    }

    /// Document 01: "an IKE SA's requests are all those that give its SPI", whichever operator they name: of the one
    /// whose record is this.
    fn gives(&self, asked: &Asked, record: &IkeRecord) -> bool {
        asked.spi() == record.spi
    }

    /// Document 01: "A request is sound if checks 1 to 7 pass"; E9: another operator's record gives 4, so that such a
    /// request is none. The operator for which it is judged.
    fn judged_for(&self, request: &Request, _record: &IkeRecord) -> u8 {
        request.operator
    }

    /// E6: "the list also holds check responses, refused ones included, each counted as one of the requests that give
    /// its SPI", so that they are kept in sequence too.
    fn counts(&self, _asked: &Asked) -> bool {
        true
    }

    /// "Where an IKE SA's requests are all sound .. and no two of them have the same message ID"; E6: "only an IKE SA
    /// without check responses may change its own sequence".
    fn is_freed(&self, all_sound: bool, ids_differ: bool, without_responses: bool) -> bool {
        all_sound && ids_differ && without_responses
    }

    /// "For every order that keeps the sequence of all other IKE SAs, the tables still end the same"; E6: "the tables
    /// compared include the pending check".
    fn breaks_freed(&self, same_tables: bool, _same_answers: bool) -> bool {
        !same_tables
    }

    /// An SA's pair ends as "the one carried by its update with the greatest ID".
    fn deciding<'a>(&self, updates: &[&'a Request]) -> Option<&'a Request> {
        updates.iter().copied().max_by_key(|request| request.id)
    }

    /// The same: "if that exceeds the update mark it began with, else as the pair it had".
    fn moves(&self, id: u32, first_mark: u64) -> bool {
        mark(id) > first_mark
    }
}
