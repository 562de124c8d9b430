// Faults of the rules of demand 3: wrong turns of what is asked, not of the handler, so that they show that an order
// which breaks the demand is noticed.
use super::Row;
use crate::asked::Asked;
use crate::kind::Kind;
use crate::request::Request;
use crate::rules::OrderRules;
use crate::tables::IkeRecord;

pub const FAULTS: &[Row<dyn OrderRules>] = &[
    (
        Kind::Orders,
        "any-sequence",
        "The same answers are asked of orders that keep no sequence.",
        &AnySequence,
    ),
    (
        Kind::Orders,
        "unsound-freed",
        "IKE SAs with unsound requests are freed.",
        &Freed(|_, ids_differ, without_responses| ids_differ && without_responses),
    ),
    (
        Kind::Orders,
        "equal-ids-freed",
        "IKE SAs with equal IDs are freed.",
        &Freed(|all_sound, _, without_responses| all_sound && without_responses),
    ),
    (
        Kind::Orders,
        "responses-freed",
        "IKE SAs with check responses are freed.",
        &Freed(|all_sound, ids_differ, _| all_sound && ids_differ),
    ),
    (
        Kind::Orders,
        "responses-anywhere",
        "Check responses may stand anywhere among the requests that give their SPI.",
        &ResponsesAnywhere,
    ),
    (
        Kind::Orders,
        "sequence-by-operator",
        "Only the calls that name its record's operator are an IKE SA's.",
        &SequenceByOperator,
    ),
    (
        Kind::Orders,
        "other-operator-sound",
        "A request may be sound though it names another operator than its record.",
        &OtherOperatorSound,
    ),
    (
        Kind::Orders,
        "freed-answers",
        "The same answers are asked where IKE SAs are freed.",
        &FreedAnswers,
    ),
    (
        Kind::Orders,
        "last-update-wins",
        "A freed IKE SA is to end with the pair of its last update.",
        &LastUpdateWins,
    ),
    (
        Kind::Orders,
        "first-mark-ignored",
        "It is to end with its update's pair even if the ID doesn't exceed the mark it began with.",
        &FirstMarkIgnored,
    ),
];

struct AnySequence;
impl OrderRules for AnySequence {
    fn keeps_sequence(&self, _spi: u64) -> bool {
        false
    }
}

struct Freed(fn(bool, bool, bool) -> bool);
impl OrderRules for Freed {
    fn is_freed(&self, all_sound: bool, ids_differ: bool, without_responses: bool) -> bool {
        self.0(all_sound, ids_differ, without_responses)
    }
}

struct ResponsesAnywhere;
impl OrderRules for ResponsesAnywhere {
    fn counts(&self, asked: &Asked) -> bool {
        asked.request().is_some()
    }
}

struct SequenceByOperator;
impl OrderRules for SequenceByOperator {
    fn gives(&self, asked: &Asked, record: &IkeRecord) -> bool {
        asked.spi() == record.spi && asked.operator() == record.agreed.operator
    }
}

struct OtherOperatorSound;
impl OrderRules for OtherOperatorSound {
    fn judged_for(&self, _request: &Request, record: &IkeRecord) -> u8 {
        record.agreed.operator
    }
}

struct FreedAnswers;
impl OrderRules for FreedAnswers {
    fn breaks_freed(&self, same_tables: bool, same_answers: bool) -> bool {
        !same_tables || !same_answers
    }
}

struct LastUpdateWins;
impl OrderRules for LastUpdateWins {
    fn deciding<'a>(&self, updates: &[&'a Request]) -> Option<&'a Request> {
        updates.last().copied()
    }
}

struct FirstMarkIgnored;
impl OrderRules for FirstMarkIgnored {
    fn moves(&self, _id: u32, _first_mark: u64) -> bool {
        true
    }
}
