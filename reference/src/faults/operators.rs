// Faults of the rules of two operators: wrong turns of what is asked of a program, so that they show that a run which
// breaks it is noticed.
use super::Row;
use crate::kind::Kind;
use crate::operator::View;
use crate::rules::{OperatorRules, Plain};
use crate::tables::{Record, Tables};

pub const FAULTS: &[Row<dyn OperatorRules>] = &[
    (
        Kind::Isolation,
        "places-seen",
        "An operator's records are compared by their places.",
        &Seen(|view, tables| {
            let ike = tables.ike.records.iter().filter(|it| view.ike.contains(it));
            view.ike = ike.copied().collect();
        }),
    ),
    (
        Kind::Isolation,
        "others-seen",
        "The other operator's IKE records are compared too.",
        &Seen(|view, tables| {
            let in_use = tables.ike.records.iter().filter(|it| it.is_in_use());
            view.ike = in_use.copied().collect();
            view.ike.sort_by_key(|it| it.spi);
        }),
    ),
    (
        Kind::Isolation,
        "10-not-excused",
        "The first difference may not be a 10.",
        &Excuses(|number, _| number != 10),
    ),
    (
        Kind::Isolation,
        "11-not-excused",
        "The first difference may not be an 11.",
        &Excuses(|number, _| number != 11),
    ),
    (
        Kind::Isolation,
        "full-41-not-excused",
        "The first difference may not be a full table's 41.",
        &Excuses(|number, is_full| number != 41 || !is_full),
    ),
    (
        Kind::Isolation,
        "excused-in-both",
        "Both runs must have a 10, an 11 or a full table's 41 at the first difference.",
        &ExcusedInBoth,
    ),
    (
        Kind::Isolation,
        "later-differences",
        "Each later difference must be such a number too.",
        &LaterDifferences,
    ),
    (
        Kind::Shares,
        "at-most-19",
        "An operator may have 19 IKE records.",
        &Within(|ikes, _| ikes <= 19),
    ),
    (
        Kind::Shares,
        "at-most-79",
        "An operator may have 79 IPsec records.",
        &Within(|_, ipsecs| ipsecs <= 79),
    ),
    (Kind::Shares, "at-least-13", "Refusals come only to one with 13 IKE records.", &LeastIke),
    (Kind::Shares, "at-least-49", "Refusals come only to one with 49 IPsec records.", &LeastIpsec),
    (Kind::Shares, "share-of-21", "43 comes only to one with 21 IKE records.", &IkeShare),
    (Kind::Shares, "share-of-81", "43 comes only to one with 81 IPsec records.", &IpsecShare),
    (
        Kind::Shares,
        "both-for-ike",
        "Opening both has 10 and 43 only for its IKE record.",
        &ForEither(|for_ike, _| for_ike),
    ),
    (
        Kind::Shares,
        "both-for-ipsec",
        "Opening both has 10 and 43 only for its IPsec record.",
        &ForEither(|_, for_ipsec| for_ipsec),
    ),
    (Kind::Shares, "only-full-41", "41 comes only where the table is full.", &OnlyFull41),
];

struct Seen(fn(&mut View, &Tables));
impl OperatorRules for Seen {
    fn seen(&self, tables: &Tables, operator: u8) -> View {
        let mut view = Plain.seen(tables, operator);
        self.0(&mut view, tables);
        view
    }
}

/// Of the numbers that are excused, only these.
struct Excuses(fn(u8, bool) -> bool);
impl OperatorRules for Excuses {
    fn excuses(&self, number: u8, is_full: bool) -> bool {
        self.0(number, is_full) && Plain.excuses(number, is_full)
    }
}

struct ExcusedInBoth;
impl OperatorRules for ExcusedInBoth {
    fn is_excused(&self, in_one: bool, in_other: bool) -> bool {
        in_one && in_other
    }
}

struct LaterDifferences;
impl OperatorRules for LaterDifferences {
    fn ends_at_difference(&self) -> bool {
        false
    }
}

struct Within(fn(usize, usize) -> bool);
impl OperatorRules for Within {
    fn is_within(&self, ikes: usize, ipsecs: usize) -> bool {
        self.0(ikes, ipsecs)
    }
}

struct LeastIke;
impl OperatorRules for LeastIke {
    fn least_ike(&self) -> usize {
        13
    }
}

struct LeastIpsec;
impl OperatorRules for LeastIpsec {
    fn least_ipsec(&self) -> usize {
        49
    }
}

struct IkeShare;
impl OperatorRules for IkeShare {
    fn ike_share(&self) -> usize {
        21
    }
}

struct IpsecShare;
impl OperatorRules for IpsecShare {
    fn ipsec_share(&self) -> usize {
        81
    }
}

struct ForEither(fn(bool, bool) -> bool);
impl OperatorRules for ForEither {
    fn for_either(&self, for_ike: bool, for_ipsec: bool) -> bool {
        self.0(for_ike, for_ipsec)
    }
}

struct OnlyFull41;
impl OperatorRules for OnlyFull41 {
    fn is_other_41(&self, _is_deleting: bool) -> bool {
        false
    }
}
