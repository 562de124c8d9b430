// The rules of what two operators that share the gateway may meet of each other: request E9 of document 02.
use crate::operator::View;
use crate::tables::Tables;

pub trait OperatorRules {
    /// "one's answers, octets and records (places aside)": the records, as they are compared.
    fn seen(&self, tables: &Tables, operator: u8) -> View {
        View::of(tables, operator)
    }

    /// "first differ at a 10, 11 or such a 41", which is "a full table's 41".
    fn excuses(&self, number: u8, is_full: bool) -> bool {
        matches!(number, 10 | 11) || (number == 41 && is_full)
    }

    /// The same: it is met in one of the two runs at least, and in the other one may be any other number.
    fn is_excused(&self, in_one: bool, in_other: bool) -> bool {
        in_one || in_other
    }

    /// "first differ": of what comes behind the first difference nothing is said.
    fn ends_at_difference(&self) -> bool {
        true
    }

    /// "each operator has at most 20 of the 32 and 80 of the 128 IPsec records".
    fn is_within(&self, ikes: usize, ipsecs: usize) -> bool {
        ikes <= 20 && ipsecs <= 80
    }

    /// "10, 43 and a full table's 41 come for an IKE record only to one with at least 12".
    fn least_ike(&self) -> usize {
        12
    }

    /// The same: "for an IPsec record 48".
    fn least_ipsec(&self) -> usize {
        48
    }

    /// "43 operator at its share", which is 20 IKE records.
    fn ike_share(&self) -> usize {
        20
    }

    /// The same: 80 IPsec records.
    fn ipsec_share(&self) -> usize {
        80
    }

    /// Opening both opens one of each, so that 10 and 43 may come for either.
    fn for_either(&self, for_ike: bool, for_ipsec: bool) -> bool {
        for_ike || for_ipsec
    }

    /// "a full table's 41": E8 has another one, of a record that is being deleted.
    fn is_other_41(&self, is_deleting: bool) -> bool {
        is_deleting
    }
}
