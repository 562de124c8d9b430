// Lengths of IPsec lists: 128 and those about it, and how often random tables have another one.
use crate::rng::Rng;
use crate::tables::Tables;

/// None, the least, those about 128, more, and one that is alike in its low octet.
pub const LISTED: [usize; 7] = [0, 1, 127, 128, 129, 300, 384];

/// Alike in the low 16 bits; long, so that few cases have it.
pub const LONGEST: usize = 65_664;

/// Gives about one in eight tables an IPsec list of another length than 128.
pub fn vary(rng: &mut Rng, tables: &mut Tables) {
    if rng.one_in(8) {
        let any = rng.below(400);
        let length = rng.pick(&[0, 1, 127, 129, 300, any, any]);
        *tables = tables.with_ipsec_length(length);
    }
}

#[cfg(test)]
mod tests {
    use crate::cases::seeded::{met, Kinded};
    use crate::cases::{checks, orders, requests, tables};
    use crate::tables::{Tables, IPSEC_PLACES};

    /// Asserts that about one in eight random cases has another length.
    fn assert_one_in_eight<C: Kinded>(tables: impl Fn(C) -> Tables) {
        let others = met::answers(2_000, |case| tables(case).ipsec.records.len() != IPSEC_PLACES);
        assert!((200..=300).contains(&others[&true]), "{others:?}");
    }

    #[test]
    fn one_in_eight_random_cases_has_another_length() {
        assert_one_in_eight(|case: tables::Case| case.tables);
        assert_one_in_eight(|case: requests::Case| case.tables);
        assert_one_in_eight(|case: checks::Case| case.tables);
        assert_one_in_eight(|case: orders::Case| case.tables);
    }
}
