// The tables' cases: tables as they may stand, and calls, each made on what the one before left.
pub(super) mod agreements;
pub(super) mod lengths;
pub(super) mod listed;
pub(super) mod pairs;
pub(super) mod peers;
pub(super) mod pending;
pub(super) mod rules;
pub(super) mod scripts;
pub(super) mod shapes;
pub(super) mod spis;

use crate::calls::Call;
use crate::cases::seeded::{Kinded, Seeded};
use crate::rng::Rng;
use crate::tables::Tables;
use shapes::Shape;

#[derive(Debug, Clone)]
pub struct Case {
    pub tables: Tables,
    pub calls: Vec<Call>,
}

/// How often the tables of a random case are of each shape.
const WEIGHTS: [(usize, Shape); 5] = [
    (1, Shape::Empty),
    (3, Shape::Reached),
    (4, Shape::Full),
    (4, Shape::Dense),
    (4, Shape::Hostile),
];

impl Kinded for Case {
    const KIND_WORD: u64 = 2;

    fn listed() -> Vec<Self> {
        listed::all()
    }

    fn random(rng: &mut Rng) -> Self {
        random(rng)
    }
}

pub type TablesCases = Seeded<Case>;

fn random(rng: &mut Rng) -> Case {
    let shape = rng.pick_weighted(&WEIGHTS);
    let mut tables = shape.tables(rng);
    lengths::vary(rng, &mut tables);
    let calls = scripts::calls(rng, &tables);
    Case { tables, calls }
}

#[cfg(test)]
mod tests {
    use super::*;
    use crate::agreed::Agreed;
    use crate::opening_both::{failing, Check};
    use crate::pending::PendingCheck;
    use crate::rules::{CheckRules, Plain, TableRules};
    use crate::shares::Held;
    use crate::tables::{find, IkeRecord, IpsecRecord, Record};
    use std::collections::BTreeSet;

    fn random_cases(count: u64) -> impl Iterator<Item = Case> {
        (0..count).map(|number| random(&mut Rng::from_words(&[number])))
    }

    /// What a call does, and which numbers it may give back.
    fn numbers(call: &Call) -> (&'static str, &'static [u8]) {
        match call {
            Call::OpenBoth(_) => ("open both", &[0, 1, 10, 11, 43]),
            Call::OpenIpsec(_) => ("open IPsec", &[0, 1, 4, 10, 11, 43]),
            Call::CloseIke { .. } => ("close IKE", &[0, 1, 4]),
            Call::CloseIpsec { .. } => ("close IPsec", &[0, 1, 4]),
            Call::MarkDeletion { .. } => ("mark deletion", &[0, 1, 4]),
            Call::SetPolicy { .. } => ("set policy", &[0, 1, 12]),
            Call::Acceptable { .. } => ("acceptable", &[0, 1]),
        }
    }

    #[test]
    fn random_cases_meet_every_number_of_every_call() {
        let (mut met, mut octets) = (BTreeSet::new(), BTreeSet::new());
        for Case { mut tables, calls } in random_cases(2_000) {
            for call in &calls {
                let given_back = call.make(&mut tables, &Plain);
                let (name, allowed) = numbers(call);
                assert!(allowed.contains(&given_back), "{name} gives back {given_back}");
                met.insert((name, given_back));
                if let Call::OpenBoth(opening) = call {
                    let Agreed { mobike, cloning, .. } = opening.agreed;
                    octets.insert((mobike.min(2), cloning.min(2), given_back));
                }
            }
        }
        assert_eq!(met.len(), 5 + 6 + 3 + 3 + 3 + 3 + 2);
        let of_each_two = 5; // each of which is 0, 1 or another
        assert_eq!(octets.len(), 3 * 3 * of_each_two);
    }

    /// The checks that fail of each call of these cases that opens both.
    fn failing_sets(cases: impl IntoIterator<Item = Case>) -> Vec<Vec<Check>> {
        let mut met = Vec::new();
        for Case { mut tables, calls } in cases {
            for call in calls {
                if let Call::OpenBoth(opening) = &call {
                    met.push(failing(&tables, opening, &Plain));
                }
                call.make(&mut tables, &Plain);
            }
        }
        met
    }

    #[test]
    fn listed_cases_meet_every_set_of_failing_checks() {
        let mut sets = failing_sets(listed::all());
        let of_each_record = 3 * 3; // its SPI is 0, in use, or neither
        sets.sort_by_key(|set| set.iter().map(|&check| 1_u32 << check as u32).sum::<u32>());
        sets.dedup();
        // The pair, the list, and each table full or not; and each share reached or not, but by no operator.
        let (by_one, by_none) = (2_usize.pow(6), 2_usize.pow(4));
        assert_eq!(sets.len(), of_each_record * (by_one + by_none));
    }

    #[test]
    fn random_cases_open_both_or_fail_by_any_one_check() {
        let sets = failing_sets(random_cases(5_000));
        let times = |set: &[Check]| sets.iter().filter(|it| *it == set).count();
        assert!(times(&[]) > 400, "{}", times(&[]));
        for &check in Plain.order_of_opening_both() {
            assert!(times(&[check]) > 40, "{check:?}: {}", times(&[check]));
        }
    }

    /// No SPI twice, nothing left in free places, no orphan, checks as a request leaves them, and 0 or 1 for yes or no.
    fn assert_reached(tables: &Tables) {
        let (ike, ipsec) = (&tables.ike.records, &tables.ipsec.records);
        for (place, record) in ike.iter().enumerate() {
            if record.is_in_use() {
                assert_eq!(find(ike, record.spi, &Plain), Some(place));
                let sent = Plain.kept(&record.check);
                let left = sent.map(|sent| PendingCheck::of(&sent, record.check.id));
                assert_eq!(record.check, left.unwrap_or(PendingCheck::NONE));
                let Agreed { mobike, cloning, operator, .. } = record.agreed;
                assert!(mobike.max(cloning).max(operator).max(record.deleting) <= 1);
            } else {
                assert_eq!(*record, IkeRecord::FREE);
            }
        }
        for (place, record) in ipsec.iter().enumerate() {
            if record.is_in_use() {
                assert_eq!(find(ipsec, record.spi(), &Plain), Some(place));
                assert!(find(ike, record.owner, &Plain).is_some(), "no orphan");
            } else {
                assert_eq!(*record, IpsecRecord::FREE);
            }
        }
    }

    /// Whether an operator is at its share, of IKE records and of IPsec records.
    fn assert_within_shares(tables: &Tables) -> [bool; 2] {
        let of = |operator| Held::of(tables, operator);
        let held = [of(0), of(1)];
        assert!(held.iter().all(|it| it.ikes <= 20 && it.ipsecs <= 80), "{held:?}");
        [held.iter().any(|it| it.ikes == 20), held.iter().any(|it| it.ipsecs == 80)]
    }

    #[test]
    fn calls_leave_reached_tables_reached() {
        let mut at_shares = [0; 2];
        for number in 0..1_000 {
            let mut rng = Rng::from_words(&[number]);
            let shape = rng.pick(&[Shape::Empty, Shape::Reached, Shape::Full]);
            let mut tables = shape.tables(&mut rng);
            assert_reached(&tables);
            let at = assert_within_shares(&tables);
            at_shares.iter_mut().zip(at).for_each(|(count, at)| *count += u32::from(at));
            for call in scripts::calls(&mut rng, &tables) {
                call.make(&mut tables, &Plain);
                assert_reached(&tables);
                assert_within_shares(&tables);
            }
        }
        assert!(at_shares.iter().all(|&count| count > 50), "{at_shares:?}");
    }
}
