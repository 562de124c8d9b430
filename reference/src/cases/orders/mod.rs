// The cases of demand 3: tables, a list of requests and check responses made on them, and an order left to chance.
mod listed;
mod sequences;

use super::requests::starts;
use super::tables::lengths;
use crate::asked::Asked;
use crate::cases::seeded::{Kinded, Seeded};
use crate::orders::Order;
use crate::rng::Rng;
use crate::tables::Tables;

#[derive(Debug, Clone)]
pub struct Case {
    pub tables: Tables,
    pub list: Vec<Asked>,
    /// Of which the orders to compare are made.
    pub chance: Order,
}

/// How often a policy is made to accept all pairs, so that requests are sound.
const OPEN: [(usize, bool); 2] = [(2, true), (1, false)];

impl Kinded for Case {
    const KIND_WORD: u64 = 4;

    fn listed() -> Vec<Self> {
        listed::all()
    }

    fn random(rng: &mut Rng) -> Self {
        random(rng)
    }
}

pub type OrdersCases = Seeded<Case>;

fn random(rng: &mut Rng) -> Case {
    let mut tables = starts::tables(rng);
    if rng.pick_weighted(&OPEN) {
        tables.policies.iter_mut().for_each(starts::open);
    }
    let list = sequences::list(rng, &mut tables);
    lengths::vary(rng, &mut tables);
    let mut chance: Order = (0..list.len()).collect();
    rng.shuffle(&mut chance);
    Case { tables, list, chance }
}

#[cfg(test)]
mod tests {
    use super::*;
    use crate::asked::Given;
    use crate::faults::Fault;
    use crate::orders::{self, Orders};
    use crate::rules::{Plain, Rules};

    const CASES: u64 = 2_000;

    fn cases() -> impl Iterator<Item = Case> {
        let listed = listed::all().into_iter();
        listed.chain((0..CASES).map(|number| random(&mut Rng::from_words(&[number]))))
    }

    /// What of demand 3 isn't so of a program with this fault.
    fn broken(Case { tables, list, chance }: Case, of_program: &impl Rules) -> Vec<String> {
        orders::broken(&tables, &list, &chance, &Plain, |asked, tables| {
            asked.make(tables, of_program)
        })
    }

    #[test]
    fn demand_3_holds_of_the_model() {
        for case in cases() {
            assert_eq!(broken(case, &Plain), Vec::<String>::new());
        }
    }

    #[test]
    fn demand_3_does_not_hold_of_faulty_programs() {
        let told = |name, start: &str| {
            let program = Fault::named(name).expect("a fault of the table").program;
            let mut broken = cases().flat_map(|case| broken(case, &program));
            broken.any(|broken| broken.starts_with(start))
        };
        assert!(told("rest-cleared", "kept order: call"));
        assert!(told("others-moved", "kept order: the tables"));
        assert!(told("list-appended", "freed order: the tables"));
        assert!(told("none-is-id-0", "freed order: SA"));
        assert!(told("keepalive-moves", "freed order: SA"));
    }

    #[test]
    fn check_responses_of_random_lists_move_records_and_close_them() {
        let (mut accepted, mut closed, mut refused) = (0, 0, 0);
        for number in 0..CASES {
            let Case { mut tables, list, .. } = random(&mut Rng::from_words(&[number]));
            for asked in &list {
                if let Given::Assessed(assessed) = asked.make(&mut tables, &Plain) {
                    accepted += usize::from(assessed.outcome == 5);
                    closed += usize::from(assessed.outcome == 1);
                    refused += usize::from(assessed.number != 0);
                }
            }
        }
        assert!(accepted > 100 && closed > 100 && refused > 100, "{accepted} {closed} {refused}");
    }

    #[test]
    fn orders_really_differ_and_sas_are_really_freed() {
        let (mut kept_differ, mut freed_differ, mut moved_when_freed) = (0, 0, 0);
        for Case { tables, list, chance } in cases() {
            let orders = Orders::new(&tables, &list, &chance, &Plain);
            let sequence: Order = (0..list.len()).collect();
            kept_differ += u64::from(orders.kept != sequence);
            let differ = orders.freed != orders.kept;
            freed_differ += u64::from(differ);
            let mut ended = tables.clone();
            let applies = |it: &Asked| it.make(&mut ended, &Plain).is_applied();
            let applied =
                list.iter().filter(|it| orders.freed_spis.contains(&it.spi())).map(applies);
            moved_when_freed += u64::from(differ && applied.filter(|&it| it).count() >= 2);
        }
        assert!(kept_differ > CASES / 2, "{kept_differ}");
        assert!(freed_differ > CASES / 3, "{freed_differ}");
        assert!(moved_when_freed > CASES / 5, "{moved_when_freed}");
    }
}
