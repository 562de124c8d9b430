// The cases of shares: a run from empty tables, by which an operator may come to its share or the tables become full.
mod listed;

use super::runs::{self, Style};
use crate::any_call::AnyCall;
use crate::cases::seeded::{Kinded, Seeded};
use crate::rng::Rng;

#[derive(Debug, Clone)]
pub struct Case {
    pub calls: Vec<AnyCall>,
}

impl Kinded for Case {
    const KIND_WORD: u64 = 14;

    fn listed() -> Vec<Self> {
        listed::all()
    }

    fn random(rng: &mut Rng) -> Self {
        random(rng)
    }
}

pub type SharesCases = Seeded<Case>;

fn random(rng: &mut Rng) -> Case {
    let style = rng.pick_weighted(&[
        (1, Style::Short),
        (4, Style::ManyIke),
        (2, Style::Clones),
        (1, Style::ManyIpsec),
    ]);
    Case { calls: runs::run(rng, style) }
}

#[cfg(test)]
mod tests {
    use super::*;
    use crate::calls::Call;
    use crate::faults::Fault;
    use crate::rules::{Plain, Rules};
    use crate::shares::{broken, Held};
    use crate::tables::Tables;
    use std::collections::BTreeMap;

    const CASES: u64 = 1_000;

    fn cases() -> impl Iterator<Item = Case> {
        let listed = listed::all().into_iter();
        listed.chain((0..CASES).map(|number| random(&mut Rng::from_words(&[number]))))
    }

    fn broken_of(case: &Case, program: &impl Rules) -> Vec<String> {
        broken(&case.calls, &Plain, |call, tables| call.make(tables, program))
    }

    #[test]
    fn shares_hold_of_the_model() {
        for case in cases() {
            assert_eq!(broken_of(&case, &Plain), Vec::<String>::new(), "{case:?}");
        }
    }

    #[test]
    fn shares_do_not_hold_of_faulty_programs() {
        let is_told = |name: &str| {
            let program = Fault::named(name).expect("a fault of the table").program;
            cases().any(|case| !broken_of(&case, &program).is_empty())
        };
        for name in [
            "ike-share-21",
            "ike-share-19",
            "ipsec-share-81",
            "ipsec-share-79",
            "ike-share-of-both",
            "ipsec-share-of-both",
            "clone-without-share",
        ] {
            assert!(is_told(name), "{name}");
        }
    }

    /// How often each refusal comes to each sort of call, and how few records its operator had at least.
    #[test]
    fn refusals_come_to_those_with_as_few_as_may_be() {
        let mut met: BTreeMap<(&str, u8), (u64, usize, usize)> = BTreeMap::new();
        for Case { calls } in cases() {
            let mut tables = Tables::empty();
            for call in &calls {
                let held = Held::of(&tables, call.operator());
                let number = call.make(&mut tables, &Plain).number();
                let sort = match call {
                    AnyCall::Table(Call::OpenBoth(_)) => "both",
                    AnyCall::Table(Call::OpenIpsec(_)) => "add",
                    AnyCall::Clone(_) => "clone",
                    _ => "other",
                };
                let times = met.entry((sort, number)).or_insert((0, usize::MAX, usize::MAX));
                let (ikes, ipsecs) = (times.1.min(held.ikes), times.2.min(held.ipsecs));
                *times = (times.0 + 1, ikes, ipsecs);
            }
        }
        for often in [("both", 10), ("both", 43), ("add", 10), ("add", 43), ("clone", 41)] {
            assert!(met[&often].0 > 20, "{often:?} {met:?}");
        }
        assert!(met[&("clone", 43)].0 > 20 && met[&("clone", 42)].0 > 20, "{met:?}");
        assert_eq!((met[&("add", 10)].2, met[&("add", 43)].2), (48, 80));
        assert_eq!(met[&("clone", 43)].1, 20);
        assert_eq!(met[&("clone", 41)].1, 1);
        assert_eq!(met[&("both", 43)].1, 1);
    }
}
