// The cases of isolation: two runs from empty tables, with one operator's same calls in the same order.
mod listed;

use super::runs::{self, Style};
use crate::any_call::AnyCall;
use crate::cases::seeded::{Kinded, Seeded};
use crate::rng::Rng;

#[derive(Debug, Clone)]
pub struct Case {
    pub runs: [Vec<AnyCall>; 2],
    /// Whose calls are the same in both.
    pub operator: u8,
}

impl Case {
    pub fn runs(&self) -> [&[AnyCall]; 2] {
        self.runs.each_ref().map(Vec::as_slice)
    }
}

impl Kinded for Case {
    const KIND_WORD: u64 = 13;

    fn listed() -> Vec<Self> {
        listed::all()
    }

    fn random(rng: &mut Rng) -> Self {
        random(rng)
    }
}

pub type IsolationCases = Seeded<Case>;

/// The other's calls are left out, stand elsewhere, or are others.
fn random(rng: &mut Rng) -> Case {
    let (style, operator) = (Style::any(rng), rng.below(2) as u8);
    let one = runs::run(rng, style);
    let own: Vec<AnyCall> = one.iter().filter(|it| it.operator() == operator).cloned().collect();
    let other = match rng.below(4) {
        0 => own,
        1 => runs::interleaved(rng, &one),
        _ => runs::with_others(rng, &own, operator, style),
    };
    Case { runs: [one, other], operator }
}

#[cfg(test)]
mod tests {
    use super::*;
    use crate::faults::Fault;
    use crate::isolation::{broken, first_difference};
    use crate::rules::{Plain, Rules};
    use std::collections::BTreeMap;

    const CASES: u64 = 1_000;

    fn cases() -> impl Iterator<Item = Case> {
        let listed = listed::all().into_iter();
        listed.chain((0..CASES).map(|number| random(&mut Rng::from_words(&[number]))))
    }

    fn broken_of(case: &Case, program: &impl Rules) -> Vec<String> {
        broken(case.runs(), case.operator, &Plain, |call, tables| call.make(tables, program))
    }

    #[test]
    fn isolation_holds_of_the_model() {
        for case in cases() {
            assert_eq!(broken_of(&case, &Plain), Vec::<String>::new(), "{case:?}");
        }
    }

    #[test]
    fn runs_first_differ_at_each_pair_of_numbers_and_at_no_other() {
        let mut met: BTreeMap<Option<(u8, u8)>, u64> = BTreeMap::new();
        for case in cases() {
            *met.entry(first_difference(case.runs(), case.operator)).or_insert(0) += 1;
        }
        let pairs = [(0, 10), (0, 11), (0, 41), (10, 11), (11, 41), (11, 43), (41, 42), (41, 43)];
        let expected: Vec<Option<(u8, u8)>> =
            [None].into_iter().chain(pairs.into_iter().map(Some)).collect();
        assert_eq!(met.keys().copied().collect::<Vec<_>>(), expected, "{met:?}");
        assert!(met[&None] > 200 && met[&Some((0, 11))] > 50, "{met:?}");
        assert!(met[&Some((0, 10))] > 50 && met[&Some((0, 41))] > 5, "{met:?}");
    }

    #[test]
    fn isolation_does_not_hold_of_faulty_programs() {
        let is_told = |name: &str| {
            let program = Fault::named(name).expect("a fault of the table").program;
            cases().any(|case| !broken_of(&case, &program).is_empty())
        };
        for name in [
            "found-whosever",
            "ike-share-of-both",
            "ipsec-share-of-both",
            "clone-peer-of-both",
            "policy-of-other",
            "policy-set-for-both",
            "closed-whosever",
        ] {
            assert!(is_told(name), "{name}");
        }
    }
}
