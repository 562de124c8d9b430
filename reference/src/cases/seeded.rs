// The cases of one kind and one seed: first the listed ones, then random ones without end.
use crate::rng::Rng;

/// What a case of some kind can be.
pub trait Kinded: Clone {
    /// Tells the random cases of this kind from those of others.
    const KIND_WORD: u64;

    /// The cases that are written down one by one.
    fn listed() -> Vec<Self>;

    fn random(rng: &mut Rng) -> Self;
}

#[derive(Debug)]
pub struct Seeded<C> {
    seed: u64,
    listed: Vec<C>,
}

impl<C: Kinded> Seeded<C> {
    pub fn new(seed: u64) -> Self {
        Seeded { seed, listed: C::listed() }
    }

    pub fn case(&self, number: u64) -> C {
        match usize::try_from(number).ok().and_then(|place| self.listed.get(place)) {
            Some(case) => case.clone(),
            None => C::random(&mut Rng::from_words(&[self.seed, number, C::KIND_WORD])),
        }
    }
}

/// What the tests of each kind's random cases have in common.
#[cfg(test)]
pub mod met {
    use super::{Kinded, Rng};
    use std::collections::BTreeMap;
    use std::fmt::Debug;

    /// How often so many random cases get each answer.
    pub fn answers<C: Kinded, A: Ord>(cases: u64, answer: impl Fn(C) -> A) -> BTreeMap<A, u64> {
        let mut met = BTreeMap::new();
        for number in 0..cases {
            let case = C::random(&mut Rng::from_words(&[number]));
            *met.entry(answer(case)).or_insert(0) += 1;
        }
        met
    }

    /// Asserts that random cases get these answers only, and each of them often.
    pub fn assert_often<C: Kinded, A: Ord + Debug>(expected: &[A], answer: impl Fn(C) -> A) {
        let met = answers(5_000, answer);
        let is_often = |answer| met.get(answer).is_some_and(|&times| times > 20);
        assert!(expected.iter().all(is_often), "{met:?}");
        assert_eq!(met.len(), expected.len());
    }
}

#[cfg(test)]
mod tests {
    use super::Kinded;
    use crate::asking::Arguments;
    use crate::cases::{clones, entries, reader, requests, round_trips, tables, traces};

    #[test]
    fn there_are_as_many_listed_cases_as_the_readme_says() {
        fn listed<C: Kinded>() -> usize {
            C::listed().len()
        }
        let counts = [
            ("reader", listed::<reader::Case>(), 5_000),
            ("tables", listed::<tables::Case>(), 13_000),
            ("requests", listed::<requests::Case>(), 20_000),
            ("clones", listed::<clones::Case>(), 14_000),
            ("writer", listed::<Arguments>(), 7_000),
            ("round-trips", listed::<round_trips::Case>(), 18_000),
            ("traces", listed::<traces::Case>(), 7_000),
            ("entries", listed::<entries::Case>(), 10_000),
        ];
        for (kind, count, told) in counts {
            println!("{kind}: {count}");
            assert!(count > told, "{kind}: {count}");
        }
    }
}
