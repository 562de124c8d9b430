// The cases of redirects: data to read, something to write, and decisions, each on the record that the one before left.
mod drawn;
mod listed;
mod times;

use super::seeded::{Kinded, Seeded};
use crate::redirect::program::Given;
use crate::rng::Rng;

impl Kinded for Given {
    const KIND_WORD: u64 = 11;

    fn listed() -> Vec<Self> {
        listed::all()
    }

    fn random(rng: &mut Rng) -> Self {
        drawn::given(rng)
    }
}

pub type RedirectsCases = Seeded<Given>;

#[cfg(test)]
mod tests {
    use super::*;
    use crate::redirect::program::{broken, Model, Outcome};
    use crate::rules::Plain;
    use std::collections::BTreeMap;

    #[test]
    fn random_cases_meet_every_number_often() {
        let mut met = BTreeMap::new();
        for number in 0..3_000 {
            let given = Given::random(&mut Rng::from_words(&[number]));
            let outcome = Outcome::of(&Model(&Plain), &given);
            let read = outcome.read.iter().enumerate().map(|(at, read)| ("read", at, read.number));
            let written = outcome.written.iter().enumerate();
            let written = written.map(|(at, written)| ("written", at, written.number));
            let decided = outcome.decided.iter().map(|(it, _)| ("decided", 0, it.number));
            for answer in read.chain(written).chain(decided) {
                *met.entry(answer).or_insert(0) += 1;
            }
        }
        let mut expected = Vec::new();
        for at in 0..3 {
            expected.extend([("read", at, 0), ("read", at, 30)]);
            expected.extend([("written", at, 0), ("written", at, 2)]);
        }
        expected.extend([("written", 0, 30), ("written", 1, 30)]);
        expected.extend([0, 30, 31, 32, 33, 34].map(|number| ("decided", 0, number)));
        assert!(expected.iter().all(|answer| met.get(answer) > Some(&100)), "{met:?}");
        assert_eq!(met.len(), expected.len(), "{met:?}");
    }

    #[test]
    fn the_laws_hold_of_this_program() {
        let cases = RedirectsCases::new(1);
        let mut full = 0;
        for number in 0..12_000 {
            let given = cases.case(number);
            let outcome = Outcome::of(&Model(&Plain), &given);
            assert_eq!(broken(&Model(&Plain), &given, &outcome), Vec::<&str>::new(), "{given:?}");
            let accepted = outcome.decided.iter().filter(|(decided, _)| decided.number == 0);
            full += usize::from(accepted.count() >= 6);
        }
        assert!(full > 200, "{full}");
    }
}
