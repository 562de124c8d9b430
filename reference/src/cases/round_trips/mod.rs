// The cases of round trips: requests to write and then read, and chains to read and then write.
mod chains;
mod changes;
mod listed;

use super::reader;
use super::writer::asks;
use crate::asking::Arguments;
use crate::cases::seeded::{Kinded, Seeded};
use crate::plain::{plainly_read, plainly_read_as_clone};
use crate::rng::Rng;
use crate::round_trips::{
    expected, is_clone_written_again, is_written_again, written_and_read, Program,
};
use crate::rules::Rules;

#[derive(Debug, Clone)]
pub enum Case {
    Asked(Box<Arguments>),
    Chain(reader::Case),
}

impl Case {
    /// Whether the program reads what was asked for, or writes again exactly what is plainly read, a clone too.
    pub fn holds_of(&self, program: &impl Program, rules: &impl Rules) -> bool {
        match self {
            Case::Asked(arguments) => {
                written_and_read(program, arguments) == expected(arguments, rules)
            }
            Case::Chain(reader::Case { first, body }) => {
                is_written_again(program, *first, body) == plainly_read(*first, body, rules)
                    && is_clone_written_again(program, *first, body)
                        == plainly_read_as_clone(*first, body, rules)
            }
        }
    }
}

impl Kinded for Case {
    const KIND_WORD: u64 = 7;

    fn listed() -> Vec<Self> {
        listed::all()
    }

    fn random(rng: &mut Rng) -> Self {
        match rng.below(24) {
            0 => Case::Asked(Box::new(asks::random(rng))),
            1..=4 => Case::Asked(Box::new(asks::sound(rng))),
            _ => Case::Chain(chains::random(rng)),
        }
    }
}

pub type RoundTripsCases = Seeded<Case>;

#[cfg(test)]
mod tests {
    use super::*;
    use crate::cases::seeded::met;
    use crate::reader::{read, Answer};
    use crate::round_trips::Model;
    use crate::rules::Plain;
    use std::collections::BTreeMap;

    /// What a case is about, and what comes of it.
    #[derive(Debug, PartialEq, Eq, PartialOrd, Ord)]
    enum Sort {
        Written,
        NotWritten,
        PlainlyRead,
        Read,
        NotRead,
    }

    fn sort(case: Case) -> Sort {
        match case {
            Case::Asked(arguments) => match expected(&arguments, &Plain) {
                Some(_) => Sort::Written,
                None => Sort::NotWritten,
            },
            Case::Chain(reader::Case { first, body }) => {
                let answer = read(first, &body, &Plain).answer;
                match answer {
                    Answer::Read if plainly_read(first, &body, &Plain) => Sort::PlainlyRead,
                    Answer::Read => Sort::Read,
                    _ => Sort::NotRead,
                }
            }
        }
    }

    #[test]
    fn random_chains_are_often_plainly_read_and_often_just_read() {
        let cases = 2_000;
        let met = met::answers(cases, sort);
        assert!(met[&Sort::PlainlyRead] > cases / 5, "{met:?}");
        assert!(met[&Sort::Read] > cases / 5, "{met:?}");
        assert!(met[&Sort::Written] > cases / 8, "{met:?}");
        assert!(met[&Sort::NotRead] > cases / 20, "{met:?}");
    }

    #[test]
    fn listed_cases_are_of_every_sort() {
        let mut met = BTreeMap::new();
        for case in listed::all() {
            *met.entry(sort(case)).or_insert(0) += 1;
        }
        assert!(met.len() == 5 && met.values().all(|&times| times > 1_000), "{met:?}");
    }

    #[test]
    fn round_trips_hold_of_the_model() {
        let random = (0..20_000).map(|number| Case::random(&mut Rng::from_words(&[number])));
        for case in listed::all().into_iter().chain(random) {
            assert!(case.holds_of(&Model(&Plain), &Plain), "{case:?}");
        }
    }
}
