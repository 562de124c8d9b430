// The request writer's cases: what is asked for, the values lent, and an output.
pub(super) mod asks;
pub(super) mod listed;

use crate::asking::Arguments;
use crate::cases::seeded::{Kinded, Seeded};
use crate::rng::Rng;

impl Kinded for Arguments {
    const KIND_WORD: u64 = 6;

    fn listed() -> Vec<Self> {
        listed::all()
    }

    fn random(rng: &mut Rng) -> Self {
        asks::random(rng)
    }
}

pub type WriterCases = Seeded<Arguments>;

#[cfg(test)]
mod tests {
    use super::*;
    use crate::cases::seeded::met;
    use crate::rules::Plain;
    use crate::writer::write;

    fn number(arguments: &Arguments) -> u8 {
        write(arguments, &Plain).number
    }

    #[test]
    fn random_cases_meet_every_answer_to_every_sort_of_ask_often() {
        let sorts = [(false, 0), (false, 1), (false, 2), (true, 0), (true, 1), (true, 2)];
        let answers = [0, 1, 2].map(|number| sorts.map(|(kinds, list)| (number, kinds, list)));
        met::assert_often(&answers.concat(), |case: Arguments| {
            let ask = case.ask;
            let list = if ask.count > 0 { 2 } else { u8::from(ask.no_additional) };
            (number(&case), ask.nat_source || ask.nat_destination, list)
        });
    }

    #[test]
    fn random_cases_are_often_written_and_often_refused() {
        let met = met::answers(2_000, |case: Arguments| number(&case));
        assert!(met[&0] > 800 && met[&1] > 400 && met[&2] > 200, "{met:?}");
    }

    #[test]
    fn sound_asks_are_written() {
        for number in 0..2_000 {
            let arguments = asks::sound(&mut Rng::from_words(&[number]));
            assert_eq!(arguments.check(&Plain), Ok(()), "{arguments:?}");
        }
    }

    #[test]
    fn listed_cases_are_often_written_and_often_refused() {
        let numbers: Vec<u8> = listed::all().iter().map(number).collect();
        let times = [0, 1, 2].map(|number| numbers.iter().filter(|&&it| it == number).count());
        assert!(times.iter().all(|&times| times > 250), "{times:?}");
    }
}
