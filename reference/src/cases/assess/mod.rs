// The assess's cases: the cookie that was sent, and a response.
mod listed;
pub(super) mod responses;

use super::reader;
use crate::cases::seeded::{Kinded, Seeded};
use crate::rng::Rng;

#[derive(Debug, Clone, PartialEq, Eq)]
pub struct Case {
    /// Empty if none was sent.
    pub sent: Vec<u8>,
    pub first: u8,
    pub body: Vec<u8>,
}

impl Case {
    fn of(sent: Vec<u8>, response: reader::Case) -> Self {
        Case { sent, first: response.first, body: response.body }
    }
}

impl Kinded for Case {
    const KIND_WORD: u64 = 5;

    fn listed() -> Vec<Self> {
        listed::all()
    }

    fn random(rng: &mut Rng) -> Self {
        responses::random(rng)
    }
}

pub type AssessCases = Seeded<Case>;

#[cfg(test)]
mod tests {
    use super::*;
    use crate::assess::assess;
    use crate::cases::seeded::met;
    use crate::rules::Plain;

    #[test]
    fn random_cases_meet_every_answer_often() {
        let read = [3, 7, 61, 62, 63, 64, 65].map(|number| (number, 0));
        let outcomes = [(0, 2), (0, 3), (0, 4), (0, 5)];
        let without = [&read[..], &outcomes].concat();
        let with_sent = [&[(1, 0), (0, 1)], &without[..]].concat();
        let with_sent = with_sent.iter().map(|&(number, outcome)| (number, outcome, false));
        let without = without.iter().map(|&(number, outcome)| (number, outcome, true));
        met::assert_often(&with_sent.chain(without).collect::<Vec<_>>(), |case: Case| {
            let assessed = assess(&case.sent, case.first, &case.body, &Plain);
            (assessed.number, assessed.outcome, case.sent.is_empty())
        });
    }
}
