// The cases of return routability checks: tables as they may stand, and one response to a check of ours.
mod listed;
pub(super) mod responses;

use super::requests::{arguments, starts};
use super::tables::lengths;
use crate::cases::seeded::{Kinded, Seeded};
use crate::check::CheckResponse;
use crate::rng::Rng;
use crate::tables::Tables;

#[derive(Debug, Clone)]
pub struct Case {
    pub tables: Tables,
    pub response: CheckResponse,
}

impl Kinded for Case {
    const KIND_WORD: u64 = 10;

    fn listed() -> Vec<Self> {
        listed::all()
    }

    fn random(rng: &mut Rng) -> Self {
        random(rng)
    }
}

pub type ChecksCases = Seeded<Case>;

fn random(rng: &mut Rng) -> Case {
    let mut tables = starts::tables(rng);
    let spi = arguments::spi(rng, &tables);
    if !rng.one_in(8) {
        starts::agree(rng, &mut tables, spi);
    }
    if rng.one_in(2) {
        responses::begin(rng, &mut tables, spi);
    }
    let response = responses::response(rng, &tables, spi);
    lengths::vary(rng, &mut tables);
    Case { tables, response }
}

#[cfg(test)]
mod tests {
    use super::*;
    use crate::cases::seeded::met;
    use crate::check::decide;
    use crate::rules::Plain;

    #[test]
    fn random_cases_meet_every_answer_often() {
        let refused = [1, 3, 4, 5, 14, 61, 62, 63, 64, 65, 7].map(|number| (number, 0));
        let read = [1, 2, 3, 4, 5].map(|outcome| (0, outcome));
        met::assert_often(&[&refused[..], &read].concat(), |Case { mut tables, response }| {
            let assessed = decide(&response, &mut tables, &Plain);
            (assessed.number, assessed.outcome)
        });
    }
}
