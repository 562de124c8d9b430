// The reader's cases: payload chains, first the listed ones, then random ones.
pub(super) mod atoms;
pub(super) mod damage;
pub(super) mod draft;
pub(super) mod listed;
pub(super) mod mutation;
mod noise;
mod told;
pub(super) mod well_formed;

use crate::cases::seeded::{Kinded, Seeded};
use crate::rng::Rng;
use damage::Damage;

/// A payload chain as it is given to the reader.
#[derive(Debug, Clone, PartialEq, Eq)]
pub struct Case {
    pub first: u8,
    pub body: Vec<u8>,
}

/// How a case past the listed ones is made.
#[derive(Debug, Clone, Copy)]
enum Making {
    WellFormed,
    FullBody,
    OneFlaw,
    SeveralFlaws,
    Mutation,
    Tokens,
    Noise,
}

const WEIGHTS: [(usize, Making); 7] = [
    (20, Making::WellFormed),
    (2, Making::FullBody),
    (26, Making::OneFlaw),
    (12, Making::SeveralFlaws),
    (24, Making::Mutation),
    (10, Making::Tokens),
    (6, Making::Noise),
];

impl Kinded for Case {
    const KIND_WORD: u64 = 1;

    fn listed() -> Vec<Self> {
        listed::all()
    }

    fn random(rng: &mut Rng) -> Self {
        random(rng)
    }
}

pub type ReaderCases = Seeded<Case>;

pub(super) fn random(rng: &mut Rng) -> Case {
    match rng.pick_weighted(&WEIGHTS) {
        Making::WellFormed => well_formed::chain(rng).assemble(),
        Making::FullBody => well_formed::full_body(rng),
        Making::OneFlaw => damaged(rng, 1),
        Making::SeveralFlaws => {
            let count = rng.between(2, 4);
            damaged(rng, count)
        }
        Making::Mutation => {
            let mut case = well_formed::chain(rng).assemble();
            mutation::mutate(rng, &mut case);
            case
        }
        Making::Tokens => noise::tokens(rng),
        Making::Noise => noise::octets(rng),
    }
}

fn damaged(rng: &mut Rng, flaws: usize) -> Case {
    let mut chain = well_formed::chain(rng);
    for _ in 0..flaws {
        Damage::any(rng).apply(rng, &mut chain);
    }
    chain.assemble()
}

#[cfg(test)]
mod tests {
    use super::*;
    use crate::cases::seeded::met;
    use crate::reader::read;
    use crate::rules::Plain;

    #[test]
    fn random_cases_meet_every_answer_often() {
        met::assert_often(&[0, 3, 7, 61, 62, 63, 64, 65], |Case { first, body }| {
            read(first, &body, &Plain).answer.number(&Plain)
        });
    }
}
