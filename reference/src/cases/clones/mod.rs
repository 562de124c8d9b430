// The cases of clones: tables as they may stand, and one request to clone an IKE SA.
mod listed;
pub(super) mod requests;

use super::requests::{arguments, starts};
use super::tables::lengths;
use crate::cases::seeded::{Kinded, Seeded};
use crate::cloning::CloneRequest;
use crate::rng::Rng;
use crate::tables::Tables;

#[derive(Debug, Clone)]
pub struct Case {
    pub tables: Tables,
    pub request: CloneRequest,
}

impl Kinded for Case {
    const KIND_WORD: u64 = 12;

    fn listed() -> Vec<Self> {
        listed::all()
    }

    fn random(rng: &mut Rng) -> Self {
        random(rng)
    }
}

pub type ClonesCases = Seeded<Case>;

fn random(rng: &mut Rng) -> Case {
    let mut tables = starts::tables(rng);
    let spi = arguments::spi(rng, &tables);
    if !rng.one_in(6) {
        requests::suit(rng, &mut tables, spi);
    }
    let request = requests::request(rng, &tables, spi);
    lengths::vary(rng, &mut tables);
    Case { tables, request }
}

#[cfg(test)]
mod tests {
    use super::*;
    use crate::agreed::Agreed;
    use crate::cases::seeded::met;
    use crate::cloning::clone;
    use crate::rules::Plain;
    use crate::tables::{find, IkeRecord, Record};
    use std::collections::BTreeMap;

    const NUMBERS: [u8; 17] = [0, 1, 2, 3, 4, 40, 61, 62, 63, 64, 65, 7, 44, 41, 42, 11, 43];

    fn number(Case { mut tables, request }: Case) -> u8 {
        clone(&request, &mut tables, &Plain).reply.number
    }

    #[test]
    fn random_cases_meet_every_answer_often() {
        met::assert_often(&NUMBERS, number);
    }

    #[test]
    fn listed_cases_meet_every_answer_often() {
        let mut met = BTreeMap::new();
        for case in listed::all() {
            *met.entry(number(case)).or_insert(0) += 1;
        }
        assert!(NUMBERS.iter().all(|number| met[number] > 20), "{met:?}");
        assert_eq!(met.len(), NUMBERS.len());
    }

    #[test]
    fn random_cases_are_often_about_the_peers_limit() {
        let met = met::answers(5_000, |case: Case| {
            let records = case.tables.ike.records;
            let place = find(&records, case.request.spi, &Plain)?;
            let Agreed { peer, operator, .. } = records[place].agreed;
            let is_its = |it: &&IkeRecord| {
                it.is_in_use() && (it.agreed.peer, it.agreed.operator) == (peer, operator)
            };
            let count = records.iter().filter(is_its).count();
            Some((count, number(case)))
        });
        for at in [(1, 0), (2, 0), (3, 0), (4, 42), (5, 42), (3, 11), (3, 41), (4, 41), (4, 44)] {
            assert!(met.get(&Some(at)).is_some_and(|&times| times > 10), "{at:?} {met:?}");
        }
    }
}
