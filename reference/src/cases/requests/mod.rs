// The request handler's cases: tables as they may stand, and one request made on them.
pub(super) mod arguments;
mod chains;
pub(super) mod listed;
pub(super) mod starts;

use super::tables::lengths;
use crate::cases::seeded::{Kinded, Seeded};
use crate::request::Request;
use crate::rng::Rng;
use crate::tables::Tables;

#[derive(Debug, Clone)]
pub struct Case {
    pub tables: Tables,
    pub request: Request,
}

impl Kinded for Case {
    const KIND_WORD: u64 = 3;

    fn listed() -> Vec<Self> {
        listed::all()
    }

    fn random(rng: &mut Rng) -> Self {
        random(rng)
    }
}

pub type RequestsCases = Seeded<Case>;

fn random(rng: &mut Rng) -> Case {
    let mut tables = starts::tables(rng);
    let spi = arguments::spi(rng, &tables);
    if rng.one_in(2) {
        starts::agree(rng, &mut tables, spi);
    }
    let request = arguments::request(rng, &tables, spi);
    lengths::vary(rng, &mut tables);
    Case { tables, request }
}

#[cfg(test)]
mod tests {
    use super::*;
    use crate::cases::seeded::met;
    use crate::handler::handle;
    use crate::rules::Plain;
    use crate::tables::find;

    #[test]
    fn random_cases_meet_every_answer_often() {
        let done = (0..3).flat_map(|update| (0..3).map(move |list| (0, update, list)));
        let numbers = (1..=5).chain(61..=65).chain(7..=9);
        let refused = numbers.map(|number| (number, 0, 0));
        let answers: Vec<_> = done.chain(refused).collect();
        met::assert_often(&answers, |Case { mut tables, request }| {
            let reply = handle(&request, &mut tables, &Plain).reply;
            (reply.number, reply.update, reply.list)
        });
    }

    #[test]
    fn random_cases_are_done_often_whatever_octet_says_yes() {
        let met = met::answers(5_000, |Case { mut tables, request }| {
            let place = find(&tables.ike.records, request.spi, &Plain);
            let octet = place.map(|place| tables.ike.records[place].agreed.mobike.min(2));
            let reply = handle(&request, &mut tables, &Plain).reply;
            (octet, reply.number, reply.update)
        });
        for octet in [1, 2] {
            let told = [(0, 0), (0, 1), (0, 2), (8, 0), (9, 0)];
            let often = |(number, update)| met[&(Some(octet), number, update)] > 20;
            assert!(told.into_iter().all(often), "{met:?}");
        }
    }

    #[test]
    fn random_cases_get_nat_values_often_with_each_effect() {
        let done = (0..3).flat_map(|update| [false, true].map(|values| Some((update, values))));
        let answers: Vec<_> = done.chain([None]).collect();
        met::assert_often(&answers, |Case { mut tables, request }| {
            let handled = handle(&request, &mut tables, &Plain);
            let values = handled.response().get(6..8) == Some(&[0x40, 4]);
            (handled.reply.number == 0).then_some((handled.reply.update, values))
        });
    }
}
