// Random lists of requests and check responses over few SPIs, so drawn that an SA's requests are often all sound.
use super::super::checks::responses;
use super::super::requests::{arguments, starts};
use crate::asked::Asked;
use crate::check::CheckResponse;
use crate::operator::other;
use crate::request::Request;
use crate::rng::Rng;
use crate::rules::{CheckRules, Plain};
use crate::tables::{find, Tables};

/// How the requests of one SPI are drawn.
#[derive(Debug, Clone, Copy)]
enum Drawing {
    /// All sound, no two IDs the same.
    Sound,
    /// All sound, with few IDs.
    EqualIds,
    /// All but some sound, no two IDs the same.
    SomeUnsound,
    /// All sound, no two IDs the same, with responses to the checks of their updates between them.
    Checked,
    Any,
}

const WEIGHTS: [(usize, Drawing); 5] = [
    (10, Drawing::Sound),
    (1, Drawing::EqualIds),
    (2, Drawing::SomeUnsound),
    (5, Drawing::Checked),
    (1, Drawing::Any),
];

const MOST_CALLS: usize = 10;
const MOST_SPIS: usize = 3;

/// So often is a request drawn that is to be sound, or not to be.
const TRIES: usize = 6;

struct Source {
    spi: u64,
    drawing: Drawing,
    /// Those yet to be given, about the marks of the record.
    ids: Vec<u32>,
    /// The IDs of the checks that its requests may begin.
    check_ids: Vec<u32>,
}

pub fn list(rng: &mut Rng, tables: &mut Tables) -> Vec<Asked> {
    let mut sources: Vec<Source> = Vec::new();
    for _ in 0..rng.between(1, MOST_SPIS) {
        let spi = arguments::spi(rng, tables);
        if sources.iter().all(|source| source.spi != spi) {
            sources.push(source(rng, tables, spi));
        }
    }
    let count = rng.between(2, MOST_CALLS);
    let mut list = Vec::with_capacity(count);
    let mut now = tables.clone();
    for _ in 0..count {
        let chosen = rng.below(sources.len());
        let asked = sources[chosen].call(rng, tables, &now);
        asked.make(&mut now, &Plain);
        list.push(asked);
    }
    list
}

fn source(rng: &mut Rng, tables: &mut Tables, spi: u64) -> Source {
    if !rng.one_in(16) {
        starts::agree(rng, tables, spi);
    }
    let place = find(&tables.ike.records, spi, &Plain);
    let marks = place.map_or([0; 2], |place| {
        let record = &tables.ike.records[place];
        [record.update_mark, record.list_mark]
    });
    let greatest_start = u64::from(u32::MAX) + 1 - MOST_CALLS as u64;
    let start = rng.pick(&marks).saturating_sub(4).min(greatest_start);
    let mut ids: Vec<u32> = (start..).take(MOST_CALLS).map(|id| id as u32).collect();
    rng.shuffle(&mut ids);
    Source { spi, drawing: rng.pick_weighted(&WEIGHTS), ids, check_ids: Vec::new() }
}

impl Source {
    /// Made after calls that left the tables as they are now; requests are drawn by those at first.
    fn call(&mut self, rng: &mut Rng, tables: &Tables, now: &Tables) -> Asked {
        let responds = match self.drawing {
            Drawing::Checked if self.has_check(now) => !rng.one_in(3),
            Drawing::Checked => rng.one_in(6),
            Drawing::Any => rng.one_in(4),
            _ => false,
        };
        if responds {
            return Asked::Check(self.response(rng, now));
        }
        let request = self.request(rng, tables);
        self.check_ids.push(request.check_id);
        Asked::Request(request)
    }

    fn has_check(&self, now: &Tables) -> bool {
        let place = find(&now.ike.records, self.spi, &Plain);
        place.is_some_and(|place| Plain.kept(&now.ike.records[place].check).is_some())
    }

    /// To the check that is pending by now, or to an earlier one.
    fn response(&self, rng: &mut Rng, now: &Tables) -> CheckResponse {
        if rng.one_in(8) {
            return responses::response(rng, now, self.spi);
        }
        let mut response = if rng.one_in(4) {
            responses::right_response(rng, now, self.spi)
        } else {
            responses::plain_response(rng, now, self.spi)
        };
        if !self.check_ids.is_empty() && rng.one_in(4) {
            response.id = rng.pick(&self.check_ids);
        }
        response
    }

    fn request(&mut self, rng: &mut Rng, tables: &Tables) -> Request {
        let new_id = self.ids.pop().expect("there is one for each request");
        let another_id = self.ids.first().copied().unwrap_or(new_id);
        let one_of_few = rng.pick(&[new_id, another_id]);
        match self.drawing {
            Drawing::Sound | Drawing::Checked => self.drawn(rng, tables, new_id, true),
            Drawing::EqualIds => self.drawn(rng, tables, one_of_few, true),
            Drawing::SomeUnsound => {
                let sound = !rng.one_in(3);
                self.drawn(rng, tables, new_id, sound)
            }
            Drawing::Any => arguments::request(rng, tables, self.spi),
        }
    }

    /// A request that is sound or isn't; where none comes up, one that asks for nothing.
    fn drawn(&self, rng: &mut Rng, tables: &Tables, id: u32, sound: bool) -> Request {
        for _ in 0..TRIES {
            let mut request = Request { id, ..arguments::plain_request(rng, tables, self.spi) };
            if !sound && rng.one_in(3) {
                request.operator = other(request.operator);
            }
            if request.is_sound(tables, &Plain) == sound {
                return request;
            }
        }
        let plain = arguments::plain_request(rng, tables, self.spi);
        Request { id, first: 0, body: vec![], ..plain }
    }
}
