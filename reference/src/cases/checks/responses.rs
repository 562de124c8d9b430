// Random responses to checks, drawn to suit the one that is pending in the record that their SPI means.
use super::super::assess::responses::{self, answering};
use super::super::operators;
use super::super::reader::draft::{ChainDraft, Draft};
use super::super::tables::pending;
use crate::check::CheckResponse;
use crate::notify::NotifyType;
use crate::rng::Rng;
use crate::rules::{CheckRules, Plain};
use crate::tables::{find, Tables};

/// Has a check pending in the record that the SPI means, if there is one.
pub fn begin(rng: &mut Rng, tables: &mut Tables, spi: u64) {
    if let Some(place) = find(&tables.ike.records, spi, &Plain) {
        tables.ike_mut()[place].check = pending::kept(rng);
    }
}

/// The cookie of the check that is pending, if there is any, and the ID of our request.
fn pending_in(tables: &Tables, spi: u64) -> (Vec<u8>, Option<u32>) {
    let place = find(&tables.ike.records, spi, &Plain);
    let check = place.map(|place| tables.ike.records[place].check);
    let sent = check.and_then(|check| Plain.kept(&check)).unwrap_or_default();
    (sent, check.map(|check| check.id))
}

/// Mostly to the request of ours that the record names, with any chain that may come.
pub fn response(rng: &mut Rng, tables: &Tables, spi: u64) -> CheckResponse {
    let (sent, kept) = pending_in(tables, spi);
    let other = pending::id(rng);
    let id = if rng.one_in(8) { other } else { kept.unwrap_or(other) };
    let case = responses::to(rng, sent);
    let operator = operators::drawn(rng, operators::of_ike(tables, spi));
    CheckResponse { spi, id, first: case.first, body: case.body, operator }
}

/// The same, to that request, and the chain has no flaw.
pub fn plain_response(rng: &mut Rng, tables: &Tables, spi: u64) -> CheckResponse {
    let (sent, kept) = pending_in(tables, spi);
    let chain = answering(rng, &sent).assemble();
    let id = kept.unwrap_or_else(|| pending::id(rng));
    let operator = operators::of_ike(tables, spi).unwrap_or_else(|| operators::one(rng));
    CheckResponse { spi, id, first: chain.first, body: chain.body, operator }
}

/// The same, with the cookie as it was sent and nothing else.
pub fn right_response(rng: &mut Rng, tables: &Tables, spi: u64) -> CheckResponse {
    let (sent, kept) = pending_in(tables, spi);
    let cookie = Draft::notify(NotifyType::COOKIE2, &sent);
    let chain = ChainDraft::of(if sent.is_empty() { vec![] } else { vec![cookie] }).assemble();
    let id = kept.unwrap_or_else(|| pending::id(rng));
    let operator = operators::of_ike(tables, spi).unwrap_or_else(|| operators::one(rng));
    CheckResponse { spi, id, first: chain.first, body: chain.body, operator }
}
