// Random redirects: data near that of each type, writings near the bounds, and runs of decisions with times that are
// close to each other or to those in the record.
use crate::redirect::data::Writing;
use crate::redirect::decision::{exchange, Redirect, Redirects, MOST_TIMES};
use crate::redirect::program::Given;
use crate::rng::Rng;

const MOST_DECISIONS: usize = 14;

pub fn given(rng: &mut Rng) -> Given {
    let data = data(rng);
    let writing = writing(rng);
    let fresh = rng.one_in(2);
    let record = if fresh { Redirects::FRESH } else { record(rng) };
    let mut time = if fresh { start(rng) } else { rng.pick(&record.times) };
    let often = rng.one_in(2);
    let count = rng.between(1, MOST_DECISIONS);
    let redirects = (0..count).map(|_| {
        time = later(rng, time, often);
        redirect(rng, time, often)
    });
    let redirects = redirects.collect();
    Given { data, writing, record, redirects }
}

/// A type, and a length that it mostly has.
fn identity(rng: &mut Rng) -> (u8, usize) {
    let any = rng.octet();
    let identity_type = rng.pick_weighted(&[(4, 1), (4, 2), (4, 3), (1, 0), (1, 4), (1, any)]);
    let own = match identity_type {
        1 => 4,
        2 => 16,
        _ => rng.between(1, 255),
    };
    let other = rng.pick(&[0, 1, 3, 4, 5, 15, 16, 17, 254, 255]);
    (identity_type, rng.pick_weighted(&[(6, own), (1, other)]))
}

fn nonce_length(rng: &mut Rng) -> usize {
    let allowed = rng.between(16, 256);
    let any = rng.below(300);
    rng.pick_weighted(&[
        (3, 0),
        (3, 16),
        (3, allowed),
        (1, 256),
        (1, 1),
        (1, 15),
        (1, 257),
        (1, any),
    ])
}

fn data(rng: &mut Rng) -> Vec<u8> {
    if rng.one_in(8) {
        let length = rng.pick(&[0, 0, 0, 1, 2, 3, 30]);
        return rng.octets(length);
    }
    let (identity_type, length) = identity(rng);
    let behind = if rng.one_in(2) { 0 } else { nonce_length(rng) };
    let there = match rng.below(8) {
        0 => rng.below(length + 1),
        _ => length + behind,
    };
    [vec![identity_type, length as u8], rng.octets(there)].concat()
}

fn writing(rng: &mut Rng) -> Writing {
    let (identity_type, length) = identity(rng);
    let alike = length + 256;
    let length = rng.pick_weighted(&[(30, length), (1, alike), (1, 256)]);
    let nonce = nonce_length(rng);
    let any = rng.below(700);
    let room = rng.pick_weighted(&[(6, 513), (3, 600), (1, 512), (1, any)]);
    let (identity, nonce) = (rng.octets(length), rng.octets(nonce));
    Writing { identity_type, identity, nonce, output: rng.octets(room) }
}

fn start(rng: &mut Rng) -> u64 {
    let any = rng.next_u64();
    rng.pick(&[0, 1, 300, 1 << 32, any, u64::MAX - 400])
}

/// Any record: mostly of times that are near each other, with any count.
fn record(rng: &mut Rng) -> Redirects {
    let mut time = start(rng);
    let mut times = [0; MOST_TIMES];
    for kept in &mut times {
        time = later(rng, time, true);
        *kept = if rng.one_in(12) { rng.next_u64() } else { time };
    }
    if rng.one_in(6) {
        rng.shuffle(&mut times);
    }
    let any = rng.octet();
    Redirects { count: rng.pick(&[5, 5, 5, 4, 3, 1, 0, 6, any]), times }
}

/// Mostly a little later, or by about 300 seconds; now and then earlier.
fn later(rng: &mut Rng, time: u64, often: bool) -> u64 {
    let little = rng.below(if often { 40 } else { 120 }) as u64;
    match rng.below(12) {
        0 => time.saturating_sub(1 + little),
        1 => time.saturating_add(rng.between(297, 303) as u64),
        2 | 3 => time,
        _ => time.saturating_add(little),
    }
}

/// Mostly one that nothing but the times can refuse.
fn redirect(rng: &mut Rng, time: u64, often: bool) -> Redirect {
    let length = rng.pick_weighted(&[(12, 16), (6, 256), (2, 32), (1, 15), (1, 257), (1, 0)]);
    let sent = rng.octets(length);
    if often && !rng.one_in(4) {
        let data = [vec![1, 4], rng.octets(4)].concat();
        return Redirect { exchange: exchange::INFORMATIONAL, sent, time, data };
    }
    let any = rng.octet();
    let at = rng.pick_weighted(&[(8, 0), (2, 1), (1, 2), (2, 3), (3, 4), (1, 5), (1, any)]);
    let nonce = if at == exchange::SA_INIT { nonce(rng, &sent) } else { outside(rng, &sent) };
    let mut data = match rng.below(8) {
        0 => data(rng),
        1 | 2 => [vec![2, 16], rng.octets(16)].concat(),
        3 => [vec![3, 9], rng.octets(9)].concat(),
        _ => [vec![1, 4], rng.octets(4)].concat(),
    };
    data.extend(nonce);
    Redirect { exchange: at, sent, time, data }
}

/// Mostly the one sent; else changed, cut, longer, or missing.
fn nonce(rng: &mut Rng, sent: &[u8]) -> Vec<u8> {
    let mut nonce = sent.to_vec();
    match rng.below(12) {
        0 => nonce.clear(),
        1 => nonce.truncate(rng.below(sent.len() + 1)),
        2 => nonce.push(rng.octet()),
        3 if !nonce.is_empty() => nonce[rng.below(sent.len())] ^= 1 << rng.below(8),
        _ => {}
    }
    nonce
}

/// Mostly none.
fn outside(rng: &mut Rng, sent: &[u8]) -> Vec<u8> {
    match rng.below(6) {
        0 => sent.to_vec(),
        1 => vec![rng.octet()],
        _ => vec![],
    }
}
