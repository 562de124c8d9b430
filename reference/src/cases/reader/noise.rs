// Random bodies: octets from small alphabets or from all, and strings of tokens.
use super::Case;
use crate::reader::MAX_BODY;
use crate::rng::Rng;

const FIRST_TYPES: [u8; 8] = [41, 41, 41, 41, 33, 48, 200, 0];

const ALPHABETS: [&[u8]; 5] = [
    &[0, 4],
    &[0, 4, 8, 41],
    &[0, 4, 8, 33, 41, 0x40, 0x80],
    &[0, 4, 8, 12, 16, 28, 41, 0x40, 0x0c, 0x0d, 0x0e, 0x0f, 0x10, 0x11, 0x12],
    &[0, 1, 2, 3, 4, 5, 6, 7, 8, 200],
];

/// Headers, notify fields and stretches of data, so that structure occurs by chance.
const TOKENS: [&[u8]; 26] = [
    &[41, 0, 0, 8],
    &[41, 0, 0, 12],
    &[41, 0, 0, 16],
    &[41, 0, 0, 24],
    &[41, 0, 0, 28],
    &[0, 0, 0, 8],
    &[0, 0, 0, 12],
    &[41, 0, 0, 4],
    &[33, 0, 0, 4],
    &[41, 0x80, 0, 4],
    &[200, 0, 0, 8],
    &[41, 0x80, 0, 8],
    &[0, 0, 0x40, 0x04],
    &[0, 0, 0x40, 0x05],
    &[0, 0, 0x40, 0x0c],
    &[0, 0, 0x40, 0x0d],
    &[0, 0, 0x40, 0x0e],
    &[0, 0, 0x40, 0x0f],
    &[0, 0, 0x40, 0x10],
    &[0, 0, 0x40, 0x11],
    &[0, 0, 0x40, 0x12],
    &[1, 4, 0x40, 0x11],
    &[3, 4, 0, 7],
    &[10, 0, 0, 1],
    &[1, 2, 3, 4, 5, 6, 7, 8],
    &[0; 16],
];

pub fn tokens(rng: &mut Rng) -> Case {
    let count = rng.below(14);
    let mut body: Vec<u8> = (0..count).flat_map(|_| rng.pick(&TOKENS)).copied().collect();
    if rng.one_in(10) {
        body.push(rng.octet());
    }
    Case { first: rng.pick(&FIRST_TYPES), body }
}

pub fn octets(rng: &mut Rng) -> Case {
    let length = match rng.below(20) {
        0 => rng.below(MAX_BODY + 200),
        1..=4 => rng.below(200),
        _ => rng.below(24),
    };
    let body = if rng.one_in(4) {
        rng.octets(length)
    } else {
        let alphabet = rng.pick(&ALPHABETS);
        (0..length).map(|_| rng.pick(alphabet)).collect()
    };
    let first = if rng.one_in(4) { rng.octet() } else { rng.pick(&FIRST_TYPES) };
    Case { first, body }
}
