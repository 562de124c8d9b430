// Small changes to a finished chain: of octets, length fields, types and its extent.
use super::{atoms, Case};
use crate::chain;
use crate::rng::Rng;

#[derive(Debug, Clone, Copy)]
enum Change {
    Octet,
    Bit,
    LengthField,
    NextType,
    NotifyField,
    FirstType,
    Truncate,
    Insert,
    Delete,
}

const WEIGHTS: [(usize, Change); 9] = [
    (4, Change::Octet),
    (4, Change::Bit),
    (5, Change::LengthField),
    (5, Change::NextType),
    (5, Change::NotifyField),
    (1, Change::FirstType),
    (2, Change::Truncate),
    (2, Change::Insert),
    (2, Change::Delete),
];

pub fn mutate(rng: &mut Rng, case: &mut Case) {
    for _ in 0..rng.pick(&[1, 1, 1, 2, 3]) {
        let change = rng.pick_weighted(&WEIGHTS);
        apply(rng, change, case);
    }
}

fn apply(rng: &mut Rng, change: Change, case: &mut Case) {
    match change {
        Change::FirstType => case.first = some_type(rng),
        Change::Insert => insert_octets(rng, &mut case.body),
        _ if case.body.is_empty() => {}
        Change::Octet => {
            let place = rng.below(case.body.len());
            case.body[place] = rng.octet();
        }
        Change::Bit => {
            let place = rng.below(case.body.len());
            case.body[place] ^= 1 << rng.below(8);
        }
        Change::Truncate => case.body.truncate(rng.below(case.body.len())),
        Change::Delete => {
            let start = rng.below(case.body.len());
            let end = case.body.len().min(start + rng.between(1, 12));
            case.body.drain(start..end);
        }
        Change::LengthField | Change::NextType | Change::NotifyField => {
            change_payload(rng, change, case);
        }
    }
}

/// Changes a field of one of the payloads that the chain still has.
fn change_payload(rng: &mut Rng, change: Change, case: &mut Case) {
    let offsets: Vec<usize> = chain::split(case.first, &case.body)
        .payloads
        .iter()
        .map(|payload| payload.offset)
        .collect();
    if offsets.is_empty() {
        return;
    }
    let offset = rng.pick(&offsets);
    match change {
        Change::LengthField => {
            let told = &mut case.body[offset + 2..offset + 4];
            let length = u16::from_be_bytes([told[0], told[1]]);
            told.copy_from_slice(&changed_length(rng, length).to_be_bytes());
        }
        Change::NextType => case.body[offset] = some_type(rng),
        _ => {
            if let Some(field) = case.body.get_mut(offset + 5..offset + 8) {
                change_notify_field(rng, field);
            }
        }
    }
}

fn changed_length(rng: &mut Rng, length: u16) -> u16 {
    match rng.below(4) {
        0 => length.wrapping_add(rng.pick(&[1, 2, 3, 4, 8, 12, 20, 256])),
        1 => length.wrapping_sub(rng.pick(&[1, 2, 3, 4, 8, 12, 20, 256])),
        2 => rng.pick(&[0, 1, 3, 4, 5, 7, 8, 9, 28, 65535]),
        _ => length.swap_bytes(),
    }
}

/// Changes the SPI size or the notify type.
fn change_notify_field(rng: &mut Rng, field: &mut [u8]) {
    if rng.one_in(3) {
        field[0] = rng.pick(&[0, 1, 4, 8, 255]);
    } else {
        let notify_type = if rng.one_in(3) {
            atoms::unknown_notify_type(rng).0
        } else {
            rng.between(16386, 16404) as u16
        };
        field[1..].copy_from_slice(&notify_type.to_be_bytes());
    }
}

fn some_type(rng: &mut Rng) -> u8 {
    match rng.below(4) {
        0 => rng.octet(),
        1 => atoms::unknown_type(rng),
        2 => 41,
        _ => rng.pick(&[0, 33, 40, 42, 48]),
    }
}

fn insert_octets(rng: &mut Rng, body: &mut Vec<u8>) {
    let place = rng.between(0, body.len());
    let count = rng.between(1, 8);
    let octets = rng.octets(count);
    body.splice(place..place, octets);
}
