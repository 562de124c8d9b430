// Chains without a flaw, of every kind of payload and every size.
use super::draft::{ChainDraft, Draft};
use super::{atoms, Case};
use crate::notify::NotifyType;
use crate::reader::MAX_BODY;
use crate::rng::Rng;

#[derive(Debug, Clone, Copy)]
enum Shape {
    Short,
    Medium,
    ManyAddresses,
    ManyBare,
}

const SHAPES: [(usize, Shape); 4] =
    [(80, Shape::Short), (15, Shape::Medium), (3, Shape::ManyAddresses), (2, Shape::ManyBare)];

pub fn chain(rng: &mut Rng) -> ChainDraft {
    let shape = rng.pick_weighted(&SHAPES);
    let count = match shape {
        Shape::Short => rng.below(6),
        Shape::Medium => rng.between(6, 40),
        Shape::ManyAddresses => rng.between(10, 60),
        Shape::ManyBare => rng.between(40, 1024),
    };
    let mut chain = ChainDraft::default();
    let mut left = MAX_BODY;
    for _ in 0..count {
        let payload = match shape {
            Shape::ManyAddresses if !rng.one_in(6) => atoms::address(rng),
            Shape::ManyBare if !rng.one_in(16) => bare_payload(rng),
            _ => sound_payload(rng),
        };
        if payload.size() <= left && fits(&chain, &payload) {
            left -= payload.size();
            chain.payloads.push(payload);
        }
    }
    chain
}

/// A chain grown to nearly the longest body, which it fills, misses or passes by an octet or so.
pub fn full_body(rng: &mut Rng) -> Case {
    let mut chain = chain(rng);
    let target = rng.between(MAX_BODY - 2, MAX_BODY + 2);
    let filling = target - chain.size().min(MAX_BODY - 8);
    let content = rng.octets(filling.saturating_sub(4));
    let filler = if rng.one_in(2) {
        Draft::payload(rng.pick(&[33, 43, 200]), 0, content)
    } else {
        let content = &content[content.len().min(4)..];
        Draft::notify(NotifyType::MOBIKE_SUPPORTED, content)
    };
    let place = rng.between(0, chain.payloads.len());
    chain.payloads.insert(place, filler);
    if rng.one_in(3) {
        chain.last_next = rng.pick(&[33, 41, 200]);
    }
    chain.assemble()
}

fn sound_payload(rng: &mut Rng) -> Draft {
    match rng.below(20) {
        0..=9 => {
            let notify_type = rng.pick(&NotifyType::KNOWN);
            atoms::known_notify(rng, notify_type)
        }
        10..=12 => atoms::address(rng),
        13..=15 => atoms::unknown_notify(rng),
        16 | 17 => atoms::skipped(rng),
        _ => atoms::unknown_payload(rng),
    }
}

/// A payload of 4 or 8 octets, of which a body holds hundreds.
fn bare_payload(rng: &mut Rng) -> Draft {
    match rng.below(3) {
        0 => Draft::notify(atoms::unknown_notify_type(rng), &[]),
        1 => Draft { content: vec![], ..atoms::skipped(rng) },
        _ => Draft { content: vec![], ..atoms::unknown_payload(rng) },
    }
}

/// Whether the payload neither repeats what may stand once only nor contradicts the chain.
fn fits(chain: &ChainDraft, payload: &Draft) -> bool {
    let addresses = [NotifyType::ADDITIONAL_IP4_ADDRESS, NotifyType::ADDITIONAL_IP6_ADDRESS];
    let none = NotifyType::NO_ADDITIONAL_ADDRESSES;
    let is_address = addresses.iter().any(|&address| payload.is_notify(address));
    let contradicts = (is_address && chain.has(none))
        || (payload.is_notify(none) && addresses.iter().any(|&address| chain.has(address)));
    let repeats = NotifyType::ONCE.iter().any(|&once| payload.is_notify(once) && chain.has(once));
    !repeats && !contradicts
}

#[cfg(test)]
mod tests {
    use super::*;
    use crate::reader::{read, Answer};
    use crate::rules::Plain;

    #[test]
    fn chains_have_no_flaw() {
        for number in 0..5_000 {
            let case = chain(&mut Rng::from_words(&[number])).assemble();
            let reading = read(case.first, &case.body, &Plain);
            assert_eq!(reading.answer, Answer::Read, "{case:?}");
        }
    }
}
