// Single flaws, each put into a chain at a random place: one kind for every way to be refused.
use super::atoms;
use super::draft::{ChainDraft, Draft};
use crate::notify::NotifyType;
use crate::rng::Rng;
use crate::rules::{ChainRules, Plain};

#[derive(Debug, Clone, Copy, PartialEq, Eq)]
pub enum Damage {
    HeaderCut,
    LengthUnder4,
    LengthPastEnd,
    NotifyUnder8,
    SpiPastLength,
    Leftover,
    EarlyEnd,
    DataSize(NotifyType),
    Spi(NotifyType),
    Repetition(NotifyType),
    Contradiction,
    UnknownCritical,
}

impl Damage {
    /// Every kind, those of single notify types for each of these.
    pub fn all() -> Vec<Damage> {
        Self::by_number().concat()
    }

    /// Those that alone give 61 to 65 and 7.
    fn by_number() -> [Vec<Damage>; 6] {
        let sized =
            NotifyType::KNOWN.iter().filter(|&&known| known != NotifyType::MOBIKE_SUPPORTED);
        [
            vec![Damage::HeaderCut, Damage::LengthUnder4, Damage::LengthPastEnd],
            [
                &[Damage::NotifyUnder8, Damage::SpiPastLength],
                &NotifyType::KNOWN.map(Damage::Spi)[..],
            ]
            .concat(),
            sized.map(|&known| Damage::DataSize(known)).collect(),
            [&[Damage::Contradiction], &NotifyType::ONCE.map(Damage::Repetition)[..]].concat(),
            vec![Damage::Leftover, Damage::EarlyEnd],
            vec![Damage::UnknownCritical],
        ]
    }

    /// Each number as often as another.
    pub fn any(rng: &mut Rng) -> Damage {
        let number = rng.below(6);
        rng.pick(&Self::by_number()[number])
    }

    pub fn apply(self, rng: &mut Rng, chain: &mut ChainDraft) {
        match self {
            Damage::HeaderCut => cut_header(rng, chain),
            Damage::LengthUnder4 | Damage::LengthPastEnd => self.tell_wrong_length(rng, chain),
            Damage::Leftover => chain.tail = some_octets(rng),
            Damage::EarlyEnd => end_early(rng, chain),
            Damage::NotifyUnder8 => {
                let size = rng.below(4);
                let content = rng.octets(size);
                insert(rng, chain, Draft::payload(41, 0, content));
            }
            Damage::SpiPastLength => {
                let draft = notify_with_long_spi(rng);
                insert(rng, chain, draft);
            }
            Damage::DataSize(notify_type) => {
                chain.remove(notify_type);
                let data = wrong_data(rng, notify_type);
                insert(rng, chain, Draft::notify(notify_type, &data));
            }
            Damage::Spi(notify_type) => {
                chain.remove(notify_type);
                let draft = notify_with_forbidden_spi(rng, notify_type);
                insert(rng, chain, draft);
            }
            Damage::Repetition(notify_type) => repeat(rng, chain, notify_type),
            Damage::Contradiction => contradict(rng, chain),
            Damage::UnknownCritical => {
                let mut draft = atoms::unknown_payload(rng);
                draft.flags |= 0x80;
                insert(rng, chain, draft);
            }
        }
    }

    /// Tells a wrong length in the header of a payload that is there, or of a new one.
    fn tell_wrong_length(self, rng: &mut Rng, chain: &mut ChainDraft) {
        if chain.payloads.is_empty() || rng.one_in(3) {
            let mut draft = atoms::unknown_payload(rng);
            draft.flags |= rng.pick(&[0, 0x80]);
            insert(rng, chain, draft);
        }
        let place = rng.below(chain.payloads.len());
        let real = ChainDraft { payloads: chain.payloads[place..].to_vec(), ..chain.clone() };
        let told = match self {
            Damage::LengthUnder4 => rng.below(4),
            _ => rng.pick(&[real.size() + 1, real.size() + 256, 4097, 32768, 65535]),
        };
        chain.payloads[place].told_length = Some(told.min(65535) as u16);
    }
}

/// Puts the payload at any place.
pub fn insert(rng: &mut Rng, chain: &mut ChainDraft, draft: Draft) {
    let place = rng.between(0, chain.payloads.len());
    chain.payloads.insert(place, draft);
}

/// Announces a payload for which under 4 octets are left.
fn cut_header(rng: &mut Rng, chain: &mut ChainDraft) {
    chain.last_next = rng.pick(&[33, 41, 41, 1, 49, 200, 255]);
    let left = rng.below(4);
    chain.tail = rng.octets(left);
}

/// Says in the midst of the chain that no payload follows.
fn end_early(rng: &mut Rng, chain: &mut ChainDraft) {
    let draft = atoms::skipped(rng);
    insert(rng, chain, draft);
    let place = rng.below(chain.payloads.len());
    chain.payloads[place].told_next = Some(0);
}

fn some_octets(rng: &mut Rng) -> Vec<u8> {
    let count = rng.pick(&[1, 2, 3, 4, 8, 20]);
    if rng.one_in(3) {
        vec![0; count]
    } else {
        rng.octets(count)
    }
}

fn any_notify_type(rng: &mut Rng) -> NotifyType {
    if rng.one_in(2) {
        rng.pick(&NotifyType::KNOWN)
    } else {
        atoms::unknown_notify_type(rng)
    }
}

fn notify_with_long_spi(rng: &mut Rng) -> Draft {
    let notify_type = any_notify_type(rng);
    let size = rng.pick(&[0, 1, 4, 8, 20, 254]);
    let rest = rng.octets(size);
    let spi_size = if rng.one_in(2) { size + 1 } else { rng.between(size + 1, 255) };
    Draft::notify_with_spi(notify_type, spi_size as u8, &rest)
}

/// Data next to an allowed size, of an allowed size of another type, or of any.
fn wrong_data(rng: &mut Rng, notify_type: NotifyType) -> Vec<u8> {
    let allowed = rng.pick(atoms::allowed_sizes(notify_type));
    let mut size = rng.pick(&[allowed + 1, allowed.saturating_sub(1), 0, 4, 7, 16, 20, 65, 300]);
    if Plain.allows_data(notify_type, size) {
        size = 67;
    }
    rng.octets(size)
}

/// An SPI before allowed data, or as a part of as many octets as the data may be.
fn notify_with_forbidden_spi(rng: &mut Rng, notify_type: NotifyType) -> Draft {
    let data = atoms::allowed_data(rng, notify_type);
    if !data.is_empty() && rng.one_in(3) {
        let spi_size = rng.between(1, data.len().min(255));
        return Draft::notify_with_spi(notify_type, spi_size as u8, &data);
    }
    let spi_size = if rng.one_in(2) { rng.pick(&[1, 4, 8]) } else { rng.between(1, 255) };
    let rest = [rng.octets(spi_size), data].concat();
    Draft::notify_with_spi(notify_type, spi_size as u8, &rest)
}

fn repeat(rng: &mut Rng, chain: &mut ChainDraft, notify_type: NotifyType) {
    loop {
        let already = chain.has(notify_type);
        let draft = atoms::known_notify(rng, notify_type);
        insert(rng, chain, draft);
        if already {
            return;
        }
    }
}

/// NO_ADDITIONAL_ADDRESSES and one to three ADDITIONAL addresses, in any order.
fn contradict(rng: &mut Rng, chain: &mut ChainDraft) {
    chain.remove(NotifyType::NO_ADDITIONAL_ADDRESSES);
    insert(rng, chain, Draft::notify(NotifyType::NO_ADDITIONAL_ADDRESSES, &[]));
    for _ in 0..rng.between(1, 3) {
        let draft = atoms::address(rng);
        insert(rng, chain, draft);
    }
}
