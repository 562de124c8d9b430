// Cases of single entries: slots to write one of, sound or not, with an output to write it to, and octets
// with a place in them to read one at.
mod buffers;
mod changes;
mod lending;
mod listed;

use super::seeded::{Kinded, Seeded};
use super::traces::any_fields;
use crate::rng::Rng;
use crate::rules::Plain;
use crate::trace::codec::{Buffer, Codec, Lent, Outcome};
use crate::trace::writing::entry_octets;

#[derive(Debug, Clone, PartialEq, Eq)]
pub struct Case {
    pub lent: Lent,
    /// What the output holds before the call.
    pub output: Vec<u8>,
    pub buffer: Buffer,
}

impl Kinded for Case {
    const KIND_WORD: u64 = 9;

    fn listed() -> Vec<Self> {
        listed::all()
    }

    fn random(rng: &mut Rng) -> Self {
        let mut entry = any_fields::entry(rng);
        for _ in 0..rng.pick(&[0, 0, 0, 1, 2]) {
            changes::enlarge(rng, &mut entry);
        }
        let mut lent = lending::drawn(rng, &entry);
        match rng.below(16) {
            0 => lent.kind = rng.between(9, 255) as u8,
            1 => lent.kind = rng.below(9) as u8,
            2 => lent = lending::any(rng),
            3..=5 => lending::misplace(rng, &entry, &mut lent),
            _ => {}
        }
        let length = lent.length();
        let about = [0, length.saturating_sub(1), length, length, length + 1, length + 20, 17_000];
        let length = rng.pick(&about);
        let output = rng.octets(length);
        let buffer = buffers::drawn(rng, &entry);
        Case { lent, output, buffer }
    }
}

impl Lent {
    /// How many octets the entry takes, though it may not fit; 0 if there is no such kind.
    fn length(&self) -> usize {
        self.meant(&Plain).map_or(0, |meant| entry_octets(&meant.entry).len())
    }
}

pub type EntriesCases = Seeded<Case>;

impl Case {
    pub fn outcome(&self, codec: &impl Codec) -> Outcome {
        Outcome::of(codec, &self.lent, &self.output, &self.buffer)
    }
}

#[cfg(test)]
mod tests {
    use super::super::seeded::met;
    use super::*;
    use crate::trace::codec::Model;

    #[test]
    fn random_entries_meet_every_answer_often() {
        let answer = |case: Case| {
            let Outcome { written, told, .. } = case.outcome(&Model(&Plain));
            (written.number, told.number)
        };
        let all = [0, 2, 21, 22].map(|written| [0, 20, 21, 22].map(|read| (written, read)));
        met::assert_often(&all.concat(), answer);
    }
}
