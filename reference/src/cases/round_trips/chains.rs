// Random chains for round trips: written requests, the same with changes, and the reader's.
use super::super::reader::draft::{ChainDraft, Draft};
use super::super::reader::{self, mutation};
use super::super::writer::asks;
use super::changes::Change;
use crate::asking::Arguments;
use crate::chain::{self, HEADER_LENGTH};
use crate::notifications::first_type;
use crate::rng::Rng;
use crate::rules::Plain;
use crate::writer;

pub fn random(rng: &mut Rng) -> reader::Case {
    match rng.below(16) {
        0..=4 => written(&asks::sound(rng)),
        5..=10 => changed(rng, 1),
        11 | 12 => changed(rng, 2),
        13 => {
            let mut chain = written(&asks::sound(rng));
            mutation::mutate(rng, &mut chain);
            chain
        }
        _ => reader::random(rng),
    }
}

/// What the writer writes if nothing is refused.
pub fn written(arguments: &Arguments) -> reader::Case {
    let body = writer::chain(arguments, &Plain);
    reader::Case { first: first_type(&body), body }
}

/// A chain without a flaw, to be changed.
pub fn draft_of(chain: &reader::Case) -> ChainDraft {
    let payloads = chain::split(chain.first, &chain.body).payloads;
    let drafts = payloads.iter().map(|payload| {
        let content = payload.octets[HEADER_LENGTH..].to_vec();
        Draft::payload(payload.payload_type, payload.flags, content)
    });
    ChainDraft::of(drafts.collect())
}

fn changed(rng: &mut Rng, changes: usize) -> reader::Case {
    let mut draft = draft_of(&written(&asks::sound(rng)));
    for _ in 0..changes {
        rng.pick(&Change::ALL).apply(rng, &mut draft);
    }
    draft.assemble()
}
