// The round trips every run begins with: the writer's asks, and chains written, changed or short.
use super::super::reader;
use super::super::reader::draft::{sequences, ChainDraft, Draft};
use super::super::writer::listed as asks;
use super::chains::{draft_of, written};
use super::changes::Change;
use super::Case;
use crate::asking::Arguments;
use crate::notify::NotifyType;
use crate::rng::Rng;
use crate::rules::Plain;
use crate::summary::MAX_KEPT;

/// How often each change is made, at changing places of changing requests.
const REQUESTS_PER_CHANGE: usize = 60;

pub fn all() -> Vec<Case> {
    let asks = asks::all();
    let accepted: Vec<_> = asks.iter().filter(|ask| ask.check(&Plain).is_ok()).collect();
    let chains = [
        accepted.iter().map(|ask| written(ask)).collect(),
        changed(&accepted),
        short_chains(),
        header_bits(),
        addresses(),
        reader::listed::all(),
    ];
    let chains = chains.concat().into_iter().map(Case::Chain);
    asks.iter().map(|ask| Case::Asked(Box::new(ask.clone()))).chain(chains).collect()
}

/// Each change of a written request.
fn changed(accepted: &[&Arguments]) -> Vec<reader::Case> {
    let mut cases = Vec::new();
    for (place, change) in Change::ALL.into_iter().enumerate() {
        for turn in 0..REQUESTS_PER_CHANGE {
            let mut rng = Rng::from_words(&[place as u64, turn as u64]);
            let mut draft = draft_of(&written(rng.pick(accepted)));
            change.apply(&mut rng, &mut draft);
            cases.push(draft.assemble());
        }
    }
    cases
}

/// A payload of each kind, with nothing in it that the writer wouldn't write.
fn kinds() -> Vec<Draft> {
    let sizes = [20, 20, 0, 4, 16, 0, 0, 8, 12];
    let notify = |(known, size): (NotifyType, usize)| Draft::notify(known, &vec![9; size]);
    let mut kinds: Vec<_> = NotifyType::KNOWN.into_iter().zip(sizes).map(notify).collect();
    kinds.push(Draft::notify(NotifyType(16403), &[]));
    kinds.extend(NotifyType::OF_CLONES.map(|it| Draft::notify(it, &[])));
    kinds.push(Draft::payload(33, 0, vec![]));
    kinds.push(Draft::payload(200, 0, vec![]));
    kinds
}

/// Every sequence of up to three payloads.
fn short_chains() -> Vec<reader::Case> {
    sequences(&kinds(), 3).into_iter().map(|chain| ChainDraft::of(chain).assemble()).collect()
}

/// A request of every kind of payload, in turn with each bit of the fields before the data changed.
fn header_bits() -> Vec<reader::Case> {
    let order = [6, 8, 0, 1, 3, 4, 7];
    let kinds = kinds();
    let draft = ChainDraft::of(order.iter().map(|&place| kinds[place].clone()).collect());
    let mut cases = with_header_bits(&draft);
    for of_clones in NotifyType::OF_CLONES {
        cases.extend(with_header_bits(&ChainDraft::of(vec![Draft::notify(of_clones, &[])])));
    }
    cases
}

/// The chain, in turn with each bit of these fields of each payload changed.
fn with_header_bits(draft: &ChainDraft) -> Vec<reader::Case> {
    let count = draft.payloads.len();
    let mut cases = vec![draft.assemble()];
    for (place, bit) in (0..count).flat_map(|place| (0..8).map(move |bit| (place, bit))) {
        let mut flag = draft.clone();
        flag.payloads[place].flags = 1 << bit;
        cases.push(flag.assemble());
        for field in 0..4 {
            let mut changed = draft.clone();
            changed.payloads[place].content[field] ^= 1 << bit;
            cases.push(changed.assemble());
        }
    }
    cases
}

/// Lists of up to more than are kept, of one family or both, with an update and a cookie or not.
fn addresses() -> Vec<reader::Case> {
    let kinds = kinds();
    let [ipv4, ipv6] = [&kinds[3], &kinds[4]];
    let mut cases = Vec::new();
    for count in 0..=MAX_KEPT + 3 {
        for families in [[ipv4, ipv4], [ipv6, ipv6], [ipv4, ipv6], [ipv6, ipv4]] {
            let list: Vec<_> = families.into_iter().cycle().take(count).cloned().collect();
            let around = [&[kinds[6].clone()], &list[..], &[kinds[7].clone()]].concat();
            cases.extend([list, around].map(|payloads| ChainDraft::of(payloads).assemble()));
        }
    }
    cases
}
