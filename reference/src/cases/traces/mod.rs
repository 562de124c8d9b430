// The replay's cases: traces, those that a gateway might leave, any others that are read, and others.
pub(super) mod any_fields;
pub(super) mod damage;
pub mod examples;
pub(crate) mod listed;
mod nights;
mod piecewise;
mod windows;

use super::seeded::{Kinded, Seeded};
use crate::rng::Rng;
use crate::rules::Rules;
use crate::trace::entry::Entry;
use crate::trace::pieces::Pieces;
use crate::trace::replay::replay_in_pieces;
use crate::trace::writing::{entry_octets, trace_octets};

#[derive(Debug, Clone, PartialEq, Eq)]
pub struct Case {
    pub trace: Vec<u8>,
    /// How it comes in.
    pub pieces: Pieces,
}

impl Case {
    pub fn at_once(trace: Vec<u8>) -> Self {
        Case { trace, pieces: Pieces::at_once() }
    }

    /// All that this program prints for it.
    pub fn printed(&self, rules: &impl Rules) -> Vec<u8> {
        replay_in_pieces(&self.trace, &self.pieces, rules)
    }
}

/// How a trace past the listed ones is made.
#[derive(Debug, Clone, Copy)]
enum Making {
    Night,
    AnyFields,
    Mixed,
    Reformed,
    Mutated,
    Cut,
    Noise,
}

const WEIGHTS: [(usize, Making); 7] = [
    (10, Making::Night),
    (6, Making::AnyFields),
    (4, Making::Mixed),
    (8, Making::Reformed),
    (6, Making::Mutated),
    (4, Making::Cut),
    (1, Making::Noise),
];

impl Kinded for Case {
    const KIND_WORD: u64 = 8;

    fn listed() -> Vec<Self> {
        listed::all()
    }

    fn random(rng: &mut Rng) -> Self {
        let size = rng.pick_weighted(&[(8, 0), (8, 200), (8, 1_000), (4, 5_000), (1, 30_000)]);
        let trace = made(rng, size);
        let pieces = piecewise::drawn(rng, trace.len());
        Case { trace, pieces }
    }
}

pub type TracesCases = Seeded<Case>;

/// A trace of about so many octets, damaged or not as the seed says; fewer if it is cut or noise.
pub fn case(seed: u64, size: usize) -> Vec<u8> {
    made(&mut of_seed(seed, size), size)
}

/// A trace of at least so many octets that is read to its end, as a gateway might leave it.
pub fn night(seed: u64, size: usize) -> Vec<u8> {
    trace_octets(&nights::entries(&mut of_seed(seed, size), size))
}

fn of_seed(seed: u64, size: usize) -> Rng {
    Rng::from_words(&[seed, size as u64, Case::KIND_WORD])
}

pub(super) fn made(rng: &mut Rng, size: usize) -> Vec<u8> {
    let making = rng.pick_weighted(&WEIGHTS);
    let entries = match making {
        Making::Noise => return noise(rng, size),
        Making::AnyFields => any_entries(rng, size),
        Making::Mixed => mixed(rng, size),
        _ => nights::entries(rng, size),
    };
    if let Making::Reformed = making {
        return damage::reform(rng, &entries);
    }
    let mut octets = trace_octets(&entries);
    match making {
        Making::Mutated => damage::mutate(rng, &mut octets),
        Making::Cut => octets.truncate(rng.below(octets.len())),
        _ => {}
    }
    octets
}

fn any_entries(rng: &mut Rng, size: usize) -> Vec<Entry> {
    let mut entries = vec![any_fields::entry(rng)];
    let mut octets = entry_octets(&entries[0]).len();
    while octets < size {
        let entry = any_fields::entry(rng);
        octets += entry_octets(&entry).len();
        entries.push(entry);
    }
    entries
}

/// Those of a night with entries of any fields between them.
fn mixed(rng: &mut Rng, size: usize) -> Vec<Entry> {
    let mut entries = nights::entries(rng, size);
    for _ in 0..1 + entries.len() / 8 {
        let place = rng.between(0, entries.len());
        entries.insert(place, any_fields::entry(rng));
    }
    entries
}

/// Octets that are mostly small, so that the first few may be an entry.
fn noise(rng: &mut Rng, size: usize) -> Vec<u8> {
    let mut octets = rng.octets(size.min(200));
    octets.iter_mut().for_each(|octet| *octet >>= rng.pick(&[0, 1, 4, 5, 5, 6]));
    octets
}

#[cfg(test)]
mod tests {
    use super::*;
    use crate::rules::Plain;
    use crate::trace::replay::replay;
    use std::collections::BTreeMap;

    fn printed(trace: &[u8]) -> String {
        String::from_utf8(replay(trace, &Plain)).expect("only plain characters")
    }

    /// How often these traces print lines of each sort: an answer, a refusal, or a record's pair.
    fn sorts(traces: impl Iterator<Item = Vec<u8>>) -> BTreeMap<String, usize> {
        let mut met = BTreeMap::new();
        for trace in traces {
            for line in printed(&trace).lines() {
                let words: Vec<&str> = line.split(' ').collect();
                let sort = match words[..] {
                    [_, number, update, list] => format!("{number} {update} {list}"),
                    [number, "at", _] => format!("refused {number}"),
                    [table, ..] => table.to_string(),
                    [] => String::new(),
                };
                *met.entry(sort).or_insert(0) += 1;
            }
        }
        met
    }

    #[test]
    fn random_traces_meet_every_sort_of_line_often() {
        let met = sorts((0..1_000).map(|seed| case(seed, 6_000)));
        let numbers =
            [1, 4, 5, 61, 62, 63, 64, 65, 7, 8, 9, 10, 11, 12, 14, 40, 41, 42, 43, 44].into_iter();
        let mut expected: Vec<String> =
            numbers.map(|number| format!("{number} none none")).collect();
        for update in ["none", "applied", "stale"] {
            expected.extend(["none", "replaced", "stale"].map(|list| format!("0 {update} {list}")));
        }
        expected
            .extend(["refused 20", "refused 21", "refused 22", "ike", "ipsec"].map(String::from));
        let often = |sort: &String| met.get(sort).is_some_and(|&times| times > 10);
        assert!(expected.iter().all(often), "{met:?}");
        assert_eq!(met.len(), expected.len(), "{met:?}");
    }

    #[test]
    fn nights_are_read_to_their_end() {
        let met = sorts((0..100).map(|seed| night(seed, 4_000)));
        assert!(!met.keys().any(|sort| sort.starts_with("refused")), "{met:?}");
        assert!(met["0 applied none"] > 50 && met["0 stale none"] > 50, "{met:?}");
    }

    #[test]
    fn a_trace_of_some_megabytes_is_replayed() {
        let trace = night(1, 2_000_000);
        assert!(trace.len() >= 2_000_000);
        let printed = printed(&trace);
        assert!(printed.lines().count() > 5_000, "{}", printed.lines().count());
        assert!(!printed.contains(" at "));
    }

    #[test]
    fn a_case_is_made_of_its_seed_and_size_alone() {
        assert_eq!(case(3, 500), case(3, 500));
        assert_ne!(case(3, 500), case(4, 500));
        assert!((0..50).all(|seed| case(seed, 300).len() < 30_000));
    }
}
