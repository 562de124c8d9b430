// Traces whose octets come in pieces, so that every read of a program may give only some of an entry.
use super::{examples, listed, windows, Case};
use crate::rng::Rng;
use crate::trace::pieces::Pieces;
use crate::trace::writing::LONGEST;

/// So many pieces at most has a trace past the listed ones: each is waited for.
const MOST_PIECES: usize = 300;

pub fn all() -> Vec<Case> {
    let mut cases = Vec::new();
    let mut add = |trace: &[u8], lengths: &[&[usize]]| {
        let of = |lengths: &&[usize]| Case { trace: trace.to_vec(), pieces: Pieces::of(lengths) };
        cases.extend(lengths.iter().map(of));
    };
    let every_kind = examples::all_kinds();
    let small: Vec<Vec<usize>> = (1..=50).map(|length| vec![length]).collect();
    let small: Vec<&[usize]> = small.iter().map(Vec::as_slice).collect();
    add(&every_kind, &small);
    add(&every_kind, &[&[1, 100], &[44, 38], &[43, 1], &[81, 1, 1], &[4_095]]);
    for length in (0..every_kind.len()).step_by(9) {
        add(&every_kind[..length], &[&[1], &[7], &[4_095]]);
    }
    add(&[], &[&[1]]);
    for seed in 60..64 {
        add(&listed::night(seed, 2_000), &[&[1], &[7], &[100, 1], &[4_095]]);
    }
    for trace in windows::about_longest() {
        add(&trace, &[&[4_095], &[4_096], &[4_000, 96, 1]]);
    }
    for before in [0, 3, 4_000, LONGEST - 1] {
        let trace = windows::longest_in_a_row(before, 3);
        add(&trace, &[&[4_095], &[4_096], &[4_096, 4_096, 4_096, 4_096, 72], &[1_000, 3_001, 1]]);
    }
    add(&windows::longest_in_a_row(3, 2), &[&[7], &[61]]);
    add(&windows::longest_in_a_row(0, 1), &[&[1]]);
    add(&listed::night(64, 1_000_000), &[&[4_095]]);
    cases
}

/// All at once, or pieces of a few lengths.
pub fn drawn(rng: &mut Rng, length: usize) -> Pieces {
    if !rng.one_in(3) {
        return Pieces::at_once();
    }
    let least = 1 + length / MOST_PIECES;
    let count = rng.between(1, 4);
    let lengths: Vec<usize> = (0..count)
        .map(|_| {
            let short = rng.between(1, 60);
            rng.pick(&[1, 2, 7, short, short, 4_095]).max(least)
        })
        .collect();
    Pieces::of(&lengths)
}

#[cfg(test)]
mod tests {
    use super::super::super::seeded::Kinded;
    use super::*;
    use crate::rules::Plain;
    use crate::trace::replay::replay;

    #[test]
    fn what_is_printed_is_the_same_however_it_comes() {
        for case in all() {
            assert_eq!(case.printed(&Plain), replay(&case.trace, &Plain));
        }
    }

    #[test]
    fn random_traces_come_in_either_way_and_not_in_too_many_pieces() {
        let cases = (0..1_000).map(|number| Case::random(&mut Rng::from_words(&[number])));
        let pieces: Vec<usize> =
            cases.filter_map(|case| Some(case.pieces.split(&case.trace)?.len())).collect();
        assert!((200..500).contains(&pieces.len()), "{}", pieces.len());
        assert!(pieces.iter().all(|&count| count <= MOST_PIECES));
        assert!(pieces.iter().filter(|&&count| count > 20).count() > 100);
    }
}
