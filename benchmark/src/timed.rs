// The wall time of the policy check on each side, the sides taking turns within one run.
use crate::counted::{counted_bits_acceptable, counted_lean_acceptable, counted_ours_acceptable};
use crate::job::Job;
use crate::rows::Row;
use std::hint::black_box;
use std::time::{Duration, Instant};

const ROUNDS: usize = 200;
const CALLS: usize = 2_000;

/// The shortest round of ours, bit by bit and lean.
pub type Times = [Duration; 3];

/// None for a row that is about another call.
pub fn time(row: &Row) -> Option<Times> {
    let Job::Acceptable(asking) = (row.job)() else { return None };
    let (policies, policy, pair) = (&asking.policies(), &asking.policy, &asking.pair);
    let ours = || {
        let operator = black_box(asking.operator);
        counted_ours_acceptable(black_box(policies), black_box(pair), operator)
    };
    let bits = || counted_bits_acceptable(black_box(policy), black_box(pair));
    let lean = || counted_lean_acceptable(black_box(policy), black_box(pair));
    let calls: [&dyn Fn() -> bool; 3] = [&ours, &bits, &lean];
    let mut shortest = [Duration::MAX; 3];
    for _ in 0..ROUNDS {
        for (shortest, call) in shortest.iter_mut().zip(calls) {
            *shortest = round(call).min(*shortest);
        }
    }
    Some(shortest)
}

fn round(call: &dyn Fn() -> bool) -> Duration {
    let started = Instant::now();
    for _ in 0..CALLS {
        black_box(call());
    }
    started.elapsed()
}
