// The policy check bit by bit, from the first bit of each prefix to its last.
use crate::counted::counted_bits_acceptable;
use crate::job::Job;
use crate::told::Told;
use std::hint::black_box;
use unmavreth::{Pair, Policy};

pub fn acceptable(policy: &Policy, pair: &Pair) -> bool {
    let most = match pair.family {
        4 => 32,
        6 => 128,
        _ => return false,
    };
    let count = usize::from(policy.count).min(policy.rules.len());
    policy.rules[..count].iter().any(|rule| {
        rule.family == pair.family
            && rule.source_len.max(rule.destination_len) <= most
            && matches(&rule.source, &pair.source, rule.source_len)
            && matches(&rule.destination, &pair.destination, rule.destination_len)
    })
}

fn matches(prefix: &[u8; 16], address: &[u8; 16], length: u8) -> bool {
    (0..length).all(|at| {
        let octet = usize::from(at / 8);
        (prefix[octet] ^ address[octet]) << (at % 8) & 0x80 == 0
    })
}

/// The uncounted call alone; of another call it tells nothing.
pub fn told(job: &Job) -> Option<Told> {
    let Job::Acceptable(of) = job else { return None };
    Some(Told::accepted(acceptable(&of.policy, &of.pair)))
}

/// A first call, then the counted one.
pub fn counted(job: &Job) -> Option<Told> {
    black_box(told(job)?);
    let Job::Acceptable(of) = job else { return None };
    let (policy, pair) = (black_box(&of.policy), black_box(&of.pair));
    Some(Told::accepted(black_box(counted_bits_acceptable(policy, pair))))
}
