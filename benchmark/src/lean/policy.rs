// Whether a pair is acceptable: each prefix compared by its two halves as numbers.
use unmavreth::{Pair, Policy};

#[inline]
pub fn acceptable(policy: &Policy, pair: &Pair) -> bool {
    let most = match pair.family {
        4 => 32,
        6 => 128,
        _ => return false,
    };
    let count = usize::from(policy.count).min(policy.rules.len());
    let (source, destination) = (halves(&pair.source), halves(&pair.destination));
    policy.rules[..count].iter().any(|rule| {
        rule.family == pair.family
            && rule.source_len <= most
            && rule.destination_len <= most
            && matches(&rule.source, source, rule.source_len)
            && matches(&rule.destination, destination, rule.destination_len)
    })
}

/// The first eight octets and the last, in the processor's order.
#[inline]
fn halves(octets: &[u8; 16]) -> [u64; 2] {
    let all = u128::from_le_bytes(*octets);
    [all as u64, (all >> 64) as u64]
}

/// Whether the first `length` bits are the same, at most 128.
#[inline]
fn matches(prefix: &[u8; 16], [first, last]: [u64; 2], length: u8) -> bool {
    let [prefix_first, prefix_last] = halves(prefix);
    let first = (prefix_first ^ first).swap_bytes();
    let last = (prefix_last ^ last).swap_bytes();
    match length {
        0 => true,
        1..=64 => first >> (64 - length) == 0,
        _ => first == 0 && last >> (128u8.wrapping_sub(length) & 63) == 0,
    }
}
