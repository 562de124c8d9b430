// Peer numbers: few enough that a peer has several records, and alike in one half of their bits.
use crate::rng::Rng;

pub const FEW: [u32; 12] =
    [7, (1 << 16) + 7, u32::MAX, 0, 1, 1 << 31, 255, 256, 7 << 16, 0xffff, (1 << 31) + 7, 1 << 24];

pub fn any(rng: &mut Rng) -> u32 {
    let few = rng.pick(&FEW);
    let other = rng.next_u64() as u32;
    rng.pick_weighted(&[(7, few), (1, other)])
}

/// One of the first so many, which a table's records share.
pub fn among(rng: &mut Rng, count: usize) -> u32 {
    rng.pick(&FEW[..count])
}
