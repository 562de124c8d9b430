// SPIs: few enough to meet again, and alike in one half of their bits.

pub const FEW_IKE: [u64; 8] =
    [7, (1 << 32) + 7, u64::MAX, 1, 1 << 32, 0xffff_ffff, 7 << 32, (7 << 32) + 7];

pub const FEW_IPSEC: [u32; 8] =
    [7, (1 << 16) + 7, u32::MAX, 1, 1 << 16, 0xffff, 7 << 16, (1 << 31) + 7];

/// The few, then others; no two are the same.
pub fn ike(number: usize) -> u64 {
    FEW_IKE.get(number).copied().unwrap_or(((number as u64) << 32) + 7)
}

/// The few, then others; no two are the same.
pub fn ipsec(number: usize) -> u32 {
    FEW_IPSEC.get(number).copied().unwrap_or(((number as u32) << 16) + 7)
}
