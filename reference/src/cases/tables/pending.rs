// Pending checks of random records: as a request leaves them, and with any length and any octets.
use crate::pending::{PendingCheck, MOST_COOKIE};
use crate::rng::Rng;

/// Lengths that no call keeps: none, about those that one does, and alike in some bits.
const LENGTHS: [u8; 8] = [0, 1, 7, 65, 66, 128, 192, 255];

/// IDs that meet again, and the least and the greatest.
const IDS: [u32; 6] = [0, 1, 2, 5, u32::MAX - 1, u32::MAX];

pub fn id(rng: &mut Rng) -> u32 {
    rng.pick(&IDS)
}

/// A cookie of 8 to 64 octets.
pub fn cookie(rng: &mut Rng) -> Vec<u8> {
    let any = rng.between(8, MOST_COOKIE);
    let length = rng.pick(&[8, 9, 16, 63, 64, any, any]);
    rng.octets(length)
}

/// As a request leaves it.
pub fn kept(rng: &mut Rng) -> PendingCheck {
    PendingCheck::of(&cookie(rng), id(rng))
}

/// Of an allowed length or of another, with octets past it.
pub fn any(rng: &mut Rng) -> PendingCheck {
    let mut check = kept(rng);
    if rng.one_in(2) {
        let octets = rng.octets(MOST_COOKIE);
        check.octets.copy_from_slice(&octets);
    }
    if rng.one_in(3) {
        let (listed, any) = (rng.pick(&LENGTHS), rng.octet());
        check.length = rng.pick(&[listed, any]);
    }
    check
}
