// What may be agreed: octets that say no, those that a new record has, and others that say yes; for whom and with whom.
use super::super::operators;
use super::peers;
use crate::agreed::Agreed;
use crate::rng::Rng;

/// The least, the greatest, and those about a power of two.
pub const YES: [u8; 7] = [255, 1, 2, 3, 127, 128, 254];

pub fn any(rng: &mut Rng) -> Agreed {
    let (mobike, cloning, operator) = (octet(rng), octet(rng), operators::in_record(rng));
    Agreed { mobike, cloning, operator, peer: peers::any(rng) }
}

fn octet(rng: &mut Rng) -> u8 {
    let yes = yes(rng);
    rng.pick_weighted(&[(3, 0), (2, 1), (3, yes)])
}

/// A mark for being deleted: mostly none.
pub fn deleting(rng: &mut Rng) -> u8 {
    if rng.one_in(4) {
        octet(rng)
    } else {
        0
    }
}

pub fn yes(rng: &mut Rng) -> u8 {
    if rng.one_in(4) {
        rng.octet().max(1)
    } else {
        rng.pick(&YES)
    }
}
