// Whether addresses fit their family.
use unmavreth::{Address, Pair};

#[inline]
pub fn is_sound(pair: &Pair) -> bool {
    match pair.family {
        6 => true,
        4 => after_ipv4(&pair.source) | after_ipv4(&pair.destination) == 0,
        _ => false,
    }
}

#[inline]
pub fn is_address_sound(address: &Address) -> bool {
    match address.family {
        6 => true,
        4 => after_ipv4(&address.octets) == 0,
        _ => false,
    }
}

/// What stands after the four octets of an IPv4 address.
#[inline]
fn after_ipv4(octets: &[u8; 16]) -> u128 {
    u128::from_le_bytes(*octets) >> 32
}
