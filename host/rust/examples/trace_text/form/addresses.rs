//! Addresses and strings as words.
use std::net::{Ipv4Addr, Ipv6Addr};
use unmavreth::limits::{ADDRESS_OCTETS, IP4_OCTETS};

/// An address from `192.0.2.1`, `2001:db8::1` or 32 hex digits; an IPv4 address has zeros behind it.
pub fn address(word: &str) -> Option<[u8; ADDRESS_OCTETS]> {
    if let Ok(address) = word.parse::<Ipv4Addr>() {
        let mut octets = [0; ADDRESS_OCTETS];
        octets[..IP4_OCTETS].copy_from_slice(&address.octets());
        return Some(octets);
    }
    match word.parse::<Ipv6Addr>() {
        Ok(address) => Some(address.octets()),
        Err(_) => hex_octets(word)?.try_into().ok(),
    }
}

/// The word of an address: as its family has it if that says it whole, else 32 hex digits.
pub fn address_word(family: u64, octets: &[u8]) -> String {
    let (four, tail) = octets.split_at(IP4_OCTETS.min(octets.len()));
    if let (4, Ok(four), true) =
        (family, <[u8; IP4_OCTETS]>::try_from(four), tail.iter().all(|&octet| octet == 0))
    {
        return Ipv4Addr::from(four).to_string();
    }
    match (family, <[u8; ADDRESS_OCTETS]>::try_from(octets)) {
        (6, Ok(octets)) => Ipv6Addr::from(octets).to_string(),
        _ => hex_digits(octets),
    }
}

/// A string from hex digits, or from `-`, which is none.
pub fn string(word: &str) -> Option<Vec<u8>> {
    if word == "-" {
        return Some(Vec::new());
    }
    hex_octets(word)
}

/// The word of a string.
pub fn string_word(octets: &[u8]) -> String {
    if octets.is_empty() {
        return "-".to_string();
    }
    hex_digits(octets)
}

fn hex_octets(word: &str) -> Option<Vec<u8>> {
    let digits: Option<Vec<u8>> =
        word.chars().map(|digit| digit.to_digit(16).map(|digit| digit as u8)).collect();
    let digits = digits?;
    let pairs = digits.chunks_exact(2);
    if !pairs.remainder().is_empty() {
        return None;
    }
    Some(pairs.map(|pair| 16 * pair[0] + pair[1]).collect())
}

fn hex_digits(octets: &[u8]) -> String {
    octets.iter().map(|octet| format!("{octet:02x}")).collect()
}
