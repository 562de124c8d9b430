// How octets and addresses are written where a case is shown.
use crate::address::{Address, AddressPair};

pub fn pair(pair: &AddressPair) -> String {
    let (source, destination) = (hex(&pair.source), hex(&pair.destination));
    let (from, to) = (pair.source_port, pair.destination_port);
    format!("family {}, {source} port {from}, {destination} port {to}", pair.family)
}

pub fn address(address: &Address) -> String {
    format!("family {}, {}", address.family, hex(&address.octets))
}

pub fn hex(octets: &[u8]) -> String {
    let digit = |value: u8| char::from(b"0123456789abcdef"[usize::from(value)]);
    octets.iter().flat_map(|octet| [digit(octet >> 4), digit(octet & 15)]).collect()
}
