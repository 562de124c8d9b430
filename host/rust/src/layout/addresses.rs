//! Addresses and address pairs as they travel.
use crate::limits::{ADDRESSES_MOST, ADDRESS_OCTETS, IP4_OCTETS};

/// An address: family 4 or 6, and 16 octets, an IPv4 address in the first four with zeros after.
#[repr(C)]
#[derive(Debug, Clone, Copy, Default, PartialEq, Eq)]
pub struct Address {
    /// 4 or 6; 0 where there is none.
    pub family: u8,
    /// The address, zeros after its family's octets.
    pub octets: [u8; ADDRESS_OCTETS],
}

/// An address pair with ports, as in a packet from the peer.
#[repr(C)]
#[derive(Debug, Clone, Copy, Default, PartialEq, Eq)]
pub struct Pair {
    /// 4 or 6; 0 where there is none.
    pub family: u8,
    /// The peer's address.
    pub source: [u8; ADDRESS_OCTETS],
    /// The gateway's address.
    pub destination: [u8; ADDRESS_OCTETS],
    /// The peer's port.
    pub source_port: u16,
    /// The gateway's port.
    pub destination_port: u16,
}

/// A list of addresses, as they are passed by value.
#[repr(C)]
#[derive(Clone, Copy)]
pub(crate) struct AddressList {
    pub(crate) list: [Address; ADDRESSES_MOST],
}

laid_out!(Address, size 17, align 1, { family: 0, octets: 1 });
laid_out!(Pair, size 38, align 2, {
    family: 0, source: 1, destination: 17, source_port: 34, destination_port: 36,
});
laid_out!(AddressList, size 272, align 1, { list: 0 });

impl Address {
    /// No address.
    pub const NONE: Address = Address { family: 0, octets: [0; ADDRESS_OCTETS] };

    /// An IPv4 address.
    pub const fn ipv4(octets: [u8; IP4_OCTETS]) -> Address {
        Address { family: 4, octets: padded(octets) }
    }

    /// An IPv6 address.
    pub const fn ipv6(octets: [u8; ADDRESS_OCTETS]) -> Address {
        Address { family: 6, octets }
    }
}

impl Pair {
    /// No pair.
    pub const NONE: Pair = Pair {
        family: 0,
        source: [0; ADDRESS_OCTETS],
        destination: [0; ADDRESS_OCTETS],
        source_port: 0,
        destination_port: 0,
    };

    /// An IPv4 pair: the peer's address and port, then the gateway's.
    pub const fn ipv4(
        source: ([u8; IP4_OCTETS], u16),
        destination: ([u8; IP4_OCTETS], u16),
    ) -> Pair {
        Pair {
            family: 4,
            source: padded(source.0),
            destination: padded(destination.0),
            source_port: source.1,
            destination_port: destination.1,
        }
    }

    /// An IPv6 pair: the peer's address and port, then the gateway's.
    pub const fn ipv6(
        source: ([u8; ADDRESS_OCTETS], u16),
        destination: ([u8; ADDRESS_OCTETS], u16),
    ) -> Pair {
        Pair {
            family: 6,
            source: source.0,
            destination: destination.0,
            source_port: source.1,
            destination_port: destination.1,
        }
    }
}

/// An IPv4 address in 16 octets.
pub(crate) const fn padded(octets: [u8; IP4_OCTETS]) -> [u8; ADDRESS_OCTETS] {
    let [a, b, c, d] = octets;
    [a, b, c, d, 0, 0, 0, 0, 0, 0, 0, 0, 0, 0, 0, 0]
}
