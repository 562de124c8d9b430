// Addresses and address pairs as they travel: sixteen octets each, told apart by their family.
//
// These structs, and those that are `repr(C)` in other files, are laid out as in the library's C
// interface and so are handed over as they are.

/// Addresses are held in 16 octets, IPv4 in the first four with zeros after.
pub type AddressOctets = [u8; 16];

#[repr(C)]
#[derive(Debug, Clone, Copy, Default, PartialEq, Eq)]
pub struct Address {
    pub family: u8,
    pub octets: AddressOctets,
}

#[repr(C)]
#[derive(Debug, Clone, Copy, Default, PartialEq, Eq)]
pub struct AddressPair {
    pub family: u8,
    pub source: AddressOctets,
    pub destination: AddressOctets,
    pub source_port: u16,
    pub destination_port: u16,
}

impl Address {
    pub const ZERO: Self = Address { family: 0, octets: [0; 16] };

    /// Whether the family is allowed and the address doesn't pass its family's octets.
    pub fn is_sound(&self) -> bool {
        are_sound(self.family, [&self.octets])
    }
}

impl AddressPair {
    pub const ZERO: Self = AddressPair {
        family: 0,
        source: [0; 16],
        destination: [0; 16],
        source_port: 0,
        destination_port: 0,
    };

    /// The pair as in a packet to the peer.
    pub fn swapped(&self) -> Self {
        AddressPair {
            family: self.family,
            source: self.destination,
            destination: self.source,
            source_port: self.destination_port,
            destination_port: self.source_port,
        }
    }

    /// Whether the family is allowed and neither address passes its family's octets.
    pub fn is_sound(&self) -> bool {
        are_sound(self.family, [&self.source, &self.destination])
    }
}

/// How many octets an address of this family has; none if the family isn't allowed.
pub fn octet_count(family: u8) -> Option<usize> {
    match family {
        4 => Some(4),
        6 => Some(16),
        _ => None,
    }
}

/// Whether the family is allowed and these addresses, or prefixes, are zero past its octets.
pub fn are_sound<const COUNT: usize>(family: u8, addresses: [&AddressOctets; COUNT]) -> bool {
    let is_zero_past =
        |octets: &AddressOctets, count: usize| octets[count..].iter().all(|&octet| octet == 0);
    octet_count(family)
        .is_some_and(|count| addresses.iter().all(|octets| is_zero_past(octets, count)))
}
