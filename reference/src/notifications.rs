// Chains of notifications as they are written, and what some of them hold.
use crate::address::{octet_count, AddressPair};
use crate::chain::{NOTIFY, NO_NEXT_PAYLOAD};
use crate::notify::{NotifyType, NOTIFY_LENGTH};

/// A notify type and its data, of a notification without an SPI.
pub type Notification = (NotifyType, Vec<u8>);

/// A chain of notifications with these types and data.
pub fn octets<D: AsRef<[u8]>>(notifications: &[(NotifyType, D)]) -> Vec<u8> {
    let mut octets = Vec::new();
    for (place, (notify_type, data)) in notifications.iter().enumerate() {
        let is_last = place + 1 == notifications.len();
        let data = data.as_ref();
        octets.extend(header(is_last, *notify_type, data.len()));
        octets.extend_from_slice(data);
    }
    octets
}

/// "The payload chain": next type, flags, length, protocol ID, SPI size and notify type. "The critical bit of known
/// types, the reserved bits and the protocol ID are .. written as 0", and so is the SPI size, since an "SPI size
/// there other than 0" is malformed. "Type 0 ends the chain."
pub fn header(is_last: bool, notify_type: NotifyType, size: usize) -> [u8; NOTIFY_LENGTH] {
    let next = if is_last { NO_NEXT_PAYLOAD } else { NOTIFY };
    let [length_high, length_low] = ((NOTIFY_LENGTH + size) as u16).to_be_bytes();
    let [type_high, type_low] = notify_type.0.to_be_bytes();
    [next, 0, length_high, length_low, 0, 0, type_high, type_low]
}

/// The first type of a chain of notifications.
pub fn first_type(octets: &[u8]) -> u8 {
    if octets.is_empty() {
        NO_NEXT_PAYLOAD
    } else {
        NOTIFY
    }
}

/// What a NO_NATS_ALLOWED of this pair holds; pairs that aren't of family 4 count as of 6.
pub fn no_nats_data(pair: &AddressPair) -> Vec<u8> {
    let size = octet_count(pair.family).unwrap_or(16);
    let ports = [pair.source_port, pair.destination_port].map(u16::to_be_bytes);
    [&pair.source[..size], &pair.destination[..size], &ports[0], &ports[1]].concat()
}
