// Notify payloads: the numbers of the notify types, and one that was taken apart.
use crate::chain::HEADER_LENGTH;

/// The header, then protocol ID, SPI size and notify type.
pub const NOTIFY_LENGTH: usize = HEADER_LENGTH + 4;

#[derive(Debug, Clone, Copy, PartialEq, Eq)]
pub struct NotifyType(pub u16);

impl NotifyType {
    pub const UNSUPPORTED_CRITICAL_PAYLOAD: Self = NotifyType(1);
    pub const INVALID_SYNTAX: Self = NotifyType(7);
    pub const NO_ADDITIONAL_SAS: Self = NotifyType(35);
    pub const UNACCEPTABLE_ADDRESSES: Self = NotifyType(40);
    pub const UNEXPECTED_NAT_DETECTED: Self = NotifyType(41);
    pub const TEMPORARY_FAILURE: Self = NotifyType(43);

    pub const NAT_DETECTION_SOURCE_IP: Self = NotifyType(16388);
    pub const NAT_DETECTION_DESTINATION_IP: Self = NotifyType(16389);
    pub const MOBIKE_SUPPORTED: Self = NotifyType(16396);
    pub const ADDITIONAL_IP4_ADDRESS: Self = NotifyType(16397);
    pub const ADDITIONAL_IP6_ADDRESS: Self = NotifyType(16398);
    pub const NO_ADDITIONAL_ADDRESSES: Self = NotifyType(16399);
    pub const UPDATE_SA_ADDRESSES: Self = NotifyType(16400);
    pub const COOKIE2: Self = NotifyType(16401);
    pub const NO_NATS_ALLOWED: Self = NotifyType(16402);
    pub const CLONE_IKE_SA_SUPPORTED: Self = NotifyType(16432);
    pub const CLONE_IKE_SA: Self = NotifyType(16433);

    /// The types with rules of their own in every chain; every other one is tallied as unknown.
    pub const KNOWN: [Self; 9] = [
        Self::NAT_DETECTION_SOURCE_IP,
        Self::NAT_DETECTION_DESTINATION_IP,
        Self::MOBIKE_SUPPORTED,
        Self::ADDITIONAL_IP4_ADDRESS,
        Self::ADDITIONAL_IP6_ADDRESS,
        Self::NO_ADDITIONAL_ADDRESSES,
        Self::UPDATE_SA_ADDRESSES,
        Self::COOKIE2,
        Self::NO_NATS_ALLOWED,
    ];

    /// The types with rules of their own in a request to clone an IKE SA only.
    pub const OF_CLONES: [Self; 2] = [Self::CLONE_IKE_SA_SUPPORTED, Self::CLONE_IKE_SA];

    /// The types that a chain may hold once at most.
    pub const ONCE: [Self; 5] = [
        Self::UPDATE_SA_ADDRESSES,
        Self::NO_ADDITIONAL_ADDRESSES,
        Self::COOKIE2,
        Self::NO_NATS_ALLOWED,
        Self::NAT_DETECTION_DESTINATION_IP,
    ];

    pub fn is_known(self) -> bool {
        Self::KNOWN.contains(&self)
    }

    pub fn is_of_clones(self) -> bool {
        Self::OF_CLONES.contains(&self)
    }

    pub fn is_additional_address(self) -> bool {
        self == Self::ADDITIONAL_IP4_ADDRESS || self == Self::ADDITIONAL_IP6_ADDRESS
    }
}

/// A Notify payload whose SPI lies inside it.
#[derive(Debug, Clone, Copy)]
pub struct Notify<'a> {
    pub notify_type: NotifyType,
    pub spi_size: usize,
    /// Where the data begin in the body.
    pub data_offset: usize,
    pub data: &'a [u8],
}
