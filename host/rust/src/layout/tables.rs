//! The records that are lent to the library and changed in place, and what they are opened with.
use super::{Address, Flag, Operator, Pair};
use crate::limits::{ADDRESSES_MOST, COOKIE_LEAST, COOKIE_MOST};

/// What is agreed when an IKE record is opened, and with whom. It stays until the record is closed, and a
/// clone has the same.
#[repr(C)]
#[derive(Debug, Clone, Copy, Default, PartialEq, Eq)]
pub struct Agreed {
    /// Whether MOBIKE was agreed.
    pub mobike: Flag,
    /// Whether both ends sent CLONE_IKE_SA_SUPPORTED.
    pub cloning: Flag,
    /// Whose IKE SA it is; the IPsec records that it owns are this operator's too.
    pub operator: Operator,
    /// The host's number for the peer, one for all IKE SAs of the operator with it; any number, 0 too.
    pub peer: u32,
}

/// The return routability check (RFC 4555, 3.7) that is under way for an IKE record. A length outside 8 to
/// 64, which no call stores but 0, reads as none.
#[repr(C)]
#[derive(Debug, Clone, Copy, PartialEq, Eq)]
pub struct PendingCheck {
    /// How many octets the cookie of our request has; 0 where there is no check.
    pub length: u8,
    /// The cookie, zeros behind it.
    pub octets: [u8; COOKIE_MOST],
    /// The message ID of our request.
    pub id: u32,
}

/// An IKE record. The table has [`IKE_PLACES`](crate::limits::IKE_PLACES), and a place is free while its SPI is 0.
#[repr(C)]
#[derive(Debug, Clone, Copy, Default, PartialEq, Eq)]
pub struct IkeRecord {
    /// The gateway's SPI; 0 for a free place.
    pub spi: u64,
    /// What is agreed with the peer.
    pub agreed: Agreed,
    /// Where the peer is.
    pub pair: Pair,
    /// The least message ID whose update isn't stale: 0 before the first, then the last ID and one.
    pub update_mark: u64,
    /// The same for lists of additional addresses.
    pub list_mark: u64,
    /// How many additional addresses are kept.
    pub count: u16,
    /// The additional addresses, zeros past the count.
    pub addresses: [Address; ADDRESSES_MOST],
    /// How many unknown payloads and notifications came; it stays at
    /// [`TALLY_MOST`](crate::limits::TALLY_MOST).
    pub unknown: u32,
    /// The check of the update that was last applied, until a response ends it.
    pub check: PendingCheck,
    /// Whether it is being deleted, from [`mark_deletion`](crate::mark_deletion) on until it is closed.
    pub deleting: Flag,
}

/// An IPsec record. A place is free while its SPI is 0.
#[repr(C)]
#[derive(Debug, Clone, Copy, Default, PartialEq, Eq)]
pub struct IpsecRecord {
    /// Its SPI; 0 for a free place.
    pub spi: u32,
    /// The SPI of the IKE record that it belongs to.
    pub owner: u64,
    /// Where the peer is; it moves to where its owner is when a check there is accepted.
    pub pair: Pair,
}

/// An IKE record to open and its first IPsec record, as IKE_AUTH makes them together.
#[repr(C)]
#[derive(Debug, Clone, Copy, Default, PartialEq, Eq)]
pub struct Opening {
    /// The SPI of the IKE record.
    pub spi: u64,
    /// What is agreed with the peer.
    pub agreed: Agreed,
    /// Where the peer is: the pair of both records.
    pub pair: Pair,
    /// The SPI of the IPsec record.
    pub child: u32,
}

laid_out!(Agreed, size 8, align 4, { mobike: 0, cloning: 1, operator: 2, peer: 4 });
laid_out!(PendingCheck, size 72, align 4, { length: 0, octets: 1, id: 68 });
laid_out!(IkeRecord, size 432, align 8, {
    spi: 0, agreed: 8, pair: 16, update_mark: 56, list_mark: 64, count: 72, addresses: 74, unknown: 348,
    check: 352, deleting: 424,
});
laid_out!(IpsecRecord, size 56, align 8, { spi: 0, owner: 8, pair: 16 });
laid_out!(Opening, size 64, align 8, { spi: 0, agreed: 8, pair: 16, child: 56 });

impl Agreed {
    /// Nothing is agreed, as in a place that is free; the operator is [`A`](Operator::A).
    pub const NONE: Agreed =
        Agreed { mobike: Flag::NO, cloning: Flag::NO, operator: Operator::A, peer: 0 };
}

impl PendingCheck {
    /// No check, as in a place that is free.
    pub const NONE: PendingCheck = PendingCheck { length: 0, octets: [0; COOKIE_MOST], id: 0 };

    /// The cookie that our request has; empty where no check is under way.
    pub fn cookie(&self) -> &[u8] {
        match usize::from(self.length) {
            length @ COOKIE_LEAST..=COOKIE_MOST => &self.octets[..length],
            _ => &[],
        }
    }

    /// Whether a check is under way.
    pub fn is_pending(&self) -> bool {
        !self.cookie().is_empty()
    }
}

impl Default for PendingCheck {
    fn default() -> Self {
        PendingCheck::NONE
    }
}

impl IkeRecord {
    /// A free place. A gateway begins with a table of these.
    pub const FREE: IkeRecord = IkeRecord {
        spi: 0,
        agreed: Agreed::NONE,
        pair: Pair::NONE,
        update_mark: 0,
        list_mark: 0,
        count: 0,
        addresses: [Address::NONE; ADDRESSES_MOST],
        unknown: 0,
        check: PendingCheck::NONE,
        deleting: Flag::NO,
    };
}

impl IpsecRecord {
    /// A free place. A gateway begins with a list of these.
    pub const FREE: IpsecRecord = IpsecRecord { spi: 0, owner: 0, pair: Pair::NONE };
}
