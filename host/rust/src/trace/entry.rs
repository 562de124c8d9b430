//! One entry by what its call is given.
use super::from_slots::from_slots;
use super::into_slots::into_slots;
use super::{read_slots, write_slots};
use crate::layout::{Opening, Operator, Policy};
use crate::{CheckResponse, CloneRequest, Number, Request};

/// An entry of a trace: a call on a gateway's tables or its policies, with what it is given.
#[derive(Debug, Clone, Copy, PartialEq, Eq)]
// A policy is the largest by far, and stands here so that reading an entry allocates nothing.
#[allow(clippy::large_enum_variant)]
pub enum Entry<'a> {
    /// As [`open`](crate::open).
    OpenBoth(Opening),
    /// As [`open_ipsec`](crate::open_ipsec).
    AddIpsec {
        /// The SPI of the IPsec record.
        spi: u32,
        /// The SPI of the IKE record that it is to belong to.
        owner: u64,
        /// The operator that the call names.
        operator: Operator,
    },
    /// As [`close_ike`](crate::close_ike).
    CloseIke {
        /// The SPI of the IKE record.
        spi: u64,
        /// The operator that the call names.
        operator: Operator,
    },
    /// As [`close_ipsec`](crate::close_ipsec).
    CloseIpsec {
        /// The SPI of the IPsec record.
        spi: u32,
        /// The operator that the call names.
        operator: Operator,
    },
    /// As [`handle`](crate::handle).
    Request(Request<'a>),
    /// As [`set_policy`](crate::set_policy).
    Policy {
        /// The rules, and how many of them.
        policy: Policy,
        /// The operator that the call names.
        operator: Operator,
    },
    /// As [`check`](crate::check).
    CheckResponse(CheckResponse<'a>),
    /// As [`clone_ike`](crate::clone_ike).
    Clone(CloneRequest<'a>),
    /// As [`mark_deletion`](crate::mark_deletion).
    MarkDeletion {
        /// The SPI of the IKE record.
        spi: u64,
        /// The operator that the call names.
        operator: Operator,
    },
}

/// Reads the entry that begins at the offset `at`, and tells the offset of the first octet behind it. The
/// strings of requests and of a response are parts of the trace; rules past a policy's count are none.
///
/// Numbers, the first that is met as the octets are read: [`Cut`](Number::Cut), at the end of the trace and
/// past it too; [`UnknownKind`](Number::UnknownKind); [`TooLarge`](Number::TooLarge).
pub fn read_entry(trace: &[u8], at: usize) -> Result<(Entry<'_>, usize), Number> {
    let (kind, slots, next) = read_slots(trace, at)?;
    let entry = from_slots(kind, &slots, trace).ok_or(Number::UnknownKind)?;
    Ok((entry, next))
}

/// Writes an entry to the start of `out` and tells how many octets it took; those past them stay as they
/// were. [`ENTRY_MOST`](crate::limits::ENTRY_MOST) octets are room enough for any entry. Of what is agreed,
/// yes is written as 1; rules past a policy's count aren't looked at.
///
/// Numbers, in the order of the checks: [`TooLarge`](Number::TooLarge) for a string over 4,096 octets, a
/// policy of over 16 rules or an operator that is neither, [`OutputTooShort`](Number::OutputTooShort). A
/// refusal writes nothing.
pub fn write_entry(entry: &Entry<'_>, out: &mut [u8]) -> Result<usize, Number> {
    let (kind, slots, source) = into_slots(entry);
    write_slots(kind, &slots, &source, out)
}
