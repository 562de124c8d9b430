//! One entry by the numbers that the library tells of it.
use crate::limits::ENTRY_SLOTS;
use crate::{raw, Number};

/// What an entry says, in the order of its fields: a number in one slot; an address in one, its offset in a
/// lent buffer; a string in two, its offset there and its length; a list in one for its count and then those
/// of sixteen items, however many it has. Of an entry that was read the buffer is the trace itself.
pub type Slots = [u64; ENTRY_SLOTS];

/// The slot of a policy's operator, behind all sixteen rules.
pub(super) const POLICY_OPERATOR: usize = ENTRY_SLOTS - 1;

/// The kinds of entries. Any octet has a meaning here, so that looking at one never fails.
#[derive(Debug, Clone, Copy, PartialEq, Eq)]
pub enum Kind {
    /// 0: as [`open`](crate::open).
    OpenBoth,
    /// 1: as [`open_ipsec`](crate::open_ipsec).
    AddIpsec,
    /// 2: as [`close_ike`](crate::close_ike).
    CloseIke,
    /// 3: as [`close_ipsec`](crate::close_ipsec).
    CloseIpsec,
    /// 4: as [`handle`](crate::handle).
    Request,
    /// 5: as [`set_policy`](crate::set_policy).
    Policy,
    /// 6: as [`check`](crate::check).
    CheckResponse,
    /// 7: as [`clone_ike`](crate::clone_ike).
    Clone,
    /// 8: as [`mark_deletion`](crate::mark_deletion).
    MarkDeletion,
    /// A number that no kind has.
    Other(u8),
}

impl From<u8> for Kind {
    fn from(kind: u8) -> Self {
        match kind {
            0 => Kind::OpenBoth,
            1 => Kind::AddIpsec,
            2 => Kind::CloseIke,
            3 => Kind::CloseIpsec,
            4 => Kind::Request,
            5 => Kind::Policy,
            6 => Kind::CheckResponse,
            7 => Kind::Clone,
            8 => Kind::MarkDeletion,
            other => Kind::Other(other),
        }
    }
}

impl From<Kind> for u8 {
    fn from(kind: Kind) -> Self {
        match kind {
            Kind::OpenBoth => 0,
            Kind::AddIpsec => 1,
            Kind::CloseIke => 2,
            Kind::CloseIpsec => 3,
            Kind::Request => 4,
            Kind::Policy => 5,
            Kind::CheckResponse => 6,
            Kind::Clone => 7,
            Kind::MarkDeletion => 8,
            Kind::Other(other) => other,
        }
    }
}

/// Reads the entry that begins at the offset `at`: its kind, its slots, and the offset of the first octet
/// behind it. Every value fits its field, and addresses and strings lie within the trace; slots that its
/// kind doesn't have are 0.
///
/// Numbers, the first that is met as the octets are read: [`Cut`](Number::Cut), at the end of the trace and
/// past it too; [`UnknownKind`](Number::UnknownKind); [`TooLarge`](Number::TooLarge).
#[inline]
pub fn read_slots(trace: &[u8], at: usize) -> Result<(Kind, Slots, usize), Number> {
    // SAFETY: the start and the length are those of a slice that outlives the call.
    let read = unsafe { raw::unmavreth_read_entry(trace.as_ptr(), trace.len(), at) };
    match read.number.into() {
        Number::Done => Ok((read.kind.into(), read.slots, read.next)),
        refused => Err(refused),
    }
}

/// Writes an entry to the start of `out` and tells how many octets it took; those past them stay as they
/// were. Offsets in the slots are those of `source`.
///
/// Numbers, in the order of the checks: [`UnknownKind`](Number::UnknownKind);
/// [`TooLarge`](Number::TooLarge), for an address or a string that isn't within `source` too;
/// [`OutputTooShort`](Number::OutputTooShort). A refusal writes nothing.
#[inline]
pub fn write_slots(
    kind: Kind,
    slots: &Slots,
    source: &[u8],
    out: &mut [u8],
) -> Result<usize, Number> {
    // SAFETY: each start and length are those of a slice or an array that is lent for the call, the output
    // to nothing else.
    let written = unsafe {
        raw::unmavreth_write_entry(
            kind.into(),
            slots,
            source.as_ptr(),
            source.len(),
            out.as_mut_ptr(),
            out.len(),
        )
    };
    match written.number.into() {
        Number::Done => Ok(written.length),
        refused => Err(refused),
    }
}
