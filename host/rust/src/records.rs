//! The table calls, on lent tables that are changed in place. Each names an operator, an opening in what is
//! agreed; a record of the other, or of nobody, is none to it.
use crate::layout::{IkeRecord, IpsecRecord, Opening, Operator};
use crate::limits::IKE_PLACES;
use crate::{raw, Number};

/// Opens an IKE record and its first IPsec record: both, each at the lowest free place of its table, or
/// neither. The IKE record has no marks, no additional addresses and tally 0, and owns the IPsec record,
/// which has the same pair. How many records the peer has is not asked.
///
/// Numbers, in the order of the checks: [`BadArgument`](Number::BadArgument) for a list not of 128
/// records, an SPI of 0, an operator that is neither or a pair that isn't one of its family;
/// [`SpiInUse`](Number::SpiInUse), by either operator, for the IKE record, then for the IPsec record;
/// [`OperatorAtShare`](Number::OperatorAtShare) likewise; [`Full`](Number::Full) likewise;
/// [`Done`](Number::Done). A refusal leaves both tables.
#[inline]
pub fn open(
    ike: &mut [IkeRecord; IKE_PLACES],
    ipsec: &mut [IpsecRecord],
    opening: &Opening,
) -> Number {
    // SAFETY: both tables are lent for the call and to nothing else, the count is that of the slice, and
    // the opening goes by value; any may be given.
    unsafe { raw::unmavreth_open(ike, ipsec.as_mut_ptr(), ipsec.len(), *opening) }.into()
}

/// Opens a further IPsec record at the lowest free place, with the pair of the IKE record that owns it.
///
/// Numbers, in the order of the checks: [`BadArgument`](Number::BadArgument) for a list not of 128
/// records, an SPI of 0 or an operator that is neither, [`NoSuchRecord`](Number::NoSuchRecord) for the owner,
/// [`SpiInUse`](Number::SpiInUse), by either operator, [`OperatorAtShare`](Number::OperatorAtShare),
/// [`Full`](Number::Full), [`Done`](Number::Done). A refusal leaves the list.
#[inline]
pub fn open_ipsec(
    ike: &[IkeRecord; IKE_PLACES],
    ipsec: &mut [IpsecRecord],
    spi: u32,
    owner: u64,
    operator: Operator,
) -> Number {
    // SAFETY: both tables are lent for the call, the one that is written to nothing else, and the count
    // is that of the slice.
    unsafe { raw::unmavreth_open_ipsec(ike, ipsec.as_mut_ptr(), ipsec.len(), spi, owner, operator) }
        .into()
}

/// Closes an IKE record and every IPsec record that it owns; their places are free then.
///
/// Numbers, in the order of the checks: [`BadArgument`](Number::BadArgument) for a list not of 128
/// records, an SPI of 0 or an operator that is neither, [`NoSuchRecord`](Number::NoSuchRecord),
/// [`Done`](Number::Done). A refusal leaves both tables.
#[inline]
pub fn close_ike(
    ike: &mut [IkeRecord; IKE_PLACES],
    ipsec: &mut [IpsecRecord],
    spi: u64,
    operator: Operator,
) -> Number {
    // SAFETY: as in `open_ipsec`.
    unsafe { raw::unmavreth_close_ike(ike, ipsec.as_mut_ptr(), ipsec.len(), spi, operator) }.into()
}

/// Closes an IPsec record; its place is free then. Whose it is goes by the IKE record that owns it: where there
/// is none it is nobody's, and not closed.
///
/// Numbers, in the order of the checks: [`BadArgument`](Number::BadArgument) for a list not of 128
/// records, an SPI of 0 or an operator that is neither, [`NoSuchRecord`](Number::NoSuchRecord),
/// [`Done`](Number::Done). A refusal leaves the list.
#[inline]
pub fn close_ipsec(
    ike: &[IkeRecord; IKE_PLACES],
    ipsec: &mut [IpsecRecord],
    spi: u32,
    operator: Operator,
) -> Number {
    // SAFETY: as in `open_ipsec`.
    unsafe { raw::unmavreth_close_ipsec(ike, ipsec.as_mut_ptr(), ipsec.len(), spi, operator) }
        .into()
}

/// Marks an IKE record as being deleted, for a host that begins to delete the IKE SA: it is not cloned any
/// more. The mark stays until the record is closed.
///
/// Numbers, in the order of the checks: [`BadArgument`](Number::BadArgument) for an SPI of 0 or an operator
/// that is neither, [`NoSuchRecord`](Number::NoSuchRecord), [`Done`](Number::Done), also where it has the mark
/// already. A refusal leaves the table.
#[inline]
pub fn mark_deletion(ike: &mut [IkeRecord; IKE_PLACES], spi: u64, operator: Operator) -> Number {
    // SAFETY: the table is lent for the call and to nothing else.
    unsafe { raw::unmavreth_mark_deletion(ike, spi, operator) }.into()
}
