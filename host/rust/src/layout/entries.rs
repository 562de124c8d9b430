//! What reading and writing an entry of a trace give back.
use crate::limits::ENTRY_SLOTS;

/// An entry that was read.
#[repr(C)]
#[derive(Clone, Copy)]
pub(crate) struct EntryRead {
    pub(crate) number: u8,
    pub(crate) kind: u8,
    pub(crate) next: usize,
    pub(crate) slots: [u64; ENTRY_SLOTS],
}

/// How many octets an entry took.
#[repr(C)]
#[derive(Clone, Copy)]
pub(crate) struct EntryWritten {
    pub(crate) number: u8,
    pub(crate) length: usize,
}

laid_out!(EntryRead, size 672, align 8, { number: 0, kind: 1, next: 8, slots: 16 });
laid_out!(EntryWritten, size 16, align 8, { number: 0, length: 8 });
