// The library's reading and writing of single entries: its C interface, and what it gives as it is compared.
use reference::trace::codec::{Codec, Lent, Told};
use reference::trace::slots::{Slots, SLOTS};
use reference::trace::writing::Written;
use std::mem::{offset_of, size_of};

#[repr(C)]
struct CEntryRead {
    number: u8,
    kind: u8,
    next: usize,
    slots: Slots,
}

#[repr(C)]
struct CEntryWritten {
    number: u8,
    length: usize,
}

const _: () = assert!(size_of::<CEntryRead>() == 672 && offset_of!(CEntryRead, kind) == 1);
const _: () = assert!(offset_of!(CEntryRead, next) == 8 && offset_of!(CEntryRead, slots) == 16);
const _: () = assert!(size_of::<CEntryWritten>() == 16 && offset_of!(CEntryWritten, length) == 8);

#[link(name = "unmavreth", kind = "static")]
extern "C" {
    fn unmavreth_read_entry(trace: *const u8, trace_len: usize, at: usize) -> CEntryRead;
    fn unmavreth_write_entry(
        kind: u8,
        slots: *const [u64; SLOTS],
        source: *const u8,
        source_len: usize,
        out: *mut u8,
        out_len: usize,
    ) -> CEntryWritten;
}

/// The library.
pub struct Ours;

/// How many octets there are around what is lent; behind octets to be read, such as end every number.
const AROUND: usize = 32;
const BEHIND: u8 = 0x01;

impl Codec for Ours {
    fn read(&self, octets: &[u8], place: usize) -> Told {
        let longer = [octets, &[BEHIND; AROUND]].concat();
        // SAFETY: start and length are those of the beginning of a slice that outlives the call; any
        // place is allowed.
        let read = unsafe { unmavreth_read_entry(longer.as_ptr(), octets.len(), place) };
        let CEntryRead { number, kind, next, slots } = read;
        Told::of(number, kind, next, Box::new(slots), octets)
    }

    fn write(&self, lent: &Lent, output: &[u8]) -> Written {
        let Lent { kind, slots, source } = lent.clone();
        let mut longer = [&[BEHIND; AROUND], output, &[BEHIND; AROUND]].concat();
        let middle = &mut longer[AROUND..][..output.len()];
        // SAFETY: each start and length are those of a slice that outlives the call, and no two of
        // them overlap; any kind is allowed, and any slots.
        let written = unsafe {
            let (start, room) = (middle.as_mut_ptr(), middle.len());
            unmavreth_write_entry(kind, &*slots, source.as_ptr(), source.len(), start, room)
        };
        let CEntryWritten { number, length } = written;
        let output = middle.to_vec();
        let behind = &longer[AROUND + output.len()..];
        let around_kept = [&longer[..AROUND], behind] == [[BEHIND; AROUND]; 2]
            && (slots, source) == (lent.slots.clone(), lent.source.clone());
        Written { number, length, output, around_kept }
    }
}
