// The library's cloning of an IKE SA: its C interface, and its replies as they are compared.
use reference::cloning::{CloneReply, CloneRequest, Cloned};
use reference::lent::{LentTables, NO_SPI_GIVEN};
use reference::tables::{IkeRecord, Tables};
use std::mem::{offset_of, size_of};

#[repr(C)]
struct CCloneReply {
    number: u8,
    first: u8,
    payloads: u16,
    offset: u16,
    ordinal: u16,
    length: u16,
}

const _: () = assert!(size_of::<CCloneReply>() == 10 && offset_of!(CCloneReply, first) == 1);
const _: () =
    assert!(offset_of!(CCloneReply, payloads) == 2 && offset_of!(CCloneReply, offset) == 4);
const _: () =
    assert!(offset_of!(CCloneReply, ordinal) == 6 && offset_of!(CCloneReply, length) == 8);

#[link(name = "unmavreth", kind = "static")]
extern "C" {
    fn unmavreth_clone(
        ike: *mut IkeRecord,
        spi: u64,
        new_spi: u64,
        first: u8,
        body: *const u8,
        body_len: usize,
        out: *mut u8,
        out_len: usize,
        operator: u8,
    ) -> CCloneReply;
}

/// How many octets there are around the output, and which.
const AROUND: usize = 32;
const OCTET: u8 = 0x5b;

/// Clones by the library, which changes the IKE table; also whether what is around that and around the output is kept.
pub fn clone(request: &CloneRequest, tables: &mut Tables) -> (Cloned, bool) {
    let CloneRequest { spi, new_spi, first, body, operator, output } = request;
    let mut lent = LentTables::new(tables, (*spi, NO_SPI_GIVEN), *operator);
    let mut longer = [&[OCTET; AROUND], &output[..], &[OCTET; AROUND]].concat();
    let middle = &mut longer[AROUND..][..output.len()];
    // SAFETY: each start and length are those of a slice that outlives the call, that of the IKE records has its 32,
    // and no two of these overlap; the rest goes by value, and any is allowed.
    let told = unsafe {
        unmavreth_clone(
            lent.ike().as_mut_ptr(),
            *spi,
            *new_spi,
            *first,
            body.as_ptr(),
            body.len(),
            middle.as_mut_ptr(),
            middle.len(),
            *operator,
        )
    };
    let output = middle.to_vec();
    let around = [&longer[..AROUND], &longer[AROUND + output.len()..]];
    let kept_output = around == [[OCTET; AROUND]; 2];
    (Cloned { reply: reply(told), output }, lent.give_back(tables) && kept_output)
}

fn reply(told: CCloneReply) -> CloneReply {
    CloneReply {
        number: told.number,
        first: told.first,
        payloads: usize::from(told.payloads),
        offset: usize::from(told.offset),
        ordinal: usize::from(told.ordinal),
        length: usize::from(told.length),
    }
}
