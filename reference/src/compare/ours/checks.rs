// The library's decision of check responses: its C interface, and its answers as they are compared.
use super::assess::{assessed, CAssessed};
use reference::assess::Assessed;
use reference::check::CheckResponse;
use reference::lent::{LentTables, NO_SPI_GIVEN};
use reference::tables::{IkeRecord, IpsecRecord, Tables};

#[link(name = "unmavreth", kind = "static")]
extern "C" {
    fn unmavreth_check(
        ike: *mut IkeRecord,
        ipsec: *mut IpsecRecord,
        ipsec_len: usize,
        spi: u64,
        id: u32,
        first: u8,
        body: *const u8,
        body_len: usize,
        operator: u8,
    ) -> CAssessed;
}

/// Decides the response by the library, which changes the tables; also whether what is around the lent ones is kept.
pub fn check<'a>(response: &'a CheckResponse, tables: &mut Tables) -> (Assessed<'a>, bool) {
    let CheckResponse { spi, id, first, body, operator } = response;
    let mut lent = LentTables::new(tables, (*spi, NO_SPI_GIVEN), *operator);
    let ipsec_length = lent.ipsec().len();
    // SAFETY: each start and length are those of a slice that outlives the call, that of the IKE records has its 32,
    // and no two of these overlap; the rest goes by value, and any is allowed.
    let told = unsafe {
        unmavreth_check(
            lent.ike().as_mut_ptr(),
            lent.ipsec().as_mut_ptr(),
            ipsec_length,
            *spi,
            *id,
            *first,
            body.as_ptr(),
            body.len(),
            *operator,
        )
    };
    (assessed(told, body), lent.give_back(tables))
}
