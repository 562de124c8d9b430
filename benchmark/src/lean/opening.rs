// Opens an IKE record and its first IPsec record.
use super::addresses::is_sound;
use super::shares::{ike_of, ipsec_of, is_operator};
use unmavreth::limits::{IKE_SHARE, IPSEC_SHARE};
use unmavreth::{IkeRecord, IpsecRecord, Opening};

#[inline]
pub fn open(ike: &mut [IkeRecord; 32], ipsec: &mut [IpsecRecord], opening: &Opening) -> u8 {
    let Opening { spi, agreed, pair, child } = *opening;
    let Ok(ipsec) = <&mut [IpsecRecord; 128]>::try_from(ipsec) else { return 1 };
    if spi == 0 || child == 0 || !is_sound(&pair) || !is_operator(agreed.operator) {
        return 1;
    }
    if ike_has(ike, spi) || ipsec_has(ipsec, child) {
        return 11;
    }
    if ike_of(ike, agreed.operator) >= IKE_SHARE
        || ipsec_of(ike, ipsec, agreed.operator) >= IPSEC_SHARE
    {
        return 43;
    }
    let Some(record) = ike.iter_mut().find(|record| record.spi == 0) else { return 10 };
    let Some(owned) = ipsec.iter_mut().find(|record| record.spi == 0) else { return 10 };
    *record = IkeRecord::FREE;
    (record.spi, record.agreed, record.pair) = (spi, agreed, pair);
    *owned = IpsecRecord { spi: child, owner: spi, pair };
    0
}

/// Not inlined, for the compiler would keep every SPI until the search for a free place.
#[inline(never)]
fn ike_has(ike: &[IkeRecord; 32], spi: u64) -> bool {
    ike.iter().any(|record| record.spi == spi)
}

/// By eights, which the compiler writes out.
#[inline(never)]
fn ipsec_has(ipsec: &[IpsecRecord; 128], spi: u32) -> bool {
    ipsec.as_chunks::<8>().0.iter().any(|eight| eight.iter().any(|record| record.spi == spi))
}
