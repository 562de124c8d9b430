// Decides the response to a return routability check.
use super::assess::{assess, Assessment};
use super::notify::is_cookie;
use super::shares::is_operator;
use unmavreth::limits::BODY_MOST;
use unmavreth::{CheckResponse, IkeRecord, IpsecRecord, Pair, PendingCheck};

const CLOSE: u8 = 1;
const ACCEPTED: u8 = 5;

#[inline]
pub fn check(
    ike: &mut [IkeRecord; 32],
    ipsec: &mut [IpsecRecord],
    response: &CheckResponse<'_>,
) -> Assessment {
    let refused = |number| Assessment { number, ..Assessment::default() };
    let Ok(ipsec) = <&mut [IpsecRecord; 128]>::try_from(ipsec) else { return refused(1) };
    if response.spi == 0 || !is_operator(response.operator) {
        return refused(1);
    }
    if response.body.len() > BODY_MOST {
        return refused(3);
    }
    let found = ike.iter_mut().find(|record| record.spi == response.spi);
    let own = found.filter(|record| record.agreed.operator == response.operator);
    let Some(record) = own else { return refused(4) };
    if !record.agreed.mobike.is_set() {
        return refused(5);
    }
    let length = usize::from(record.check.length);
    let sent = record.check.octets.get(..length).unwrap_or_default();
    if !is_cookie(sent.len()) || record.check.id != response.id {
        return refused(14);
    }
    let assessed = assess(sent, response.first, response.body);
    match assessed.outcome {
        0 => return assessed,
        CLOSE => {
            *record = IkeRecord::FREE;
            close_owned(ipsec, response.spi);
        }
        outcome => {
            record.check = PendingCheck::NONE;
            if outcome == ACCEPTED {
                move_owned(ipsec, response.spi, record.pair);
            }
        }
    }
    assessed
}

/// By eights, which the compiler writes out.
#[inline(never)]
fn move_owned(ipsec: &mut [IpsecRecord; 128], owner: u64, pair: Pair) {
    for eight in ipsec.as_chunks_mut::<8>().0 {
        for owned in eight {
            if owned.owner == owner && owned.spi != 0 {
                owned.pair = pair;
            }
        }
    }
}

#[inline(never)]
fn close_owned(ipsec: &mut [IpsecRecord; 128], owner: u64) {
    for owned in ipsec {
        if owned.owner == owner && owned.spi != 0 {
            *owned = IpsecRecord::FREE;
        }
    }
}
