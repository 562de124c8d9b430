// Clones an IKE record, by a rekey that asks for it.
use super::notify::{CLONE_IKE_SA, NO_ADDITIONAL_SAS, TEMPORARY_FAILURE};
use super::reader::{read_rekey, Reading};
use super::response::{self, ROOM};
use super::shares::{ike_of, is_operator};
use unmavreth::limits::{BODY_MOST, IKE_SHARE, PEER_RECORDS_MOST};
use unmavreth::{Agreed, CloneRequest, IkeRecord};

#[derive(Default)]
pub struct CloneReply {
    pub number: u8,
    pub first: u8,
    pub payloads: u16,
    pub offset: u16,
    pub ordinal: u16,
    pub length: u16,
}

#[inline]
pub fn clone_ike(
    ike: &mut [IkeRecord; 32],
    request: &CloneRequest<'_>,
    out: &mut [u8],
) -> CloneReply {
    let refused = |number| CloneReply { number, ..CloneReply::default() };
    if request.spi == 0 || request.new_spi == 0 || !is_operator(request.operator) {
        return refused(1);
    }
    let Some(out) = out.first_chunk_mut::<ROOM>() else { return refused(2) };
    if request.body.len() > BODY_MOST {
        return refused(3);
    }
    let found = ike.iter().find(|record| record.spi == request.spi);
    let own = found.filter(|record| record.agreed.operator == request.operator);
    let Some(&IkeRecord { agreed, pair, deleting, .. }) = own else { return refused(4) };
    if !agreed.cloning.is_set() {
        return refused(40);
    }
    let mut reading = Reading::default();
    read_rekey(request.first, request.body, &mut reading);
    if reading.number != 0 {
        return flawed(&reading, out);
    }
    let payloads = reading.seen.tally.payloads;
    if !reading.clone {
        return CloneReply { number: 44, payloads, ..CloneReply::default() };
    }
    let mut told = |number, kind| CloneReply {
        number,
        first: 41,
        payloads,
        length: response::error(out, kind, &[]),
        ..CloneReply::default()
    };
    let free = ike.iter().position(|record| record.spi == 0);
    let Some(place) = free.filter(|_| !deleting.is_set()) else {
        return told(41, TEMPORARY_FAILURE);
    };
    if records_of(ike, &agreed) >= PEER_RECORDS_MOST {
        return told(42, NO_ADDITIONAL_SAS);
    }
    if ike.iter().any(|record| record.spi == request.new_spi) {
        return CloneReply { number: 11, payloads, ..CloneReply::default() };
    }
    if ike_of(ike, agreed.operator) >= IKE_SHARE {
        return told(43, NO_ADDITIONAL_SAS);
    }
    let clone = &mut ike[place];
    *clone = IkeRecord::FREE;
    (clone.spi, clone.agreed, clone.pair) = (request.new_spi, agreed, pair);
    told(0, CLONE_IKE_SA)
}

/// Those of its operator and its peer. Not inlined, for the compiler would keep every SPI from one search to the
/// next.
#[inline(never)]
fn records_of(ike: &[IkeRecord; 32], of: &Agreed) -> usize {
    let is_of = |agreed: &Agreed| (agreed.operator, agreed.peer) == (of.operator, of.peer);
    ike.iter().filter(|record| record.spi != 0 && is_of(&record.agreed)).count()
}

#[cold]
fn flawed(reading: &Reading, out: &mut [u8; ROOM]) -> CloneReply {
    let length = match reading.number {
        7 => response::unsupported(out, reading.critical),
        _ => response::invalid_syntax(out),
    };
    let Reading { number, offset, ordinal, .. } = *reading;
    CloneReply { number, first: 41, offset, ordinal, length, ..CloneReply::default() }
}
