// Reads a payload chain in one pass.
use super::notify::*;
use unmavreth::limits::BODY_MOST;
use unmavreth::{Flag, Seen};

#[derive(Default)]
pub struct Reading {
    pub number: u8,
    pub critical: u8,
    pub offset: u16,
    pub ordinal: u16,
    /// Of a rekey: CLONE_IKE_SA is there.
    pub clone: bool,
    pub seen: Seen,
}

/// What was read goes to `reading`, so that it isn't copied.
#[inline]
pub fn read(first: u8, body: &[u8], reading: &mut Reading) {
    read_as::<false>(first, body, reading);
}

/// The same of a rekey, in which the notifications of cloning are known.
#[inline]
pub fn read_rekey(first: u8, body: &[u8], reading: &mut Reading) {
    read_as::<true>(first, body, reading);
}

#[inline(always)]
fn read_as<const REKEY: bool>(first: u8, body: &[u8], reading: &mut Reading) {
    *reading = Reading::default();
    if body.len() > BODY_MOST {
        reading.number = 3;
        return;
    }
    let (mut kind, mut rest, mut ordinal) = (first, body, 0u16);
    let number = loop {
        if kind == 0 {
            break if rest.is_empty() { 0 } else { 65 };
        }
        let Some(&[next, flags, high, low]) = rest.first_chunk() else { break 61 };
        let length = usize::from(u16::from_be_bytes([high, low]));
        let Some((payload, after)) = rest.split_at_checked(length) else { break 61 };
        if length < 4 {
            break 61;
        }
        if kind == NOTIFY {
            let at = body.len().wrapping_sub(rest.len());
            let fault = note::<REKEY>(&mut reading.seen, &mut reading.clone, payload, at);
            if fault != 0 {
                break fault;
            }
        } else if !(33..=48).contains(&kind) {
            if flags & 0x80 != 0 {
                reading.critical = kind;
                break 7;
            }
            let unknown = &mut reading.seen.tally.unknown_payloads;
            *unknown = unknown.wrapping_add(1);
        }
        (kind, rest, ordinal) = (next, after, ordinal.wrapping_add(1));
    };
    if number == 0 {
        reading.seen.tally.payloads = ordinal;
    } else {
        reading.number = number;
        reading.offset = body.len().wrapping_sub(rest.len()) as u16;
        reading.ordinal = ordinal;
        reading.seen = Seen::default();
    }
}

/// Takes up the Notify at this offset; gives 0, or the number of what is wrong with it.
#[inline(always)]
fn note<const REKEY: bool>(seen: &mut Seen, clone: &mut bool, payload: &[u8], at: usize) -> u8 {
    let Some((&[.., spi, high, low], data)) = payload.split_first_chunk::<8>() else { return 62 };
    let kind = u16::from_be_bytes([high, low]);
    let of_cloning = REKEY && matches!(kind, CLONE_IKE_SA_SUPPORTED | CLONE_IKE_SA);
    if spi != 0 && (usize::from(spi) > data.len() || is_known(kind) || of_cloning) {
        return 62;
    }
    let (size, place) = (data.len(), at.wrapping_add(8) as u16);
    match kind {
        NAT_DETECTION_SOURCE_IP if size != 20 => return 63,
        NAT_DETECTION_SOURCE_IP if seen.nat_source != 0 => {}
        NAT_DETECTION_SOURCE_IP => seen.nat_source = place,
        NAT_DETECTION_DESTINATION_IP if size != 20 => return 63,
        NAT_DETECTION_DESTINATION_IP if seen.nat_destination != 0 => return 64,
        NAT_DETECTION_DESTINATION_IP => seen.nat_destination = place,
        MOBIKE_SUPPORTED => {}
        ADDITIONAL_IP4_ADDRESS if size != 4 => return 63,
        ADDITIONAL_IP4_ADDRESS => return add_address(seen, 4, place),
        ADDITIONAL_IP6_ADDRESS if size != 16 => return 63,
        ADDITIONAL_IP6_ADDRESS => return add_address(seen, 6, place),
        NO_ADDITIONAL_ADDRESSES if size != 0 => return 63,
        NO_ADDITIONAL_ADDRESSES if seen.no_additional.is_set() || seen.list.count != 0 => {
            return 64
        }
        NO_ADDITIONAL_ADDRESSES => seen.no_additional = Flag::YES,
        UPDATE_SA_ADDRESSES if size != 0 => return 63,
        UPDATE_SA_ADDRESSES if seen.update.is_set() => return 64,
        UPDATE_SA_ADDRESSES => seen.update = Flag::YES,
        COOKIE2 if !(8..=64).contains(&size) => return 63,
        COOKIE2 if seen.cookie != 0 => return 64,
        COOKIE2 => (seen.cookie, seen.cookie_len) = (place, size as u16),
        NO_NATS_ALLOWED if size != 12 && size != 36 => return 63,
        NO_NATS_ALLOWED if seen.no_nats != 0 => return 64,
        NO_NATS_ALLOWED => (seen.no_nats, seen.no_nats_len) = (place, size as u16),
        _ if of_cloning && size != 0 => return 63,
        CLONE_IKE_SA if of_cloning => *clone = true,
        _ if of_cloning => {}
        unknown => add_unknown(seen, unknown),
    }
    0
}

#[inline]
fn is_known(kind: u16) -> bool {
    matches!(kind, NAT_DETECTION_SOURCE_IP | NAT_DETECTION_DESTINATION_IP)
        || (MOBIKE_SUPPORTED..=NO_NATS_ALLOWED).contains(&kind)
}

/// The first sixteen are kept, all are counted. Gives 64 after NO_ADDITIONAL_ADDRESSES, else 0.
#[inline]
fn add_address(seen: &mut Seen, family: u8, place: u16) -> u8 {
    if seen.no_additional.is_set() {
        return 64;
    }
    let list = &mut seen.list;
    let at = usize::from(list.count);
    if at < list.offsets.len() {
        (list.offsets[at], list.families[at]) = (place, family);
    }
    list.count = list.count.wrapping_add(1);
    0
}

#[inline]
fn add_unknown(seen: &mut Seen, kind: u16) {
    let tally = &mut seen.tally;
    tally.unknown_notifies = tally.unknown_notifies.wrapping_add(1);
    if kind < FIRST_STATUS {
        if tally.errors == 0 {
            tally.first_error = kind;
        }
        tally.errors = tally.errors.wrapping_add(1);
    }
}
