// Handles one request: checks 1 to 7, then steps 1 to 4.
use super::addresses::is_sound;
use super::notify::{is_cookie, UNACCEPTABLE_ADDRESSES, UNEXPECTED_NAT_DETECTED};
use super::policy::acceptable;
use super::reader::{read, Reading};
use super::response::{self, ROOM};
use unmavreth::limits::{BODY_MOST, IPSEC_PLACES, OPERATORS};
use unmavreth::{Address, IkeRecord, IpsecRecord, Pair, PendingCheck, Policy, Request, Seen};

#[derive(Default)]
pub struct Reply {
    pub number: u8,
    pub update: u8,
    pub list: u8,
    pub first: u8,
    pub left_off: u16,
    pub payloads: u16,
    pub offset: u16,
    pub ordinal: u16,
    pub cookie: u16,
    pub cookie_len: u16,
    pub length: u16,
}

const DONE: u8 = 1;
const STALE: u8 = 2;

#[inline]
pub fn handle(
    ike: &mut [IkeRecord; 32],
    ipsec: &[IpsecRecord],
    policies: &[Policy; OPERATORS],
    request: &Request<'_>,
    out: &mut [u8],
) -> Reply {
    let refused = |number| Reply { number, ..Reply::default() };
    if ipsec.len() != IPSEC_PLACES || !is_cookie(request.cookie.len()) {
        return refused(1);
    }
    let Ok(nat_source) = request.nat_source.try_into() else { return refused(1) };
    let Ok(nat_destination) = request.nat_destination.try_into() else { return refused(1) };
    if request.spi == 0 || !is_sound(&request.pair) {
        return refused(1);
    }
    let named = usize::from(u8::from(request.operator));
    let Some(policy) = policies.get(named) else { return refused(1) };
    let Some(out) = out.first_chunk_mut::<ROOM>() else { return refused(2) };
    if request.body.len() > BODY_MOST {
        return refused(3);
    }
    let found = ike.iter_mut().find(|record| record.spi == request.spi);
    let own = found.filter(|record| record.agreed.operator == request.operator);
    let Some(record) = own else { return refused(4) };
    if !record.agreed.mobike.is_set() {
        return refused(5);
    }
    let mut reading = Reading::default();
    read(request.first, request.body, &mut reading);
    if reading.number != 0 {
        return flawed(&reading, out);
    }
    serve(record, policy, request, [nat_source, nat_destination], &reading.seen, out)
}

#[cold]
fn flawed(reading: &Reading, out: &mut [u8; ROOM]) -> Reply {
    let length = match reading.number {
        7 => response::unsupported(out, reading.critical),
        _ => response::invalid_syntax(out),
    };
    let Reading { number, offset, ordinal, .. } = *reading;
    Reply { number, first: 41, offset, ordinal, length, ..Reply::default() }
}

#[inline]
fn serve(
    record: &mut IkeRecord,
    policy: &Policy,
    request: &Request<'_>,
    [nat_source, nat_destination]: [&[u8; 20]; 2],
    seen: &Seen,
    out: &mut [u8; ROOM],
) -> Reply {
    let tally = &seen.tally;
    let unknown = u32::from(tally.unknown_payloads).wrapping_add(tally.unknown_notifies.into());
    record.unknown = record.unknown.saturating_add(unknown);
    let cookie = part(request.body, seen.cookie, seen.cookie_len);
    let mut reply = Reply {
        payloads: tally.payloads,
        cookie: seen.cookie,
        cookie_len: seen.cookie_len,
        ..Reply::default()
    };
    match update(record, policy, request, seen) {
        Ok(effect) => reply.update = effect,
        Err((number, kind)) => {
            reply.number = number;
            reply.length = response::error(out, kind, cookie);
            reply.first = 41;
            return reply;
        }
    }
    (reply.list, reply.left_off) = replace_list(record, request, seen);
    reply.length = if seen.nat_source != 0 && seen.nat_destination != 0 {
        response::values(out, nat_source, nat_destination, cookie)
    } else {
        response::put_cookie(out, cookie)
    };
    reply.first = if reply.length == 0 { 0 } else { 41 };
    reply
}

/// Step 2; of a refused update the number and the error.
#[inline]
fn update(
    record: &mut IkeRecord,
    policy: &Policy,
    request: &Request<'_>,
    seen: &Seen,
) -> Result<u8, (u8, u16)> {
    if !seen.update.is_set() {
        return Ok(0);
    }
    let mark = u64::from(request.id) + 1;
    if mark <= record.update_mark {
        return Ok(STALE);
    }
    record.update_mark = mark;
    let no_nats = part(request.body, seen.no_nats, seen.no_nats_len);
    if seen.no_nats != 0 && !is_unaltered(&request.pair, no_nats) {
        return Err((8, UNEXPECTED_NAT_DETECTED));
    }
    if !acceptable(policy, &request.pair) {
        return Err((9, UNACCEPTABLE_ADDRESSES));
    }
    record.pair = request.pair;
    keep_check(&mut record.check, request);
    Ok(DONE)
}

/// The cookie, zeros behind it, and the ID.
#[inline]
fn keep_check(check: &mut PendingCheck, request: &Request<'_>) {
    *check = PendingCheck { id: request.check_id, ..PendingCheck::NONE };
    if let Some(octets) = check.octets.get_mut(..request.cookie.len()) {
        octets.copy_from_slice(request.cookie);
        check.length = request.cookie.len() as u8;
    }
}

/// Whether NO_NATS_ALLOWED tells the packet's addresses and ports.
#[inline]
fn is_unaltered(pair: &Pair, told: &[u8]) -> bool {
    match pair.family {
        4 => is_path::<4>(pair, told),
        _ => is_path::<16>(pair, told),
    }
}

/// The same, of addresses of so many octets.
#[inline]
fn is_path<const OCTETS: usize>(pair: &Pair, told: &[u8]) -> bool {
    let Some((source, rest)) = told.split_first_chunk::<OCTETS>() else { return false };
    let Some((destination, ports)) = rest.split_first_chunk::<OCTETS>() else { return false };
    let Ok(&[a, b, c, d]) = <&[u8; 4]>::try_from(ports) else { return false };
    Some(source) == pair.source.first_chunk()
        && Some(destination) == pair.destination.first_chunk()
        && [a, b] == pair.source_port.to_be_bytes()
        && [c, d] == pair.destination_port.to_be_bytes()
}

/// Step 3: what became of the list, and how many addresses were left off.
#[inline]
fn replace_list(record: &mut IkeRecord, request: &Request<'_>, seen: &Seen) -> (u8, u16) {
    let list = &seen.list;
    if list.count == 0 && !seen.no_additional.is_set() {
        return (0, 0);
    }
    let mark = u64::from(request.id) + 1;
    if mark <= record.list_mark {
        return (STALE, 0);
    }
    record.list_mark = mark;
    record.count = list.count.min(16);
    record.addresses = [Address::NONE; 16];
    let kept = &mut record.addresses[..usize::from(record.count)];
    for ((place, &offset), &family) in kept.iter_mut().zip(&list.offsets).zip(&list.families) {
        keep(place, request.body, offset, family);
    }
    (DONE, list.count.saturating_sub(16))
}

/// Fills a place that holds zeros.
#[inline]
fn keep(place: &mut Address, body: &[u8], offset: u16, family: u8) {
    let rest = body.get(usize::from(offset)..).unwrap_or_default();
    place.family = family;
    if family == 6 {
        if let Some(octets) = rest.first_chunk::<16>() {
            place.octets = *octets;
        }
    } else if let Some(octets) = rest.first_chunk::<4>() {
        place.octets[..4].copy_from_slice(octets);
    }
}

/// The part of the body at this offset; empty where the length is 0.
#[inline]
fn part(body: &[u8], offset: u16, length: u16) -> &[u8] {
    let rest = body.get(usize::from(offset)..).unwrap_or_default();
    rest.get(..usize::from(length)).unwrap_or_default()
}
