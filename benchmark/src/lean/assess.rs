// Says what a response comes to, at the initiator's end.
use super::notify::{may_be_sent, UNACCEPTABLE_ADDRESSES, UNEXPECTED_NAT_DETECTED};
use super::reader::{read, Reading};
use unmavreth::Seen;

#[derive(Default)]
pub struct Assessment {
    pub number: u8,
    pub outcome: u8,
    pub payloads: u16,
    pub offset: u16,
    pub ordinal: u16,
    pub tally: u32,
    pub cookie: u16,
    pub cookie_len: u16,
}

#[inline]
pub fn assess(sent: &[u8], first: u8, body: &[u8]) -> Assessment {
    if !may_be_sent(sent.len()) {
        return Assessment { number: 1, ..Assessment::default() };
    }
    let mut reading = Reading::default();
    read(first, body, &mut reading);
    let Reading { number, offset, ordinal, ref seen, .. } = reading;
    if number != 0 {
        return Assessment { number, offset, ordinal, ..Assessment::default() };
    }
    let tally = &seen.tally;
    let unknown = u32::from(tally.unknown_payloads)
        .wrapping_add(tally.unknown_notifies.wrapping_sub(tally.errors).into());
    let unasked = u32::from(sent.is_empty() && seen.cookie != 0);
    Assessment {
        outcome: outcome(sent, body, seen),
        payloads: tally.payloads,
        tally: unknown.wrapping_add(unasked),
        cookie: seen.cookie,
        cookie_len: seen.cookie_len,
        ..Assessment::default()
    }
}

/// 1 close, 2 NAT seen, 3 unacceptable, 4 failed, 5 accepted.
#[inline]
fn outcome(sent: &[u8], body: &[u8], seen: &Seen) -> u8 {
    let error = seen.tally.errors != 0;
    if !sent.is_empty() {
        let closes = if seen.cookie == 0 {
            !error
        } else {
            let rest = body.get(usize::from(seen.cookie)..).unwrap_or_default();
            rest.get(..usize::from(seen.cookie_len)) != Some(sent)
        };
        if closes {
            return 1;
        }
    }
    match seen.tally.first_error {
        _ if !error => 5,
        UNEXPECTED_NAT_DETECTED => 2,
        UNACCEPTABLE_ADDRESSES => 3,
        _ => 4,
    }
}
