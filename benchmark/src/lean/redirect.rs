// Decides on a REDIRECT, at the client's end.
use unmavreth::redirect::Redirects;

/// What is told; all but the number is 0 or empty with a refusal.
#[derive(Default)]
pub struct Decision<'a> {
    pub number: u8,
    pub identity_type: u8,
    pub identity: &'a [u8],
    pub nonce: &'a [u8],
}

#[inline]
pub fn decide<'a>(
    record: &mut Redirects,
    exchange: u8,
    sent: &[u8],
    time: u64,
    data: &'a [u8],
) -> Decision<'a> {
    let refused = |number| Decision { number, ..Decision::default() };
    let Some((identity_type, identity, nonce)) = read(data) else { return refused(30) };
    let init = exchange == 0;
    if init && !(16..=256).contains(&sent.len()) {
        return refused(30);
    }
    if exchange == 2 || exchange > 4 || (!init && !nonce.is_empty()) {
        return refused(31);
    }
    if init && nonce != sent {
        return refused(32);
    }
    let kept = usize::from(record.count).min(5);
    if kept > 0 && time < record.times[kept - 1] {
        return refused(33);
    }
    // A time in the future counts as recent.
    if kept == 5 && record.times.iter().all(|at| time < *at || time.wrapping_sub(*at) < 300) {
        return refused(34);
    }
    keep(record, kept, time);
    Decision { number: 0, identity_type, identity, nonce }
}

/// Keeps the last five times, with zeros past the count.
#[inline]
fn keep(record: &mut Redirects, kept: usize, time: u64) {
    if kept == 5 {
        record.times.copy_within(1.., 0);
    }
    let last = kept.min(4);
    record.times[last] = time;
    record.count = (last as u8).wrapping_add(1);
    record.times[last.wrapping_add(1)..].fill(0);
}

/// The type of the identity, the identity, and what stands behind it.
#[inline]
fn read(data: &[u8]) -> Option<(u8, &[u8], &[u8])> {
    let [identity_type, size, rest @ ..] = data else { return None };
    let fits = match identity_type {
        1 => *size == 4,
        2 => *size == 16,
        3 => *size > 0,
        _ => false,
    };
    let (identity, nonce) = rest.split_at_checked(usize::from(*size))?;
    fits.then_some((*identity_type, identity, nonce))
}
