// Octets to read an entry of, and the place at which it is read.
use super::super::traces;
use crate::rng::Rng;
use crate::rules::Plain;
use crate::trace::codec::Buffer;
use crate::trace::entry::Entry;
use crate::trace::reading;
use crate::trace::writing::entry_octets;

/// The octets of the entry with others around them, or any trace with a place in it.
pub fn drawn(rng: &mut Rng, entry: &Entry) -> Buffer {
    if rng.one_in(3) {
        let (before, behind) = (rng.between(0, 20), rng.between(0, 3));
        let octets = [rng.octets(before), entry_octets(entry), rng.octets(behind)].concat();
        return Buffer { octets, place: before };
    }
    let size = rng.pick(&[0, 200, 1_000, 5_000]);
    let octets = traces::made(rng, size);
    let place = match rng.below(8) {
        0 => octets.len() + rng.below(3),
        1 => rng.pick(&[usize::MAX, usize::MAX - 1, usize::MAX - 4_096, 1 << 32]),
        2 | 3 => rng.between(0, octets.len()),
        4 => last_start(&octets),
        _ => any_start(rng, &octets),
    };
    Buffer { octets, place }
}

/// The places at which the entries of a trace begin, up to one that isn't read or the end.
fn starts(octets: &[u8]) -> Vec<usize> {
    let mut starts = vec![0];
    let mut place = 0;
    while let Ok(read) = reading::read(octets, place, &Plain) {
        place = read.next;
        starts.push(place);
    }
    starts
}

fn last_start(octets: &[u8]) -> usize {
    starts(octets).pop().unwrap_or_default()
}

fn any_start(rng: &mut Rng, octets: &[u8]) -> usize {
    rng.pick(&starts(octets))
}
