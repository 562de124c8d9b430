// Traces that matter to a program that reads through a window: entries and refusals that begin a few
// octets before a place where a window may end, and the longest entries wherever they begin.
use super::listed::request;
use crate::trace::entry::{Entry, Pair, Request};
use crate::trace::fields::MOST_OCTETS;
use crate::trace::writing::{entry_octets, LONGEST};

/// The longest entry, powers of two that buffers may have, and twice the longest.
const ENDS: [usize; 6] = [4_096, 8_192, 16_384, LONGEST, 2 * LONGEST, 65_536];

pub fn all() -> Vec<Vec<u8>> {
    let mut traces = Vec::new();
    for end in ENDS {
        for before in (0..=14).chain([40, 41, 42, 4_000]) {
            let filled = filled(end - before);
            for last in last_entries() {
                traces.push([&filled[..], &last].concat());
            }
        }
    }
    for before in (0..=12).chain([100, LONGEST - 1, LONGEST, LONGEST + 1]) {
        let whole = [filled(before), longest(), vec![2, 7, 0]].concat();
        traces.push(whole[..whole.len() - 4].to_vec());
        traces.push(whole);
    }
    for before in [0, 2, 3, 5, 4_000, 8_000, LONGEST - 2, LONGEST - 1, LONGEST + 1] {
        for count in 2..=5 {
            traces.push(longest_in_a_row(before, count));
        }
    }
    traces
}

/// The longest entry several times behind so many octets, then a short entry and an unknown kind.
pub fn longest_in_a_row(before: usize, count: usize) -> Vec<u8> {
    [filled(before), longest().repeat(count), vec![2, 7, 0, 9]].concat()
}

/// Entries up to a few octets before the end of a window as long as the longest entry, and one more.
pub fn about_longest() -> Vec<Vec<u8>> {
    let starts = (0..=11).step_by(3).map(|before| filled(LONGEST - before));
    starts.flat_map(|start| last_entries().map(|last| [start.clone(), last].concat())).collect()
}

/// One that is read, one refused for a number of ten octets, an unknown kind, and a cut one.
fn last_entries() -> [Vec<u8>; 5] {
    let greatest = [&[0xff; 9][..], &[1]].concat();
    [
        [&[1, 0x80, 0x80, 0x80, 0x80, 8][..], &greatest, &[1, 2, 7, 0]].concat(),
        [&[3][..], &greatest].concat(),
        [&[5, 1][..], &greatest].concat(),
        greatest.clone(),
        [&[2][..], &greatest[..9]].concat(),
    ]
}

/// The longest entry that is read.
fn longest() -> Vec<u8> {
    let pair =
        Pair { family: 255, source_port: 65_535, destination_port: 65_535, ..Pair::default() };
    entry_octets(&Entry::Request(Request {
        spi: u64::MAX,
        id: u64::from(u32::MAX),
        pair,
        nat_source: vec![0x81; MOST_OCTETS],
        nat_destination: vec![0x82; MOST_OCTETS],
        first: 255,
        body: vec![0x83; MOST_OCTETS],
        cookie: vec![0x84; MOST_OCTETS],
        check_id: u64::from(u32::MAX),
        operator: 1,
    }))
}

/// Entries of so many octets in all, but for 1 and 2, which no entry has.
fn filled(mut count: usize) -> Vec<u8> {
    let with_body =
        |length| entry_octets(&Entry::Request(Request { body: vec![0; length], ..request() }));
    let mut octets = Vec::new();
    let least = with_body(128).len();
    while count > 4_000 {
        octets.extend(with_body(128 + 3_000 - least));
        count -= 3_000;
    }
    if count >= least {
        octets.extend(with_body(128 + count - least));
        return octets;
    }
    let longer: &[u8] = [&[][..], &[2, 0x80, 1, 0], &[2, 0x80, 0x80, 1, 1]][count % 3];
    octets.extend(longer);
    count = count.saturating_sub(longer.len());
    octets.extend([2, 7, 0].repeat(count / 3));
    octets
}

#[cfg(test)]
mod tests {
    use super::*;

    #[test]
    fn traces_are_filled_as_far_as_they_should_be() {
        for count in (3..500).chain([3_999, 4_000, 4_001, 12_351, 65_536]) {
            assert_eq!(filled(count).len(), count);
        }
        assert_eq!(longest().len(), LONGEST);
        assert_eq!(longest_in_a_row(3, 4).len(), 3 + 4 * LONGEST + 4);
    }
}
