// What is written and what is read of entries, one by one: each sample with each number about its room, each
// string about its longest, what isn't within the source, and every kind; outputs about what is needed; each
// number in each form, and every place.
use super::super::traces::damage::{numbers_with_forms, parts};
use super::super::traces::examples;
use super::super::traces::listed::{request, samples};
use super::changes::numbers;
use super::lending::{about, as_read, packed, sorts};
use super::Case;
use crate::rules::{Plain, TraceRules};
use crate::trace::codec::{Buffer, Lent};
use crate::trace::entry::{Entry, Request, Rules};
use crate::trace::fields::{Field, MOST_OCTETS, MOST_RULES};
use crate::trace::slots::{unused, SLOTS};
use crate::trace::writing::entry_octets;

/// Something to write, and the output.
type Writing = (Lent, Vec<u8>);

/// Each of what is written with one of what is read, in turn, up to the end of both.
pub fn all() -> Vec<Case> {
    let (written, read) = (written(), read());
    let most = written.len().max(read.len());
    let both = written.iter().cycle().zip(read.iter().cycle()).take(most);
    let case = |((lent, output), buffer): (&Writing, &Buffer)| Case {
        lent: lent.clone(),
        output: output.clone(),
        buffer: buffer.clone(),
    };
    both.map(case).collect()
}

fn written() -> Vec<Writing> {
    let seven = packed(&Entry::CloseIke { spi: 7, operator: 1 });
    let mut all = vec![(seven.clone(), vec![0xaa, 0xbb, 0xcc, 0xdd]), (seven, vec![0xaa])];
    all.extend(entries().iter().flat_map(|entry| about_length(&packed(entry))));
    all.extend(misplaced());
    all.extend(unlooked_at());
    all.extend(kinds());
    all
}

fn read() -> Vec<Buffer> {
    let own = |entry: &Entry| Buffer { octets: entry_octets(entry), place: 0 };
    let mut all: Vec<Buffer> = places();
    all.extend(forms());
    all.extend(entries().iter().map(own));
    all
}

/// The samples with each number about its room, and requests with strings about the longest.
fn entries() -> Vec<Entry> {
    let mut entries = Vec::new();
    for sample in samples() {
        let count = numbers(&mut sample.clone()).len();
        for place in 0..count {
            for change in 0..VALUES {
                let mut entry = sample.clone();
                if let Some((field, number)) = numbers(&mut entry).into_iter().nth(place) {
                    *number = values(field)[change];
                }
                entries.push(entry);
            }
        }
        entries.push(sample);
    }
    for length in [0, 19, 20, MOST_OCTETS - 1, MOST_OCTETS, MOST_OCTETS + 1] {
        let octets = vec![3; length];
        let requests = [
            Request { nat_source: octets.clone(), ..request() },
            Request { nat_destination: octets.clone(), ..request() },
            Request { body: octets.clone(), ..request() },
            Request { cookie: octets.clone(), ..request() },
        ];
        entries.extend(requests.map(Entry::Request));
        let body = octets.clone();
        let operator = length as u64 % 2;
        entries.push(Entry::CheckResponse { spi: 7, id: 1, first: 41, body, operator });
        entries.push(Entry::Clone { spi: 7, new_spi: 8, first: 41, body: octets, operator });
    }
    entries
}

const VALUES: usize = 12;

/// About the greatest that the field has room for, and about what another octet is needed for.
fn values(field: Field) -> [u64; VALUES] {
    let most = Plain.most(field);
    let over = most.saturating_add(1);
    [0, 1, 2, 127, 128, 16_383, 16_384, most - 1, most, over, most.saturating_mul(2), u64::MAX]
}

/// With outputs of just enough octets, one less, more, and none.
fn about_length(lent: &Lent) -> Vec<Writing> {
    let length = lent.length();
    let lengths = [0, length.saturating_sub(1), length, length + 3];
    lengths.map(|length| (lent.clone(), vec![0xee; length])).into()
}

/// Each offset and each length of each sample about the end of the source, of sources that end with the
/// last octet needed and of others, with enough output and with none.
fn misplaced() -> Vec<Writing> {
    let empty = Request {
        nat_source: vec![],
        nat_destination: vec![],
        body: vec![],
        cookie: vec![],
        ..request()
    };
    let mut all = Vec::new();
    for entry in samples().into_iter().chain([Entry::Request(empty)]) {
        let sorts = sorts(&entry);
        for lent in [packed(&entry), as_read(&entry, &[9; 3], &[9; 20])] {
            for (place, sort) in sorts.iter().enumerate() {
                for value in about(&lent, place, *sort) {
                    let mut lent = lent.clone();
                    lent.slots[place] = value;
                    all.push((lent.clone(), vec![0xee; 200]));
                    all.push((lent, vec![]));
                }
            }
            let source = lent.source[..lent.source.len().saturating_sub(1)].to_vec();
            all.extend(about_length(&Lent { source, ..lent.clone() }));
            all.extend(about_length(&Lent { source: vec![], ..lent }));
        }
    }
    all
}

/// The greatest number in every slot that an entry doesn't have, and in those past every count.
fn unlooked_at() -> Vec<Writing> {
    let policies = (0..=MOST_RULES as u64 + 2).map(|count| Entry::Policy {
        count,
        rules: Box::new(Rules::default()),
        operator: count % 2,
    });
    let mut all = Vec::new();
    for entry in samples().into_iter().chain(policies) {
        let items = match &entry {
            Entry::Policy { count, .. } => (*count as usize).min(MOST_RULES),
            _ => 0,
        };
        for value in [1, 256, u64::MAX] {
            let mut lent = packed(&entry);
            lent.slots[unused(lent.kind, items)].fill(value);
            all.extend(about_length(&lent));
        }
    }
    all
}

/// Every kind that there isn't, with slots that would fit and some that wouldn't, with output and without;
/// and each kind with nothing in its slots.
fn kinds() -> Vec<Writing> {
    let mut all = Vec::new();
    for kind in 0..=255 {
        let lent = |value| Lent { kind, slots: Box::new([value; SLOTS]), source: vec![5; 16] };
        all.push((lent(0), vec![0xee; 200]));
        all.push((lent(u64::MAX), vec![]));
    }
    all
}

/// Each number of each sample in each form, alone and with an entry behind it, and the octets that end with
/// it or inside it.
fn forms() -> Vec<Buffer> {
    let mut all = Vec::new();
    let mut add = |octets: Vec<u8>| all.push(Buffer { octets, place: 1 });
    for sample in samples() {
        let parts = parts(&sample);
        for (place, forms) in numbers_with_forms(&sample) {
            for form in forms {
                let mut parts = parts.clone();
                parts[place] = form;
                add([vec![2], parts.concat(), vec![2, 7, 0]].concat());
            }
            let to_number = [vec![2], parts[..=place].concat()].concat();
            add(to_number[..to_number.len() - 1].to_vec());
            add(to_number);
        }
    }
    all
}

/// A trace with an entry of every kind, read at every place and at some past its end.
fn places() -> Vec<Buffer> {
    let octets = examples::all_kinds();
    let past = [
        1 << 16,
        1 << 32,
        (1 << 32) + 44,
        1 << 63,
        usize::MAX / 2,
        usize::MAX - 16,
        usize::MAX - 1,
        usize::MAX,
    ];
    let places = (0..=octets.len() + 2).chain(past);
    let empty = [0, 1, usize::MAX].map(|place| Buffer { octets: vec![], place });
    places.map(|place| Buffer { octets: octets.clone(), place }).chain(empty).collect()
}
