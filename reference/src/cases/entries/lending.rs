// Slots to write an entry of, with the source that their offsets are of.
use crate::rng::Rng;
use crate::rules::Plain;
use crate::trace::codec::Lent;
use crate::trace::entry::Entry;
use crate::trace::fields::Field;
use crate::trace::slots::{of_entry, unused, Slots, SLOTS};
use crate::trace::writing::{entry_octets, pieces, Piece};

/// What a slot is.
#[derive(Debug, Clone, Copy, PartialEq, Eq)]
pub enum Slot {
    Number,
    /// The offset of an address.
    Address,
    /// The offset of a string, with its length in the next.
    Start,
    Length,
}

/// The slots of an entry, those of rules past the count too.
pub fn sorts(entry: &Entry) -> Vec<Slot> {
    let mut sorts = Vec::new();
    for piece in pieces(entry, &Plain) {
        match piece {
            Piece::Number(Field::Length, _) => sorts.extend([Slot::Start, Slot::Length]),
            Piece::Number(..) => sorts.push(Slot::Number),
            Piece::Address(_) => sorts.push(Slot::Address),
            Piece::Kind(_) | Piece::Octets(_) => {}
        }
    }
    sorts
}

/// The entry with a source of its addresses and strings alone, one behind the other.
pub fn packed(entry: &Entry) -> Lent {
    let mut source = Vec::new();
    let mut slots = Vec::new();
    for piece in pieces(&whole(entry), &Plain) {
        match piece {
            Piece::Number(Field::Length, length) => slots.extend([source.len() as u64, length]),
            Piece::Number(_, number) => slots.push(number),
            Piece::Address(octets) => {
                slots.push(source.len() as u64);
                source.extend_from_slice(octets);
            }
            Piece::Octets(octets) => source.extend_from_slice(octets),
            Piece::Kind(_) => {}
        }
    }
    if let Entry::Policy { count, .. } = entry {
        slots[0] = *count;
    }
    let mut places = Box::new([0; SLOTS]);
    places[..slots.len()].copy_from_slice(&slots);
    Lent { kind: entry.kind() as u8, slots: places, source }
}

/// With all sixteen rules of a policy.
fn whole(entry: &Entry) -> Entry {
    match entry {
        Entry::Policy { rules, operator, .. } => Entry::policy(&rules[..], *operator),
        other => other.clone(),
    }
}

/// The entry with its own octets as the source, behind these and before those.
pub fn as_read(entry: &Entry, before: &[u8], behind: &[u8]) -> Lent {
    let source = [before, &entry_octets(entry), behind].concat();
    let slots = Box::new(of_entry(entry, before.len()));
    Lent { kind: entry.kind() as u8, slots, source }
}

/// The entry in any such source, the slots that it doesn't have with anything in them.
pub fn drawn(rng: &mut Rng, entry: &Entry) -> Lent {
    let mut lent = if rng.one_in(2) {
        packed(entry)
    } else {
        let (before, behind) = (rng.between(0, 20), rng.below(3));
        as_read(entry, &rng.octets(before), &rng.octets(behind))
    };
    if rng.one_in(2) {
        spoil_unused(rng, entry, &mut lent.slots);
    }
    lent
}

/// Anything in the slots that aren't looked at.
fn spoil_unused(rng: &mut Rng, entry: &Entry, slots: &mut Slots) {
    let items = if let Entry::Policy { count, .. } = entry { (*count).min(16) as usize } else { 0 };
    for slot in &mut slots[unused(entry.kind() as u8, items)] {
        *slot = rng.pick(&[0, 1, 255, 256, 4_097, u64::MAX, 1 << 32]);
    }
}

/// An offset or a length changed to one about the end of the source, or past 64 bits, if there is any.
pub fn misplace(rng: &mut Rng, entry: &Entry, lent: &mut Lent) {
    let sorts = sorts(entry);
    let places: Vec<usize> =
        (0..sorts.len()).filter(|&place| sorts[place] != Slot::Number).collect();
    if places.is_empty() {
        return;
    }
    let place = rng.pick(&places);
    let values = about(lent, place, sorts[place]);
    lent.slots[place] = values[rng.below(values.len())];
}

/// Values for a slot about those with which what it tells ends where the source ends.
pub fn about(lent: &Lent, place: usize, sort: Slot) -> Vec<u64> {
    let size = lent.source.len() as u64;
    let length = match sort {
        Slot::Number => return Vec::new(),
        Slot::Address => 16,
        Slot::Start => lent.slots[place + 1],
        Slot::Length => lent.slots[place - 1],
    };
    // With the offset for the length, and the other way, the same sums.
    let last = size.wrapping_sub(length);
    let wrapping = 0_u64.wrapping_sub(length);
    vec![
        0,
        last.wrapping_sub(1),
        last,
        last.wrapping_add(1),
        size,
        size + 1,
        wrapping.wrapping_sub(1),
        wrapping,
        wrapping.wrapping_add(1),
        (1 << 32) + lent.slots[place],
        (1 << 63) + lent.slots[place],
        u64::MAX - 1,
        u64::MAX,
    ]
}

/// Any slots of any kind, mostly small.
pub fn any(rng: &mut Rng) -> Lent {
    let size = rng.pick(&[0, 15, 16, 17, 60, 200, 5_000]);
    let source = rng.octets(size);
    let mut slots = Box::new([0; SLOTS]);
    let most = rng.pick(&[1, 2, 16, 100]);
    for slot in slots.iter_mut() {
        *slot = rng.below(most) as u64;
        if rng.one_in(60) {
            *slot = rng.pick(&[size as u64, 4_096, 4_097, 65_535, 65_536, 1 << 32, u64::MAX]);
        }
    }
    Lent { kind: rng.below(11) as u8, slots, source }
}
