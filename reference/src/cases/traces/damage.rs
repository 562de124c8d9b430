// Damage to a trace: numbers in forms that aren't read or have no room, octets changed, lost or added.
use crate::rng::Rng;
use crate::rules::{Plain, TraceRules};
use crate::trace::entry::Entry;
use crate::trace::fields::Field;
use crate::trace::writing::{pieces, Piece};

/// Kinds that aren't known, next to those that are and about powers of two.
pub const UNKNOWN_KINDS: [u64; 13] = [
    9,
    10,
    11,
    127,
    128,
    255,
    256,
    257,
    (1 << 16) + 2,
    (1 << 32) + 2,
    1 << 63,
    u64::MAX - 1,
    u64::MAX,
];

/// The octets of an entry, apart for each of its numbers.
pub fn parts(entry: &Entry) -> Vec<Vec<u8>> {
    pieces(entry, &Plain).iter().map(|piece| piece.octets(&Plain)).collect()
}

/// The places of the numbers among the parts of an entry, with what no reader takes there, or what
/// another one takes.
pub fn numbers_with_forms(entry: &Entry) -> Vec<(usize, Vec<Vec<u8>>)> {
    let of_piece = |piece: &Piece| match piece {
        Piece::Kind(value) => Some([forms(*value), UNKNOWN_KINDS.map(shortest).to_vec()].concat()),
        Piece::Number(field, value) => Some([forms(*value), about_room(*field)].concat()),
        Piece::Address(_) | Piece::Octets(_) => None,
    };
    let pieces = pieces(entry, &Plain);
    let all = pieces.iter().enumerate();
    all.filter_map(|(place, piece)| of_piece(piece).map(|forms| (place, forms))).collect()
}

fn shortest(value: u64) -> Vec<u8> {
    Plain.number(value)
}

/// Numbers about the greatest that the field has room for, and about powers of two.
fn about_room(field: Field) -> Vec<Vec<u8>> {
    let most = Plain.most(field);
    let about = [most - 1, most, most.saturating_add(1), most.saturating_add(2)];
    let others = [0, 1, 2, 127, 128, 255, 256, (1 << 32) - 1, 1 << 32, 1 << 63, u64::MAX];
    about.iter().chain(&others).map(|&value| shortest(value)).collect()
}

/// A number with needless groups, and numbers of ten octets and more, and cut ones.
fn forms(value: u64) -> Vec<Vec<u8>> {
    let mut padded = shortest(value);
    if let Some(last) = padded.last_mut() {
        *last |= 0x80;
    }
    let longer = [&padded[..], &[0x80, 0]].concat();
    let unended = padded.clone();
    padded.push(0);
    let of_ten = |others: u8, tenth: &[u8]| [&[others; 9][..], tenth].concat();
    vec![
        padded,
        longer,
        unended,
        of_ten(0xff, &[0]),
        of_ten(0x80, &[0]),
        of_ten(0x80, &[1]),
        of_ten(0xff, &[2]),
        of_ten(0x80, &[3]),
        of_ten(0xff, &[0x7f]),
        of_ten(0xff, &[0x81, 0]),
        of_ten(0x82, &[0x81, 1]),
        of_ten(0x80, &[0x80; 30]),
        vec![0xff, 0xff],
    ]
}

/// One number of one entry in another form.
pub fn reform(rng: &mut Rng, entries: &[Entry]) -> Vec<u8> {
    let damaged = rng.below(entries.len());
    let mut octets = Vec::new();
    for (place, entry) in entries.iter().enumerate() {
        let mut parts = parts(entry);
        if place == damaged {
            let numbers = numbers_with_forms(entry);
            let (part, forms) = &numbers[rng.below(numbers.len())];
            parts[*part] = forms[rng.below(forms.len())].clone();
        }
        octets.extend(parts.concat());
    }
    octets
}

/// A few octets changed, lost, added or moved.
pub fn mutate(rng: &mut Rng, octets: &mut Vec<u8>) {
    for _ in 0..rng.pick(&[1, 1, 2, 3]) {
        let place = rng.below(octets.len().max(1));
        let end = octets.len().min(place + rng.between(1, 20));
        match rng.below(6) {
            _ if octets.is_empty() => {}
            0 => octets[place] = rng.octet(),
            1 => octets[place] ^= 1 << rng.below(8),
            2 => octets[place] ^= 0x80,
            3 => drop(octets.drain(place..end)),
            4 => {
                let count = rng.between(1, 4);
                let added = rng.octets(count);
                drop(octets.splice(place..place, added));
            }
            _ => octets[place..end].rotate_left(1),
        }
    }
}
