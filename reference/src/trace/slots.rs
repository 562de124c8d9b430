// An entry as the library's two calls take and tell it: its kind, and slots in the order of its fields. A
// number has one; an address one, its offset in octets that are lent; a string two, its offset there and its
// length; a list one for its count, and those of sixteen items.
use super::entry::{Entry, Opening, Pair, Request, Rule, Rules};
use super::fields::Field;
use super::writing::{pieces, Piece};
use crate::address::AddressOctets;
use crate::rules::{Plain, TraceRules};
use std::ops::Range;

/// As many as a policy has: its count, those of sixteen rules, and its operator.
pub const SLOTS: usize = 82;

/// That of a policy's operator, behind all sixteen rules whatever the count.
pub const POLICY_OPERATOR: usize = SLOTS - 1;

pub type Slots = [u64; SLOTS];

/// The slots of an entry whose first octet has this offset, and 0 in those behind them.
pub fn of_entry(entry: &Entry, start: usize) -> Slots {
    let mut offset = start;
    let mut told = Vec::new();
    for piece in pieces(entry, &Plain) {
        let behind = offset + piece.octets(&Plain).len();
        match piece {
            Piece::Number(Field::Operator, operator) if matches!(entry, Entry::Policy { .. }) => {
                told.resize(POLICY_OPERATOR, 0);
                told.push(operator);
            }
            Piece::Number(Field::Length, length) => told.extend([behind as u64, length]),
            Piece::Number(_, number) => told.push(number),
            Piece::Address(_) => told.push(offset as u64),
            Piece::Kind(_) | Piece::Octets(_) => {}
        }
        offset = behind;
    }
    let mut slots = [0; SLOTS];
    slots[..told.len()].copy_from_slice(&told);
    slots
}

/// The slots that a kind doesn't have, with this many items in its list if it has one.
pub fn unused(kind: u8, items: usize) -> Range<usize> {
    match kind {
        0 => 11..SLOTS,
        1 => 3..SLOTS,
        2 | 3 | 8 => 2..SLOTS,
        4 => 18..SLOTS,
        6 | 7 => 6..SLOTS,
        _ => 1 + 5 * items..POLICY_OPERATOR,
    }
}

/// What slots of some kind mean.
#[derive(Debug, Clone, PartialEq, Eq)]
pub struct Meant {
    pub entry: Entry,
    /// Whether its addresses and strings lie within the source; those that don't are zeros, or nothing.
    pub within: bool,
}

/// None if there is no such kind.
pub fn meant(
    kind: u8,
    slots: &Slots,
    source: &[u8],
    rules: &(impl TraceRules + ?Sized),
) -> Option<Meant> {
    let mut taking = Taking { slots: slots.iter(), source, within: true, rules };
    let entry = match kind {
        0 => Entry::OpenBoth(Opening {
            spi: taking.number(),
            agreed: taking.number(),
            pair: taking.pair(),
            child: taking.number(),
            peer: taking.number(),
            cloning: taking.number(),
            operator: taking.number(),
        }),
        1 => Entry::AddIpsec {
            spi: taking.number(),
            owner: taking.number(),
            operator: taking.number(),
        },
        2 => Entry::CloseIke { spi: taking.number(), operator: taking.number() },
        3 => Entry::CloseIpsec { spi: taking.number(), operator: taking.number() },
        4 => Entry::Request(taking.request()),
        5 => taking.policy(),
        6 => Entry::CheckResponse {
            spi: taking.number(),
            id: taking.number(),
            first: taking.number(),
            body: taking.string(),
            operator: taking.number(),
        },
        7 => Entry::Clone {
            spi: taking.number(),
            new_spi: taking.number(),
            first: taking.number(),
            body: taking.string(),
            operator: taking.number(),
        },
        8 => Entry::MarkDeletion { spi: taking.number(), operator: taking.number() },
        _ => return None,
    };
    Some(Meant { entry, within: taking.within })
}

/// Slots as they are taken, one behind the other.
struct Taking<'a, R: ?Sized> {
    slots: std::slice::Iter<'a, u64>,
    source: &'a [u8],
    within: bool,
    rules: &'a R,
}

impl<R: TraceRules + ?Sized> Taking<'_, R> {
    fn number(&mut self) -> u64 {
        *self.slots.next().expect("no kind has more slots")
    }

    fn address(&mut self) -> AddressOctets {
        let offset = self.number();
        let octets = self.part(offset, 16);
        octets.try_into().unwrap_or_default()
    }

    fn string(&mut self) -> Vec<u8> {
        let (offset, length) = (self.number(), self.number());
        self.part(offset, length)
    }

    fn part(&mut self, offset: u64, length: u64) -> Vec<u8> {
        let part = self.rules.part(self.source, offset, length);
        self.within &= part.is_some();
        part.unwrap_or_default()
    }

    fn pair(&mut self) -> Pair {
        Pair {
            family: self.number(),
            source: self.address(),
            destination: self.address(),
            source_port: self.number(),
            destination_port: self.number(),
        }
    }

    fn request(&mut self) -> Request {
        Request {
            spi: self.number(),
            id: self.number(),
            pair: self.pair(),
            nat_source: self.string(),
            nat_destination: self.string(),
            first: self.number(),
            body: self.string(),
            cookie: self.string(),
            check_id: self.number(),
            operator: self.number(),
        }
    }

    /// Whether addresses of rules past the count lie within the source isn't asked.
    fn policy(&mut self) -> Entry {
        let count = self.number();
        let mut rules = Rules::default();
        for (place, rule) in rules.iter_mut().enumerate() {
            let within = self.within;
            *rule = self.rule();
            if !self.rules.looks_at_rule(place as u64, count) {
                self.within = within;
            }
        }
        Entry::Policy { count, rules: Box::new(rules), operator: self.number() }
    }

    fn rule(&mut self) -> Rule {
        Rule {
            family: self.number(),
            source: self.address(),
            destination: self.address(),
            source_length: self.number(),
            destination_length: self.number(),
        }
    }
}

#[cfg(test)]
mod tests {
    use super::*;
    use crate::cases::traces::listed::samples;
    use crate::trace::codec::counted;
    use crate::trace::writing::entry_octets;

    #[test]
    fn the_slots_of_an_entry_mean_it_in_its_own_octets() {
        for entry in samples() {
            let octets = [&[9; 5], &entry_octets(&entry)[..]].concat();
            let slots = of_entry(&entry, 5);
            let items = if let Entry::Policy { count, .. } = &entry { *count as usize } else { 0 };
            let unused = unused(entry.kind() as u8, items);
            assert!(slots[unused].iter().all(|&slot| slot == 0));
            let told = meant(entry.kind() as u8, &slots, &octets, &Plain);
            // Past a count, slots of 0 mean what stands at offset 0.
            let Meant { entry: told, within } = told.expect("a known kind");
            assert_eq!((counted(told), within), (entry, true));
        }
    }

    #[test]
    fn the_slots_of_an_opening_and_of_a_request() {
        let slots = of_entry(&samples()[0], 100);
        // Kind, a number of six octets, yes; the family, both addresses.
        assert_eq!(slots[..8], [1 << 40, 1, 4, 109, 125, 4500, 500, 300]);
        assert_eq!(slots[8..12], [70_000, 1, 1, 0]);
        let slots = of_entry(&samples()[6], 0);
        assert_eq!(slots[..7], [7, 300, 4, 5, 21, 1024, 500]);
        assert_eq!(slots[7..19], [42, 20, 63, 20, 41, 85, 12, 98, 8, 70_000, 0, 0]);
    }

    #[test]
    fn what_is_not_within_the_source_is_told() {
        let mut slots = [0; SLOTS];
        let within = |slots: &Slots, kind, size| {
            meant(kind, slots, &vec![1; size], &Plain).is_some_and(|meant| meant.within)
        };
        assert!(!within(&slots, 0, 15) && within(&slots, 0, 16));
        slots[3] = 1;
        assert!(!within(&slots, 0, 16) && within(&slots, 0, 17));
        (slots[7], slots[8]) = (17, 0);
        assert!(within(&slots, 4, 17) && !within(&slots, 4, 16));
        (slots[7], slots[8]) = (u64::MAX, 1);
        assert!(!within(&slots, 4, 17));
        assert!(within(&[0; SLOTS], 5, 0) && !within(&[1; SLOTS], 5, 0));
        assert!(meant(8, &slots, &[], &Plain).is_some());
        assert!(meant(9, &slots, &[], &Plain).is_none());
    }
}
