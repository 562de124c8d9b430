// Reading an entry: its kind, then its fields in their order, up to the first that can't be read.
use super::cursor::Cursor;
use super::entry::{Entry, Opening, Pair, Request, Rule, Rules};
use super::fields::{Field, Form, Part};
use super::Refusal;
use crate::address::AddressOctets;
use crate::rules::TraceRules;
use std::mem::take;

/// An entry that was read, and the place behind it.
#[derive(Debug, Clone, PartialEq, Eq)]
pub struct Read {
    pub entry: Entry,
    pub next: usize,
}

/// Reads the entry that begins at this place of the octets.
pub fn read(
    octets: &[u8],
    place: usize,
    rules: &(impl TraceRules + ?Sized),
) -> Result<Read, Refusal> {
    let mut cursor = Cursor { octets, place, rules };
    let number = cursor.any_number()?;
    let kind = rules.kind(number)?;
    let entry = cursor.parts(&rules.layout(kind))?.entry(kind);
    Ok(Read { entry, next: cursor.place })
}

/// The parts that were read, by name; 0 and empty of those that weren't.
#[derive(Default)]
struct Parts {
    numbers: [u64; Part::COUNT],
    addresses: [AddressOctets; Part::COUNT],
    strings: [Vec<u8>; Part::COUNT],
    /// The count of a list is the number of `Part::Rules`.
    rules: Option<Box<Rules>>,
}

impl<R: TraceRules + ?Sized> Cursor<'_, R> {
    /// These parts, one behind the other.
    fn parts(&mut self, layout: &[Part]) -> Result<Parts, Refusal> {
        let mut parts = Parts::default();
        for &part in layout {
            let at = part as usize;
            match part.form() {
                Form::Number(field) => parts.numbers[at] = self.number(field)?,
                Form::Address => {
                    parts.addresses[at] = self.address(parts.number(Part::Family))?;
                }
                Form::String => parts.strings[at] = self.string()?,
                Form::List => {
                    let (count, rules) = self.list()?;
                    (parts.numbers[at], parts.rules) = (count, Some(rules));
                }
            }
        }
        Ok(parts)
    }

    /// A count, then so many rules, which are kept as far as there are places.
    fn list(&mut self) -> Result<(u64, Box<Rules>), Refusal> {
        let count = self.number(Field::Count)?;
        let mut rules = Box::new(Rules::default());
        for place in 0..count as usize {
            let rule = self.parts(self.rules.layout_of_rule())?.rule();
            if let Some(kept) = rules.get_mut(place) {
                *kept = rule;
            }
        }
        Ok((count, rules))
    }
}

impl Parts {
    fn number(&self, part: Part) -> u64 {
        self.numbers[part as usize]
    }

    fn address(&self, part: Part) -> AddressOctets {
        self.addresses[part as usize]
    }

    fn string(&mut self, part: Part) -> Vec<u8> {
        take(&mut self.strings[part as usize])
    }

    fn entry(mut self, kind: u64) -> Entry {
        match kind {
            0 => Entry::OpenBoth(Opening {
                spi: self.number(Part::IkeSpi),
                agreed: self.number(Part::Agreed),
                pair: self.pair(),
                child: self.number(Part::IpsecSpi),
                peer: self.number(Part::Peer),
                cloning: self.number(Part::Cloning),
                operator: self.number(Part::Operator),
            }),
            1 => Entry::AddIpsec {
                spi: self.number(Part::IpsecSpi),
                owner: self.number(Part::IkeSpi),
                operator: self.number(Part::Operator),
            },
            2 => Entry::CloseIke {
                spi: self.number(Part::IkeSpi),
                operator: self.number(Part::Operator),
            },
            3 => Entry::CloseIpsec {
                spi: self.number(Part::IpsecSpi),
                operator: self.number(Part::Operator),
            },
            4 => Entry::Request(self.request()),
            5 => Entry::Policy {
                count: self.number(Part::Rules),
                operator: self.number(Part::Operator),
                rules: self.rules.unwrap_or_default(),
            },
            6 => Entry::CheckResponse {
                spi: self.number(Part::IkeSpi),
                id: self.number(Part::Id),
                first: self.number(Part::FirstType),
                body: self.string(Part::Body),
                operator: self.number(Part::Operator),
            },
            7 => Entry::Clone {
                spi: self.number(Part::IkeSpi),
                new_spi: self.number(Part::NewSpi),
                first: self.number(Part::FirstType),
                body: self.string(Part::Body),
                operator: self.number(Part::Operator),
            },
            _ => Entry::MarkDeletion {
                spi: self.number(Part::IkeSpi),
                operator: self.number(Part::Operator),
            },
        }
    }

    fn request(&mut self) -> Request {
        Request {
            spi: self.number(Part::IkeSpi),
            id: self.number(Part::Id),
            pair: self.pair(),
            nat_source: self.string(Part::NatSource),
            nat_destination: self.string(Part::NatDestination),
            first: self.number(Part::FirstType),
            body: self.string(Part::Body),
            cookie: self.string(Part::Cookie),
            check_id: self.number(Part::CheckId),
            operator: self.number(Part::Operator),
        }
    }

    fn pair(&self) -> Pair {
        Pair {
            family: self.number(Part::Family),
            source: self.address(Part::Source),
            destination: self.address(Part::Destination),
            source_port: self.number(Part::SourcePort),
            destination_port: self.number(Part::DestinationPort),
        }
    }

    fn rule(&self) -> Rule {
        Rule {
            family: self.number(Part::Family),
            source: self.address(Part::Source),
            destination: self.address(Part::Destination),
            source_length: self.number(Part::SourceLength),
            destination_length: self.number(Part::DestinationLength),
        }
    }
}

#[cfg(test)]
mod tests {
    use super::*;
    use crate::cases::entries::EntriesCases;
    use crate::cases::traces::TracesCases;
    use crate::rules::Plain;
    use crate::trace::codec::counted;
    use crate::trace::slots::Meant;
    use crate::trace::writing::{entry_octets, write};

    fn refusal(octets: &[u8]) -> Refusal {
        read(octets, 0, &Plain).expect_err("refused")
    }

    #[test]
    fn what_is_written_reads_back_the_same() {
        let cases = EntriesCases::new(1);
        let (mut fitting, mut others) = (0, 0);
        for number in 0..10_000 {
            let Some(Meant { entry, within: true }) = cases.case(number).lent.meant(&Plain) else {
                continue;
            };
            let before = [2, 7, 0];
            let room = vec![0x81; 20_000];
            let written = write(&entry, &room, &Plain);
            let octets = [&before, &written.output[..]].concat();
            if written.number == 0 {
                fitting += 1;
                let expected = Read { entry: counted(entry), next: 3 + written.length };
                assert_eq!(read(&octets, 3, &Plain), Ok(expected));
            } else {
                others += 1;
                assert_eq!(written.number, 22);
                assert_eq!(refusal(&entry_octets(&entry)), Refusal::TooLarge);
            }
        }
        assert!(fitting > 2_000 && others > 500, "{fitting} {others}");
    }

    #[test]
    fn what_is_read_is_written_as_the_same_octets() {
        let cases = TracesCases::new(1);
        let mut entries = 0;
        for number in 0..4_000 {
            let trace = cases.case(number).trace;
            if trace.len() > 20_000 {
                continue;
            }
            let mut place = 0;
            while let Ok(Read { entry, next }) = read(&trace, place, &Plain) {
                assert_eq!(entry_octets(&entry), trace[place..next]);
                (place, entries) = (next, entries + 1);
            }
        }
        assert!(entries > 8_000, "{entries}");
    }

    #[test]
    fn an_entry_without_one_of_its_octets_at_the_end_is_cut() {
        let cases = EntriesCases::new(1);
        for number in (0..4_000).step_by(7) {
            let Some(meant) = cases.case(number).lent.meant(&Plain) else { continue };
            let octets = entry_octets(&meant.entry);
            if read(&octets, 0, &Plain).is_ok() {
                let from = octets.len().saturating_sub(300);
                for length in (0..octets.len()).filter(|&length| length < 300 || length > from) {
                    assert_eq!(refusal(&octets[..length]), Refusal::Cut);
                }
            }
        }
    }

    #[test]
    fn the_first_refusal_as_read_is_told() {
        let long_body = |length: &[u8], left: usize| {
            let head = [&[4, 7, 5, 4][..], &[0; 32], &[1, 1, 0, 0, 0], length].concat();
            [head, vec![0; left]].concat()
        };
        // A length over 4,096, whether its octets are there or not; one of 4,096 that aren't.
        assert_eq!(refusal(&long_body(&[0x81, 0x20], 0)), Refusal::TooLarge);
        assert_eq!(refusal(&long_body(&[0x81, 0x20], 4097)), Refusal::TooLarge);
        assert_eq!(refusal(&long_body(&[0x80, 0x20], 4095)), Refusal::Cut);
        // Behind the body, a cookie, an ID and an operator.
        assert!(read(&long_body(&[0x80, 0x20], 4096 + 3), 0, &Plain).is_ok());
        assert_eq!(refusal(&long_body(&[0x80, 0x20], 4096 + 2)), Refusal::Cut);
        // A length that is cut or not shortest, though large.
        assert_eq!(refusal(&long_body(&[0x81, 0xa0], 0)), Refusal::Cut);
        assert_eq!(refusal(&long_body(&[0x81, 0xa0, 0x00], 9)), Refusal::Cut);
        // A family too large before addresses that are cut; addresses cut before a bad port.
        assert_eq!(refusal(&[0, 7, 1, 0x80, 2]), Refusal::TooLarge);
        assert_eq!(refusal(&[0, 7, 2]), Refusal::TooLarge);
        assert_eq!(refusal(&[0, 7, 1, 4, 0, 0]), Refusal::Cut);
        // What stands at an opening's end: a peer past 32 bits, and yes or no past a bit.
        let opening = |end: &[u8]| [&[0, 7, 1, 4][..], &[0; 32], &[1, 1, 9], end].concat();
        assert_eq!(refusal(&opening(&[])), Refusal::Cut);
        assert_eq!(refusal(&opening(&[5])), Refusal::Cut);
        assert_eq!(refusal(&opening(&[0x80, 0x80, 0x80, 0x80, 0x10])), Refusal::TooLarge);
        assert_eq!(refusal(&opening(&[5, 2])), Refusal::TooLarge);
        assert_eq!(refusal(&opening(&[5, 1])), Refusal::Cut);
        assert_eq!(refusal(&opening(&[5, 1, 2])), Refusal::TooLarge);
        assert!(read(&opening(&[0xff, 0xff, 0xff, 0xff, 0x0f, 1, 1]), 0, &Plain).is_ok());
        // A clone without a first type or a body, and one whose body is cut or too long.
        assert_eq!(refusal(&[7, 7, 8]), Refusal::Cut);
        assert_eq!(refusal(&[7, 7, 8, 0x80, 2]), Refusal::TooLarge);
        assert_eq!(refusal(&[7, 7, 8, 41, 8, 0]), Refusal::Cut);
        assert_eq!(refusal(&[7, 7, 8, 41, 0x81, 0x20]), Refusal::TooLarge);
        assert_eq!(refusal(&[8]), Refusal::Cut);
        assert_eq!(refusal(&[8, 7]), Refusal::Cut);
        assert!(read(&[8, 7, 1], 0, &Plain).is_ok());
        // The operator of every kind has one bit.
        assert_eq!(refusal(&[2, 7]), Refusal::Cut);
        assert_eq!(refusal(&[2, 7, 2]), Refusal::TooLarge);
        assert_eq!(refusal(&[2, 7, 0x80, 0]), Refusal::Cut);
        assert_eq!(refusal(&[1, 7, 8, 2]), Refusal::TooLarge);
        assert_eq!(refusal(&[5, 0]), Refusal::Cut);
        assert_eq!(refusal(&[5, 0, 2]), Refusal::TooLarge);
        // A count over 16 with no rule behind it, and 16 with none.
        assert_eq!(refusal(&[5, 17]), Refusal::TooLarge);
        assert_eq!(refusal(&[5, 16]), Refusal::Cut);
        assert_eq!(refusal(&[5, 0xff, 0xff]), Refusal::Cut);
        assert_eq!(refusal(&[5, 1, 0x80, 2]), Refusal::TooLarge);
    }
}
