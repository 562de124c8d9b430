// The rules of a trace's entries, read and written: requests E3, E6, E8 and E9 of document 02, and the header for the
// calls.
use crate::trace::entry::Entry;
use crate::trace::fields::{Field, Part, MOST_OCTETS, MOST_RULES};
use crate::trace::numbers::{group, GROUP_BITS, MORE_FOLLOW};
use crate::trace::slots::{self, Slots};
use crate::trace::Refusal;

pub trait TraceRules {
    /// "Numbers are groups of seven bits"; 64 bits take nine whole groups, and one bit of a tenth.
    fn most_groups(&self) -> usize {
        10
    }

    /// "lowest group first, top bit set on all but the last: 300 is `AC 02`". Of groups without their top bits.
    fn joined(&self, groups: &[u8]) -> u128 {
        groups.iter().rev().fold(0, |value, bits| value << GROUP_BITS | u128::from(*bits))
    }

    /// "20 .. number not shortest": it has a last group of 0 behind another one.
    fn is_shortest(&self, groups: &[u8]) -> bool {
        groups.len() == 1 || groups.last() != Some(&0)
    }

    /// "20 .. or past 64 bits".
    fn in_64_bits(&self, value: u128) -> Result<u64, Refusal> {
        u64::try_from(value).map_err(|_| Refusal::Cut)
    }

    /// "a written trace to read back the same": the shortest form, which is the only one that is read.
    fn number(&self, value: u64) -> Vec<u8> {
        let bits = u64::BITS - value.leading_zeros();
        let last = bits.div_ceil(GROUP_BITS).max(1) - 1;
        let mut octets: Vec<u8> = (0..last).map(|at| group(value, at) | MORE_FOLLOW).collect();
        octets.push(group(value, last));
        octets
    }

    /// "lists led by their count (at most 16), octet strings by their length (at most 4,096)"; "family and prefix
    /// length 8 bits, yes or no 1"; E8: "a 32-bit peer number"; E9: "operator A (0) or B (1), one bit"; other fields as
    /// document 01 has them.
    fn most(&self, field: Field) -> u64 {
        match field {
            Field::IkeSpi => u64::MAX,
            Field::IpsecSpi | Field::Id | Field::Peer => u64::from(u32::MAX),
            Field::Port => u64::from(u16::MAX),
            Field::Family | Field::FirstType | Field::PrefixLength => u64::from(u8::MAX),
            Field::Agreed | Field::Operator => 1,
            Field::Count => MOST_RULES as u64,
            Field::Length => MOST_OCTETS as u64,
        }
    }

    /// "Numbers are groups of seven bits", of every field; only addresses are "bare".
    fn is_bare(&self, _field: Field) -> bool {
        false
    }

    /// "22 number, count or length too large for its field"; "the first as read is the last line", so that a number is
    /// held against its field before the octets behind it are looked at.
    fn checked(&self, field: Field, value: u64, _behind: &[u8]) -> Result<u64, Refusal> {
        if value <= self.most(field) {
            Ok(value)
        } else {
            Err(Refusal::TooLarge)
        }
    }

    /// "addresses bare"; document 01: "Addresses travel as 16 octets each", whatever the family.
    fn address_size(&self, _family: u64) -> usize {
        16
    }

    /// "kind (0 open both, 1 add IPsec, 2 close IKE, 3 close IPsec, 4 request, 5 policy)"; "later table calls .. join
    /// at the end", so that 6 is a check response, and of E8 7 is a clone and 8 the mark for being deleted, by decision
    /// in this order; "21 unknown kind", whatever stands behind it.
    fn kind(&self, number: u64) -> Result<u64, Refusal> {
        if number <= 8 {
            Ok(number)
        } else {
            Err(Refusal::UnknownKind)
        }
    }

    /// "its fields in document 01's order": IKE records are "local SPI .., MOBIKE agreed or not, the address pair",
    /// IPsec records "SPI .., owning IKE SPI", a request "SPI, ID, packet's pair, the two NAT values, first type,
    /// body". The IPsec SPI of an opening comes last by decision. "later table calls and fields join at the end as
    /// named": E6's "a cookie of 8 to 64 octets and the ID of our request", and "a response (SPI, ID, first type,
    /// body)"; E8's "a 32-bit peer number and whether cloning is agreed", and "(SPI, new SPI, first type, body)"; E9's
    /// operator, of "table call", so that its example `02 07 00` ends with it, and so does every kind.
    fn layout(&self, kind: u64) -> Vec<Part> {
        use Part::{
            Agreed, Body, CheckId, Cloning, Cookie, FirstType, Id, IkeSpi, IpsecSpi,
            NatDestination, NatSource, NewSpi, Operator, Peer, Rules,
        };
        let pair = &Part::PAIR[..];
        match kind {
            0 => [&[IkeSpi, Agreed], pair, &[IpsecSpi, Peer, Cloning, Operator]].concat(),
            1 => vec![IpsecSpi, IkeSpi, Operator],
            2 => vec![IkeSpi, Operator],
            3 => vec![IpsecSpi, Operator],
            4 => {
                let behind =
                    [NatSource, NatDestination, FirstType, Body, Cookie, CheckId, Operator];
                [&[IkeSpi, Id], pair, &behind].concat()
            }
            5 => vec![Rules, Operator],
            6 => vec![IkeSpi, Id, FirstType, Body, Operator],
            7 => vec![IkeSpi, NewSpi, FirstType, Body, Operator],
            _ => vec![IkeSpi, Operator],
        }
    }

    /// Of each rule: "family, two prefixes, two prefix lengths".
    fn layout_of_rule(&self) -> &'static [Part] {
        use Part::{Destination, DestinationLength, Family, Source, SourceLength};
        &[Family, Source, Destination, SourceLength, DestinationLength]
    }

    /// "Writing gives 22 alike".
    fn fits(&self, field: Field, value: u64) -> bool {
        value <= self.most(field)
    }

    /// Document 01: "Places past a list's count .. aren't looked at".
    fn rules_in(&self, count: u64) -> usize {
        count.min(MOST_RULES as u64) as usize
    }

    /// "then 2 (output too short)": for an entry of this length.
    fn needed(&self, length: usize) -> usize {
        length
    }

    /// "Writing gives 22 alike, then 2 (output too short)."
    fn refusal(&self, too_large: bool, too_short: bool) -> Option<Refusal> {
        match (too_large, too_short) {
            (true, _) => Some(Refusal::TooLarge),
            (false, true) => Some(Refusal::OutputTooShort),
            (false, false) => None,
        }
    }

    /// Document 01: "octets past the reported length are untouched".
    fn output(&self, before: &[u8], octets: &[u8]) -> Vec<u8> {
        let mut output = before.to_vec();
        output.iter_mut().zip(octets).for_each(|(place, octet)| *place = *octet);
        output
    }

    /// Document 01: "None" "leaves the output untouched".
    fn output_refused(&self, before: &[u8], _refusal: Refusal, _octets: &[u8]) -> Vec<u8> {
        before.to_vec()
    }

    /// The same: "and reports length 0".
    fn length_refused(&self, _octets: &[u8]) -> usize {
        0
    }

    /// The header of a kind that there isn't: 21, before 22 and 2.
    fn refusal_of_kind(&self, _room: usize) -> Refusal {
        Refusal::UnknownKind
    }

    /// The header: 22, "an address or a string is not within `source`", also one of no octets.
    fn part(&self, source: &[u8], offset: u64, length: u64) -> Option<Vec<u8>> {
        let end = usize::try_from(offset.checked_add(length)?).ok()?;
        source.get(offset as usize..end).map(<[u8]>::to_vec)
    }

    /// The same; document 01: "Places past a list's count .. aren't looked at".
    fn looks_at_rule(&self, place: u64, count: u64) -> bool {
        place < count
    }

    /// The header: "there, and past it, the answer is 20".
    fn read_at(&self, _octets: &[u8], place: usize) -> usize {
        place
    }

    /// The header: "an offset is one in the trace"; "slots that its kind does not have, and those of a list's items
    /// past its count, are 0".
    fn slots(&self, entry: &Entry, start: usize) -> Slots {
        slots::of_entry(entry, start)
    }

    /// The header: "the offset of the first octet behind it".
    fn next(&self, _start: usize, behind: usize) -> usize {
        behind
    }

    /// The header: "With 20, 21 and 22 every other field is 0." Number and kind.
    fn told_refused(&self, refusal: Refusal, _octets: &[u8], _place: usize) -> (u8, u8) {
        (refusal as u8, 0)
    }
}
