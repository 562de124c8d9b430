// Faults of the rules of a trace's entries, read and written.
use super::Row;
use crate::kind::Kind;
use crate::rules::{Plain, TraceRules};
use crate::trace::entry::Entry;
use crate::trace::fields::{Field, Part, MOST_RULES};
use crate::trace::slots::{unused, Slots};
use crate::trace::Refusal;

pub const FAULTS: &[Row<dyn TraceRules>] = &[
    (Kind::Traces, "nine-octets-most", "A number of ten octets is refused.", &NineOctetsMost),
    (
        Kind::Traces,
        "highest-group-first",
        "The first group is taken as the highest.",
        &HighestGroupFirst,
    ),
    (
        Kind::Traces,
        "not-shortest-read",
        "A number whose last group is 0 behind another one is read.",
        &NotShortestRead,
    ),
    (
        Kind::Traces,
        "tenth-octet-untested",
        "Bits past the 64th are dropped where a number has ten octets.",
        &TenthOctetUntested,
    ),
    (
        Kind::Traces,
        "past-64-bits-22",
        "A number past 64 bits gives 22 where it has ten octets.",
        &Past64Bits22,
    ),
    (
        Kind::Entries,
        "written-not-shortest",
        "A number is written with a group of 0 behind.",
        &WrittenNotShortest,
    ),
    (
        Kind::Entries,
        "written-highest-first",
        "The highest group is written first.",
        &WrittenHighestFirst,
    ),
    (Kind::Traces, "count-17", "A list of 17 rules is read.", &Most(Field::Count, 17)),
    (Kind::Traces, "length-4095", "A string of 4,096 octets gives 22.", &Most(Field::Length, 4095)),
    (
        Kind::Traces,
        "prefix-33-as-22",
        "A prefix length over 32 gives 22.",
        &Most(Field::PrefixLength, 32),
    ),
    (Kind::Traces, "family-bare", "A family is read as one octet.", &Bare(Field::Family)),
    (
        Kind::Entries,
        "written-family-bare",
        "A family is written as one octet.",
        &Bare(Field::Family),
    ),
    (
        Kind::Traces,
        "ipsec-spi-cut",
        "An IPsec SPI past 32 bits is cut to them.",
        &Cut(Field::IpsecSpi),
    ),
    (Kind::Traces, "agreed-cut", "Of what is agreed the lowest bit is read.", &Cut(Field::Agreed)),
    (Kind::Traces, "port-cut", "A port past 16 bits is cut to them.", &Cut(Field::Port)),
    (
        Kind::Traces,
        "length-after-octets",
        "The octets of a string are looked for before its length is checked.",
        &Behind(Field::Length, 1),
    ),
    (
        Kind::Traces,
        "count-after-rules",
        "The rules are looked for before their count is checked.",
        &Behind(Field::Count, 35),
    ),
    (Kind::Traces, "ipv4-bare-4", "IPv4 addresses and prefixes have four octets.", &Ipv4Bare4),
    (Kind::Traces, "kind-cut", "The kind is cut to eight bits, so that 256 opens both.", &KindCut),
    (Kind::Traces, "unknown-kind-20", "An unknown kind gives 20.", &OtherKind(|_| Refusal::Cut)),
    (
        Kind::Traces,
        "child-spi-second",
        "The IPsec SPI of an opening comes behind the IKE SPI.",
        &Exchanged(0, &[Part::IpsecSpi, Part::Agreed]),
    ),
    (
        Kind::Traces,
        "owner-first",
        "The owner of an added IPsec record comes before its SPI.",
        &Exchanged(1, &[Part::IkeSpi, Part::IpsecSpi]),
    ),
    (
        Kind::Traces,
        "id-first",
        "The ID of a request comes before its SPI.",
        &Exchanged(4, &[Part::Id, Part::IkeSpi]),
    ),
    (
        Kind::Traces,
        "nat-values-last",
        "The NAT values come behind the body.",
        &Exchanged(4, &[Part::FirstType, Part::Body, Part::NatSource, Part::NatDestination]),
    ),
    (
        Kind::Entries,
        "nat-values-turned",
        "The two NAT values come in the other order, which no line of a replay shows.",
        &Exchanged(4, &[Part::NatDestination, Part::NatSource]),
    ),
    (Kind::Traces, "kind-6-unknown", "A check response gives 21.", &KindUnknown(6)),
    (
        Kind::Traces,
        "check-id-first",
        "The ID of our request comes before the cookie.",
        &Exchanged(4, &[Part::CheckId, Part::Cookie]),
    ),
    (
        Kind::Traces,
        "cookie-before-chain",
        "The cookie and the ID of our request come before the first type, as the call has them.",
        &Exchanged(4, &[Part::Cookie, Part::CheckId, Part::FirstType, Part::Body]),
    ),
    (
        Kind::Traces,
        "response-id-first",
        "The ID of a check response comes before its SPI.",
        &Exchanged(6, &[Part::Id, Part::IkeSpi]),
    ),
    (Kind::Traces, "kind-7-unknown", "A clone gives 21.", &KindUnknown(7)),
    (Kind::Traces, "kind-8-unknown", "The mark for being deleted gives 21.", &KindUnknown(8)),
    (
        Kind::Traces,
        "new-spi-first",
        "The new SPI of a clone comes before the original's.",
        &Exchanged(7, &[Part::NewSpi, Part::IkeSpi]),
    ),
    (
        Kind::Traces,
        "cloning-before-peer",
        "Of an opening, whether cloning is agreed comes before the peer.",
        &Exchanged(0, &[Part::Cloning, Part::Peer]),
    ),
    (Kind::Traces, "peer-left-out", "An opening has no peer.", &LeftOut(Part::Peer)),
    (
        Kind::Traces,
        "cloning-left-out",
        "An opening doesn't say whether cloning is agreed.",
        &LeftOut(Part::Cloning),
    ),
    (
        Kind::Traces,
        "operator-left-out",
        "No entry names an operator, as before there were two.",
        &LeftOut(Part::Operator),
    ),
    (
        Kind::Entries,
        "written-without-operator",
        "An entry is written without its operator.",
        &LeftOut(Part::Operator),
    ),
    (
        Kind::Traces,
        "operator-before-cloning",
        "An opening names its operator before whether cloning is agreed.",
        &Exchanged(0, &[Part::Operator, Part::Cloning]),
    ),
    (
        Kind::Traces,
        "operator-before-rules",
        "A policy names its operator before its rules.",
        &Exchanged(5, &[Part::Operator, Part::Rules]),
    ),
    (
        Kind::Traces,
        "operator-octet",
        "An operator has eight bits, so that the call refuses what has no room.",
        &Most(Field::Operator, 255),
    ),
    (Kind::Traces, "operator-cut", "Of an operator the lowest bit is read.", &Cut(Field::Operator)),
    (Kind::Traces, "peer-cut", "A peer past 32 bits is cut to them.", &Cut(Field::Peer)),
    (
        Kind::Traces,
        "addresses-turned",
        "The destination of an opening's pair comes before its source.",
        &Exchanged(0, &[Part::Destination, Part::Source]),
    ),
    (
        Kind::Traces,
        "lengths-between",
        "The first prefix length comes before the second prefix.",
        &LengthsBetween,
    ),
    (
        Kind::Entries,
        "written-too-large",
        "A number too large for its field is written.",
        &Fits(|field| !matches!(field, Field::Count | Field::Length)),
    ),
    (
        Kind::Entries,
        "written-length-4097",
        "A string of more than 4,096 octets is written.",
        &Fits(|field| field == Field::Length),
    ),
    (
        Kind::Entries,
        "written-all-rules",
        "All sixteen rules are written, whatever the count.",
        &WrittenAllRules,
    ),
    (
        Kind::Entries,
        "written-one-short",
        "An output that is one octet too short is taken.",
        &Needed(|length| length - 1),
    ),
    (Kind::Entries, "written-room-first", "2 is told before 22.", &WrittenRoomFirst),
    (
        Kind::Entries,
        "written-rest-cleared",
        "The octets past the length are cleared.",
        &WrittenRestCleared,
    ),
    (
        Kind::Entries,
        "written-part-with-2",
        "With 2 as much is written as there is room for.",
        &WrittenRefused(Refusal::OutputTooShort),
    ),
    (
        Kind::Entries,
        "written-with-22",
        "With 22 as much is written as there is room for.",
        &WrittenRefused(Refusal::TooLarge),
    ),
    (
        Kind::Entries,
        "written-length-refused",
        "With 2 and 22 the length of the entry is told.",
        &WrittenLengthRefused,
    ),
    (
        Kind::Entries,
        "written-room-before-kind",
        "With no output at all, 2 is told before 21.",
        &WrittenOtherKind(
            |room| {
                if room == 0 {
                    Refusal::OutputTooShort
                } else {
                    Refusal::UnknownKind
                }
            },
        ),
    ),
    (
        Kind::Entries,
        "written-outside-by-one",
        "An address or a string that ends an octet past the source is written so.",
        &Within(|offset, length, size| length != 0 && offset.checked_add(length) == Some(size + 1)),
    ),
    (
        Kind::Entries,
        "written-end-wraps",
        "One whose end is past 64 bits is written so.",
        &Within(|offset, length, size| length != 0 && offset.wrapping_add(length) <= size),
    ),
    (
        Kind::Entries,
        "written-empty-outside",
        "A string of no octets may begin past the end of the source.",
        &Within(|_, length, _| length == 0),
    ),
    (
        Kind::Entries,
        "written-outside-past-count",
        "An address that isn't within the source gives 22 in a rule past the count too.",
        &WrittenOutsidePastCount,
    ),
    (
        Kind::Entries,
        "place-wraps",
        "A place past the end is taken for one in the trace, by its low 16 bits.",
        &PlaceWraps,
    ),
    (
        Kind::Entries,
        "read-offsets-of-entry",
        "Offsets in slots are counted from the entry's first octet.",
        &ReadOffsetsOfEntry,
    ),
    (
        Kind::Entries,
        "read-slot-behind",
        "The slot behind those of the entry isn't 0.",
        &ReadSlotBehind,
    ),
    (
        Kind::Entries,
        "read-next-of-entry",
        "What is told as next is counted from the entry's first octet.",
        &ReadNextOfEntry,
    ),
    (Kind::Entries, "refused-kind-told", "With 22 the kind is told.", &RefusedKindTold),
    (Kind::Entries, "end-read", "At the end of the trace the answer is 0.", &EndRead),
];

struct NineOctetsMost;
impl TraceRules for NineOctetsMost {
    fn most_groups(&self) -> usize {
        9
    }
}

struct HighestGroupFirst;
impl TraceRules for HighestGroupFirst {
    fn joined(&self, groups: &[u8]) -> u128 {
        Plain.joined(&groups.iter().rev().copied().collect::<Vec<_>>())
    }
}

struct NotShortestRead;
impl TraceRules for NotShortestRead {
    fn is_shortest(&self, _groups: &[u8]) -> bool {
        true
    }
}

struct TenthOctetUntested;
impl TraceRules for TenthOctetUntested {
    fn in_64_bits(&self, value: u128) -> Result<u64, Refusal> {
        Ok(value as u64)
    }
}

struct Past64Bits22;
impl TraceRules for Past64Bits22 {
    fn in_64_bits(&self, value: u128) -> Result<u64, Refusal> {
        Plain.in_64_bits(value).map_err(|_| Refusal::TooLarge)
    }
}

struct WrittenNotShortest;
impl TraceRules for WrittenNotShortest {
    fn number(&self, value: u64) -> Vec<u8> {
        let mut octets = Plain.number(value);
        *octets.last_mut().expect("a number has an octet") |= 0x80;
        octets.push(0);
        octets
    }
}

struct WrittenHighestFirst;
impl TraceRules for WrittenHighestFirst {
    fn number(&self, value: u64) -> Vec<u8> {
        let mut octets = Plain.number(value);
        octets.reverse();
        let last = octets.len() - 1;
        octets.iter_mut().for_each(|octet| *octet |= 0x80);
        octets[last] &= 0x7f;
        octets
    }
}

/// The field has room for another greatest number.
struct Most(Field, u64);
impl TraceRules for Most {
    fn most(&self, field: Field) -> u64 {
        if field == self.0 {
            self.1
        } else {
            Plain.most(field)
        }
    }
}

struct Bare(Field);
impl TraceRules for Bare {
    fn is_bare(&self, field: Field) -> bool {
        field == self.0
    }
}

/// A number too large for the field is cut to its bits.
struct Cut(Field);
impl TraceRules for Cut {
    fn checked(&self, field: Field, value: u64, behind: &[u8]) -> Result<u64, Refusal> {
        let cut = if field == self.0 { value & Plain.most(field) } else { value };
        Plain.checked(field, cut, behind)
    }
}

/// So many octets for each that the number counts must stand behind it before it is held against its field.
struct Behind(Field, u64);
impl TraceRules for Behind {
    fn checked(&self, field: Field, value: u64, behind: &[u8]) -> Result<u64, Refusal> {
        if field == self.0 && value.saturating_mul(self.1) > behind.len() as u64 {
            return Err(Refusal::Cut);
        }
        Plain.checked(field, value, behind)
    }
}

struct Ipv4Bare4;
impl TraceRules for Ipv4Bare4 {
    fn address_size(&self, family: u64) -> usize {
        if family == 4 {
            4
        } else {
            16
        }
    }
}

struct KindCut;
impl TraceRules for KindCut {
    fn kind(&self, number: u64) -> Result<u64, Refusal> {
        Plain.kind(number % 256)
    }
}

struct OtherKind(fn(u64) -> Refusal);
impl TraceRules for OtherKind {
    fn kind(&self, number: u64) -> Result<u64, Refusal> {
        Plain.kind(number).map_err(|_| self.0(number))
    }
}

struct KindUnknown(u64);
impl TraceRules for KindUnknown {
    fn kind(&self, number: u64) -> Result<u64, Refusal> {
        if number == self.0 {
            return Err(Refusal::UnknownKind);
        }
        Plain.kind(number)
    }
}

/// These parts of the kind stand in this order, in the places that they have among the others.
struct Exchanged(u64, &'static [Part]);
impl TraceRules for Exchanged {
    fn layout(&self, kind: u64) -> Vec<Part> {
        let mut layout = Plain.layout(kind);
        if kind == self.0 {
            let places = layout.iter_mut().filter(|part| self.1.contains(part));
            places.zip(self.1).for_each(|(place, part)| *place = *part);
        }
        layout
    }
}

struct LeftOut(Part);
impl TraceRules for LeftOut {
    fn layout(&self, kind: u64) -> Vec<Part> {
        Plain.layout(kind).into_iter().filter(|&part| part != self.0).collect()
    }
}

struct LengthsBetween;
impl TraceRules for LengthsBetween {
    fn layout_of_rule(&self) -> &'static [Part] {
        use Part::{Destination, DestinationLength, Family, Source, SourceLength};
        &[Family, Source, SourceLength, Destination, DestinationLength]
    }
}

struct Fits(fn(Field) -> bool);
impl TraceRules for Fits {
    fn fits(&self, field: Field, value: u64) -> bool {
        self.0(field) || Plain.fits(field, value)
    }
}

struct WrittenAllRules;
impl TraceRules for WrittenAllRules {
    fn rules_in(&self, _count: u64) -> usize {
        MOST_RULES
    }
}

struct Needed(fn(usize) -> usize);
impl TraceRules for Needed {
    fn needed(&self, length: usize) -> usize {
        self.0(length)
    }
}

struct WrittenRoomFirst;
impl TraceRules for WrittenRoomFirst {
    fn refusal(&self, too_large: bool, too_short: bool) -> Option<Refusal> {
        let first = too_short.then_some(Refusal::OutputTooShort);
        first.or(too_large.then_some(Refusal::TooLarge))
    }
}

struct WrittenRestCleared;
impl TraceRules for WrittenRestCleared {
    fn output(&self, before: &[u8], octets: &[u8]) -> Vec<u8> {
        Plain.output(&vec![0; before.len()], octets)
    }
}

/// With this refusal as much is written as there is room for.
struct WrittenRefused(Refusal);
impl TraceRules for WrittenRefused {
    fn output_refused(&self, before: &[u8], refusal: Refusal, octets: &[u8]) -> Vec<u8> {
        if refusal == self.0 {
            Plain.output(before, octets)
        } else {
            before.to_vec()
        }
    }
}

struct WrittenLengthRefused;
impl TraceRules for WrittenLengthRefused {
    fn length_refused(&self, octets: &[u8]) -> usize {
        octets.len()
    }
}

struct WrittenOtherKind(fn(usize) -> Refusal);
impl TraceRules for WrittenOtherKind {
    fn refusal_of_kind(&self, room: usize) -> Refusal {
        self.0(room)
    }
}

/// Takes some parts that aren't within the source, as zeros.
struct Within(fn(u64, u64, u64) -> bool);
impl TraceRules for Within {
    fn part(&self, source: &[u8], offset: u64, length: u64) -> Option<Vec<u8>> {
        let taken = length <= 4096 && self.0(offset, length, source.len() as u64);
        Plain.part(source, offset, length).or(taken.then(|| vec![0; length as usize]))
    }
}

struct WrittenOutsidePastCount;
impl TraceRules for WrittenOutsidePastCount {
    fn looks_at_rule(&self, _place: u64, _count: u64) -> bool {
        true
    }
}

struct PlaceWraps;
impl TraceRules for PlaceWraps {
    fn read_at(&self, octets: &[u8], place: usize) -> usize {
        let low = place % (1 << 16);
        if place > octets.len() && low < octets.len() {
            low
        } else {
            place
        }
    }
}

struct ReadOffsetsOfEntry;
impl TraceRules for ReadOffsetsOfEntry {
    fn slots(&self, entry: &Entry, _start: usize) -> Slots {
        Plain.slots(entry, 0)
    }
}

struct ReadSlotBehind;
impl TraceRules for ReadSlotBehind {
    fn slots(&self, entry: &Entry, start: usize) -> Slots {
        let mut slots = Plain.slots(entry, start);
        let items = if let Entry::Policy { count, .. } = entry { *count as usize } else { 0 };
        if let Some(behind) = unused(entry.kind() as u8, items).next() {
            slots[behind] = 1;
        }
        slots
    }
}

struct ReadNextOfEntry;
impl TraceRules for ReadNextOfEntry {
    fn next(&self, start: usize, behind: usize) -> usize {
        behind - start
    }
}

struct RefusedKindTold;
impl TraceRules for RefusedKindTold {
    fn told_refused(&self, refusal: Refusal, octets: &[u8], place: usize) -> (u8, u8) {
        // A kind that is known is one octet.
        let known = octets.get(place).filter(|_| refusal == Refusal::TooLarge);
        (refusal as u8, known.copied().unwrap_or(0))
    }
}

struct EndRead;
impl TraceRules for EndRead {
    fn told_refused(&self, refusal: Refusal, octets: &[u8], place: usize) -> (u8, u8) {
        (if place == octets.len() { 0 } else { refusal as u8 }, 0)
    }
}
