// The two calls on single entries as they are compared: what is read at a place of some octets, what is
// written of slots, and both round trips.
use super::entry::{Entry, Rule};
use super::reading::{self, Read};
use super::slots::{self, Meant, Slots, SLOTS};
use super::writing::{self, Written};
use crate::reply::written_and_rest;
use crate::rules::{Plain, Rules, TraceRules};
use crate::show::hex;

/// What the writer is given but for the output.
#[derive(Debug, Clone, PartialEq, Eq)]
pub struct Lent {
    pub kind: u8,
    pub slots: Box<Slots>,
    /// What the offsets in the slots are of.
    pub source: Vec<u8>,
}

impl Lent {
    pub fn meant(&self, rules: &(impl TraceRules + ?Sized)) -> Option<Meant> {
        slots::meant(self.kind, &self.slots, &self.source, rules)
    }
}

/// Octets, and a place in them or past them at which an entry is read.
#[derive(Debug, Clone, PartialEq, Eq)]
pub struct Buffer {
    pub octets: Vec<u8>,
    pub place: usize,
}

/// What a reader gives back.
#[derive(Debug, Clone, PartialEq, Eq)]
pub struct Told {
    pub number: u8,
    pub kind: u8,
    pub next: usize,
    pub slots: Box<Slots>,
    /// What the slots mean in the octets; none if the entry isn't read.
    pub meant: Option<Meant>,
}

impl Told {
    /// These fields, with what they mean in the octets.
    pub fn of(number: u8, kind: u8, next: usize, slots: Box<Slots>, octets: &[u8]) -> Self {
        let known = (number == 0).then_some(kind);
        let meant = known.and_then(|kind| slots::meant(kind, &slots, octets, &Plain));
        let meant = meant.map(|Meant { entry, within }| Meant { entry: counted(entry), within });
        Told { number, kind, next, slots, meant }
    }
}

/// With nothing in the places past the count, as an entry is read.
pub fn counted(mut entry: Entry) -> Entry {
    if let Entry::Policy { count, rules, .. } = &mut entry {
        let past = usize::try_from(*count).unwrap_or(usize::MAX);
        rules.iter_mut().skip(past).for_each(|rule| *rule = Rule::default());
    }
    entry
}

/// A program's reader and writer of entries.
pub trait Codec {
    fn read(&self, octets: &[u8], place: usize) -> Told;
    fn write(&self, lent: &Lent, output: &[u8]) -> Written;
}

/// This program.
pub struct Model<'r, R>(pub &'r R);

impl<R: Rules> Codec for Model<'_, R> {
    fn read(&self, octets: &[u8], place: usize) -> Told {
        let rules = self.0.trace();
        let place = rules.read_at(octets, place);
        match reading::read(octets, place, rules) {
            Ok(Read { entry, next }) => {
                let (kind, slots) = (entry.kind() as u8, Box::new(rules.slots(&entry, place)));
                let meant = Some(Meant { entry, within: true });
                Told { number: 0, kind, next: rules.next(place, next), slots, meant }
            }
            Err(refusal) => {
                let (number, kind) = rules.told_refused(refusal, octets, place);
                Told { number, kind, next: 0, slots: Box::new([0; SLOTS]), meant: None }
            }
        }
    }

    fn write(&self, lent: &Lent, output: &[u8]) -> Written {
        let rules = self.0.trace();
        match lent.meant(rules) {
            Some(meant) => writing::write_meant(&meant, output, rules),
            None => {
                let (refusal, output) = (rules.refusal_of_kind(output.len()), output.to_vec());
                Written { number: refusal as u8, length: 0, output, around_kept: true }
            }
        }
    }
}

/// What comes of a case: the entry written, and read again of what was written; an entry read of the
/// octets, and written again of what was read.
#[derive(Debug, Clone, PartialEq, Eq)]
pub struct Outcome {
    pub written: Written,
    pub read_back: Option<Told>,
    pub told: Told,
    pub written_again: Option<Written>,
}

/// What an output holds where a case doesn't say it.
const BEFORE: u8 = 0xee;

impl Outcome {
    pub fn of(codec: &impl Codec, lent: &Lent, output: &[u8], buffer: &Buffer) -> Self {
        let written = codec.write(lent, output);
        let read_back = (written.number == 0).then(|| codec.read(&written.output, 0));
        let Buffer { octets, place } = buffer;
        let told = codec.read(octets, *place);
        let written_again = (told.number == 0).then(|| {
            let Told { kind, slots, .. } = told.clone();
            let room = told.next.saturating_sub(*place).min(octets.len());
            codec.write(&Lent { kind, slots, source: octets.clone() }, &vec![BEFORE; room])
        });
        Outcome { written, read_back, told, written_again }
    }

    /// What the round trips ask and isn't so.
    pub fn broken(&self, lent: &Lent, buffer: &Buffer) -> Vec<&'static str> {
        let Outcome { written, read_back, told, written_again } = self;
        let is_read_back = read_back.as_ref().is_none_or(|back| {
            let given = lent.meant(&Plain).map(|Meant { entry, within }| {
                let entry = counted(entry);
                Meant { entry, within }
            });
            (back.number, back.kind, back.next) == (0, lent.kind, written.length)
                && given.is_some_and(|given| given.within && back.meant == Some(given))
        });
        let is_written_again = written_again.as_ref().is_none_or(|again| {
            let octets = buffer.octets.get(buffer.place..told.next);
            again.number == 0
                && octets == Some(&again.output[..])
                && again.length == again.output.len()
        });
        let laws = [
            (is_read_back, "what is written reads back as it was given"),
            (is_written_again, "what is read is written as the same octets"),
        ];
        laws.into_iter().filter(|(holds, _)| !holds).map(|(_, law)| law).collect()
    }

    /// Every field by name, to be shown.
    pub fn fields(&self) -> Vec<(String, String)> {
        let absent = Told { number: 0, kind: 0, next: 0, slots: Box::new([0; SLOTS]), meant: None };
        let nothing = Written { number: 0, length: 0, output: vec![], around_kept: true };
        let written = |name: &str, written: Option<&Written>| {
            let is_there = (format!("{name}: is there"), written.is_some().to_string());
            [vec![is_there], written_fields(name, written.unwrap_or(&nothing))].concat()
        };
        let told = |name: &str, told: Option<&Told>| {
            let is_there = (format!("{name}: is there"), told.is_some().to_string());
            [vec![is_there], told_fields(name, told.unwrap_or(&absent))].concat()
        };
        [
            written("written", Some(&self.written)),
            told("read back", self.read_back.as_ref()),
            told("read", Some(&self.told)),
            written("written again", self.written_again.as_ref()),
        ]
        .concat()
    }
}

fn written_fields(name: &str, written: &Written) -> Vec<(String, String)> {
    let (octets, rest) = written_and_rest(&written.output, written.length);
    let fields = [
        ("number", written.number.to_string()),
        ("length", written.length.to_string()),
        ("octets", hex(octets)),
        ("rest of the output", hex(rest)),
        ("around it kept", written.around_kept.to_string()),
    ];
    fields.map(|(field, value)| (format!("{name}: {field}"), value)).to_vec()
}

fn told_fields(name: &str, told: &Told) -> Vec<(String, String)> {
    let fields = [
        ("number", told.number.to_string()),
        ("kind", told.kind.to_string()),
        ("next", told.next.to_string()),
        ("slots", shown(&told.slots)),
        ("meant", format!("{:?}", told.meant)),
    ];
    fields.map(|(field, value)| (format!("{name}: {field}"), value)).to_vec()
}

/// Slots up to the last that isn't 0.
pub fn shown(slots: &Slots) -> String {
    let used = slots.iter().rposition(|&slot| slot != 0).map_or(0, |last| last + 1);
    format!("{:?}", &slots[..used])
}

#[cfg(test)]
mod tests {
    use super::*;
    use crate::cases::entries::EntriesCases;

    #[test]
    fn the_round_trips_hold_of_this_program() {
        let cases = EntriesCases::new(1);
        let (mut back, mut again) = (0, 0);
        for number in 0..12_000 {
            let case = cases.case(number);
            let outcome = case.outcome(&Model(&Plain));
            assert_eq!(outcome.broken(&case.lent, &case.buffer), Vec::<&str>::new(), "{case:?}");
            back += usize::from(outcome.read_back.is_some());
            again += usize::from(outcome.written_again.is_some());
        }
        assert!(back > 2_000 && again > 2_000, "{back} {again}");
    }

    #[test]
    fn what_a_model_reads_is_what_its_slots_mean() {
        let cases = EntriesCases::new(2);
        for number in 0..12_000 {
            let Buffer { octets, place } = cases.case(number).buffer;
            let told = Model(&Plain).read(&octets, place);
            let Told { number, kind, next, slots, .. } = told.clone();
            assert_eq!(Told::of(number, kind, next, slots, &octets), told);
            assert!(number == 0 || (kind, next, *told.slots) == (0, 0, [0; SLOTS]));
        }
    }
}
