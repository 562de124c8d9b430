//! A trace turned into a text.
use super::addresses::{address_word, string_word};
use super::table::{width, Field, CALLS, LIST_PLACES};
use super::Turned;
use unmavreth::limits::ADDRESS_OCTETS;
use unmavreth::trace::{read_slots, Slots};
use unmavreth::Number;

/// The text of a trace, up to the entry that is refused, if there is one.
pub fn to_text(trace: &[u8]) -> Turned {
    let mut text = String::new();
    let mut at = 0;
    while at < trace.len() {
        match line(trace, at) {
            Ok((line, next)) => {
                text += &line;
                at = next;
            }
            Err(number) => {
                let fault = format!("{} at {at}: the trace is refused here", u8::from(number));
                return Turned { octets: text.into(), fault: Some(fault) };
            }
        }
    }
    Turned { octets: text.into(), fault: None }
}

/// The line of the entry at an offset, and the offset behind it.
fn line(trace: &[u8], at: usize) -> Result<(String, usize), Number> {
    let (kind, slots, next) = read_slots(trace, at)?;
    let called = CALLS.iter().find(|(_, of, _)| *of == kind);
    let (word, _, fields) = called.ok_or(Number::UnknownKind)?;
    let mut told = Told { trace, slots, next: 0, family: 0, line: word.to_string() };
    told.each(fields);
    Ok((told.line + "\n", next))
}

/// The slots of an entry that are still to be told, and the line so far.
struct Told<'a> {
    trace: &'a [u8],
    slots: Slots,
    next: usize,
    /// The last one that was told: that of the addresses behind it.
    family: u64,
    line: String,
}

impl Told<'_> {
    fn each(&mut self, fields: &[Field]) {
        fields.iter().for_each(|field| self.field(field));
    }

    fn field(&mut self, field: &Field) {
        match field {
            Field::Number => drop(self.number()),
            Field::Family => self.family = self.number(),
            Field::Address => {
                let start = self.slot();
                self.word(&address_word(self.family, self.part(start, ADDRESS_OCTETS as u64)));
            }
            Field::String => {
                let (start, length) = (self.slot(), self.slot());
                self.word(&string_word(self.part(start, length)));
            }
            Field::Each(fields) => self.each(fields),
            Field::List(fields) => {
                let count = self.number();
                let behind = self.next + LIST_PLACES * width(fields);
                (0..count).for_each(|_| self.each(fields));
                self.next = behind;
            }
        }
    }

    fn number(&mut self) -> u64 {
        let number = self.slot();
        self.word(&number.to_string());
        number
    }

    fn word(&mut self, word: &str) {
        self.line.push(' ');
        self.line += word;
    }

    fn slot(&mut self) -> u64 {
        self.next += 1;
        self.slots.get(self.next - 1).copied().unwrap_or_default()
    }

    fn part(&self, start: u64, length: u64) -> &[u8] {
        let end = start.saturating_add(length) as usize;
        self.trace.get(start as usize..end).unwrap_or_default()
    }
}
