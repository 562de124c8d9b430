//! A text turned into a trace.
use super::addresses::{address, string};
use super::table::{width, Field, CALLS, LIST_PLACES};
use super::Turned;
use std::str::SplitAsciiWhitespace;
use unmavreth::limits::{ENTRY_MOST, ENTRY_SLOTS};
use unmavreth::trace::{write_slots, Slots};
use unmavreth::Number;

/// The trace that a text says. If a line isn't understood there is none, and its number is told.
pub fn to_trace(text: &[u8]) -> Turned {
    let mut octets = Vec::new();
    for (line, number) in String::from_utf8_lossy(text).lines().zip(1..) {
        match entry(line) {
            Ok(entry) => octets.extend(entry),
            Err(fault) => {
                return Turned {
                    octets: Vec::new(),
                    fault: Some(format!("line {number}: {fault}")),
                }
            }
        }
    }
    Turned { octets, fault: None }
}

/// What is said of a line of which the library refuses something with 22.
const TOO_LARGE: &str = "22: something is too large for its field";

/// The octets of a line's entry; none, if there is only a comment or nothing.
fn entry(line: &str) -> Result<Vec<u8>, String> {
    let call = line.split('#').next().unwrap_or_default();
    let mut words = call.split_ascii_whitespace();
    let Some(first) = words.next() else { return Ok(Vec::new()) };
    let called = CALLS.iter().find(|(word, ..)| *word == first);
    let (_, kind, fields) = called.ok_or(format!("no call is named {first}"))?;
    let mut said = Said { words, slots: [0; ENTRY_SLOTS], next: 0, source: Vec::new() };
    said.each(fields)?;
    if let Some(word) = said.words.next() {
        return Err(format!("{word} is one word too many"));
    }
    let mut out = [0; ENTRY_MOST];
    match write_slots(*kind, &said.slots, &said.source, &mut out) {
        Ok(length) => Ok(out[..length].to_vec()),
        Err(Number::TooLarge) => Err(TOO_LARGE.to_string()),
        Err(number) => Err(format!("{}: not written", u8::from(number))),
    }
}

/// The words of a line that are still to be looked at, and the slots that are filled so far.
struct Said<'a> {
    words: SplitAsciiWhitespace<'a>,
    slots: Slots,
    next: usize,
    source: Vec<u8>,
}

impl Said<'_> {
    fn each(&mut self, fields: &[Field]) -> Result<(), String> {
        fields.iter().try_for_each(|field| self.field(field))
    }

    fn field(&mut self, field: &Field) -> Result<(), String> {
        match field {
            Field::Number | Field::Family => self.number().map(drop),
            Field::Address => {
                let octets = self.word("an address", address)?;
                self.put(self.source.len() as u64);
                self.source.extend(octets);
                Ok(())
            }
            Field::String => {
                let octets = self.word("hex digits, two for each octet, or -", string)?;
                self.put(self.source.len() as u64);
                self.put(octets.len() as u64);
                self.source.extend(octets);
                Ok(())
            }
            Field::Each(fields) => self.each(fields),
            Field::List(fields) => self.list(fields),
        }
    }

    /// A list that is too long is refused by its count, as the library would, and no item is looked at.
    fn list(&mut self, fields: &[Field]) -> Result<(), String> {
        let count = self.number()?;
        let behind = self.next + LIST_PLACES * width(fields);
        if count > LIST_PLACES as u64 {
            return Err(TOO_LARGE.to_string());
        }
        (0..count).try_for_each(|_| self.each(fields))?;
        self.next = behind;
        Ok(())
    }

    fn number(&mut self) -> Result<u64, String> {
        let number = self.word("a number in decimal, of 64 bits", |word| {
            let digits = word.bytes().all(|octet| octet.is_ascii_digit());
            digits.then(|| word.parse().ok()).flatten()
        })?;
        self.put(number);
        Ok(number)
    }

    fn word<T>(&mut self, what: &str, read: impl Fn(&str) -> Option<T>) -> Result<T, String> {
        let word = self.words.next().ok_or(format!("{what} is missing"))?;
        read(word).ok_or(format!("{word} is not {what}"))
    }

    fn put(&mut self, number: u64) {
        if let Some(slot) = self.slots.get_mut(self.next) {
            *slot = number;
        }
        self.next += 1;
    }
}
