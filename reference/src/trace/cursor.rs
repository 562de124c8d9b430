// The octets of a trace as they are read: numbers, addresses and strings, one behind the other.
use super::fields::Field;
use super::{numbers, Refusal};
use crate::address::AddressOctets;
use crate::rules::TraceRules;

/// Where the reading has come to.
pub struct Cursor<'a, R: ?Sized> {
    pub octets: &'a [u8],
    pub place: usize,
    pub rules: &'a R,
}

impl<'a, R: TraceRules + ?Sized> Cursor<'a, R> {
    /// Of a pair or rule of this family, with zeros behind it if it is short.
    pub fn address(&mut self, family: u64) -> Result<AddressOctets, Refusal> {
        let mut octets = [0; 16];
        let size = self.rules.address_size(family);
        octets[..size].copy_from_slice(self.take(size)?);
        Ok(octets)
    }

    pub fn string(&mut self) -> Result<Vec<u8>, Refusal> {
        let length = self.number(Field::Length)?;
        Ok(self.take(length as usize)?.to_vec())
    }

    /// A number of this field: it is read whole, and then held against its field.
    pub fn number(&mut self, field: Field) -> Result<u64, Refusal> {
        if self.rules.is_bare(field) {
            return Ok(u64::from(self.take(1)?[0]));
        }
        let value = self.any_number()?;
        self.rules.checked(field, value, self.left())
    }

    pub fn any_number(&mut self) -> Result<u64, Refusal> {
        let (value, length) = numbers::read(self.left(), self.rules)?;
        self.place += length;
        Ok(value)
    }

    fn take(&mut self, count: usize) -> Result<&'a [u8], Refusal> {
        let taken = self.left().get(..count).ok_or(Refusal::Cut)?;
        self.place += count;
        Ok(taken)
    }

    fn left(&self) -> &'a [u8] {
        self.octets.get(self.place..).unwrap_or_default()
    }
}
