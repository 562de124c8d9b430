// Chains in the making: payloads as meant, from which a first type and a body are put together.
use super::Case;
use crate::chain::{HEADER_LENGTH, NOTIFY, NO_NEXT_PAYLOAD};
use crate::notify::NotifyType;
use std::slice::from_ref;

#[derive(Debug, Clone, Default)]
pub struct Draft {
    pub payload_type: u8,
    pub flags: u8,
    /// What follows the header.
    pub content: Vec<u8>,
    /// The length told in the header, where it isn't the real one.
    pub told_length: Option<u16>,
    /// The next type told in the header, where it isn't that of the next payload.
    pub told_next: Option<u8>,
}

impl Draft {
    pub fn payload(payload_type: u8, flags: u8, content: Vec<u8>) -> Self {
        Draft { payload_type, flags, content, ..Draft::default() }
    }

    pub fn notify(notify_type: NotifyType, data: &[u8]) -> Self {
        Self::notify_with_spi(notify_type, 0, data)
    }

    /// A Notify that tells an SPI of `spi_size` octets, the first of `rest`.
    pub fn notify_with_spi(notify_type: NotifyType, spi_size: u8, rest: &[u8]) -> Self {
        let [high, low] = notify_type.0.to_be_bytes();
        let mut content = vec![0, spi_size, high, low];
        content.extend_from_slice(rest);
        Draft::payload(NOTIFY, 0, content)
    }

    pub fn size(&self) -> usize {
        HEADER_LENGTH + self.content.len()
    }

    pub fn is_notify(&self, notify_type: NotifyType) -> bool {
        self.payload_type == NOTIFY && self.content.get(2..4) == Some(&notify_type.0.to_be_bytes())
    }
}

#[derive(Debug, Clone, Default)]
pub struct ChainDraft {
    pub payloads: Vec<Draft>,
    /// The type that the last payload announces; 0 ends the chain.
    pub last_next: u8,
    /// Octets after the last payload.
    pub tail: Vec<u8>,
}

impl ChainDraft {
    pub fn of(payloads: Vec<Draft>) -> Self {
        ChainDraft { payloads, last_next: NO_NEXT_PAYLOAD, tail: Vec::new() }
    }

    pub fn size(&self) -> usize {
        self.payloads.iter().map(Draft::size).sum::<usize>() + self.tail.len()
    }

    pub fn has(&self, notify_type: NotifyType) -> bool {
        self.payloads.iter().any(|payload| payload.is_notify(notify_type))
    }

    pub fn remove(&mut self, notify_type: NotifyType) {
        self.payloads.retain(|payload| !payload.is_notify(notify_type));
    }

    fn type_at(&self, place: usize) -> u8 {
        self.payloads.get(place).map_or(self.last_next, |payload| payload.payload_type)
    }

    pub fn assemble(&self) -> Case {
        let mut body = Vec::with_capacity(self.size());
        for (place, payload) in self.payloads.iter().enumerate() {
            // A payload over 65,535 octets tells what its length field can hold.
            let length = payload.told_length.unwrap_or(payload.size() as u16);
            body.push(payload.told_next.unwrap_or(self.type_at(place + 1)));
            body.push(payload.flags);
            body.extend(length.to_be_bytes());
            body.extend_from_slice(&payload.content);
        }
        body.extend_from_slice(&self.tail);
        Case { first: self.type_at(0), body }
    }
}

/// Every sequence of at most so many of these payloads.
pub fn sequences(payloads: &[Draft], most: usize) -> Vec<Vec<Draft>> {
    let mut all: Vec<Vec<Draft>> = vec![vec![]];
    let mut longest = all.clone();
    for _ in 0..most {
        let longer = longest.iter().flat_map(|sequence| {
            payloads.iter().map(move |payload| [&sequence[..], from_ref(payload)].concat())
        });
        longest = longer.collect();
        all.extend_from_slice(&longest);
    }
    all
}
