// The payload chain as a list: where each payload lies in the body, and how the chain ends.

pub const HEADER_LENGTH: usize = 4;
pub const CRITICAL: u8 = 0x80;

pub const NO_NEXT_PAYLOAD: u8 = 0;
pub const NOTIFY: u8 = 41;

/// Which message a chain is of.
#[derive(Debug, Clone, Copy, PartialEq, Eq)]
pub enum Exchange {
    /// An INFORMATIONAL request or a response.
    Informational,
    /// A CREATE_CHILD_SA request given as an IKE rekey.
    Rekey,
}

/// What a payload type means to a reader.
#[derive(Debug, Clone, Copy, PartialEq, Eq)]
pub enum Class {
    Notify,
    Skipped,
    Unknown,
}

/// A payload whose length keeps it inside the body.
#[derive(Debug, Clone, Copy)]
pub struct Payload<'a> {
    /// How many payloads come before it.
    pub ordinal: usize,
    pub offset: usize,
    pub payload_type: u8,
    pub flags: u8,
    /// All of it, header included.
    pub octets: &'a [u8],
}

/// How the list of payloads comes to its end.
#[derive(Debug, Clone, Copy)]
pub enum End {
    /// Type 0, and no octet after it.
    Complete,
    /// Type 0 with octets after it; the offset of the first.
    Leftover { offset: usize },
    /// A payload is announced, but under 4 octets are left for its header; how many.
    HeaderCut { offset: usize, left: usize },
    /// The header's length is under 4 or past the end of the body.
    BadLength { offset: usize, payload_type: u8, flags: u8 },
}

#[derive(Debug)]
pub struct Chain<'a> {
    pub payloads: Vec<Payload<'a>>,
    pub end: End,
}

/// Follows the chain from payload to payload, as far as the lengths allow.
pub fn split(first: u8, body: &[u8]) -> Chain<'_> {
    let mut payloads = Vec::new();
    let mut payload_type = first;
    let mut offset = 0;
    while payload_type != NO_NEXT_PAYLOAD {
        let rest = &body[offset..];
        let &[next, flags, high, low, ..] = rest else {
            let end = End::HeaderCut { offset, left: rest.len() };
            return Chain { payloads, end };
        };
        let length = usize::from(u16::from_be_bytes([high, low]));
        if length < HEADER_LENGTH || length > rest.len() {
            let end = End::BadLength { offset, payload_type, flags };
            return Chain { payloads, end };
        }
        let (ordinal, octets) = (payloads.len(), &rest[..length]);
        payloads.push(Payload { ordinal, offset, payload_type, flags, octets });
        payload_type = next;
        offset += length;
    }
    let end = if offset == body.len() { End::Complete } else { End::Leftover { offset } };
    Chain { payloads, end }
}
