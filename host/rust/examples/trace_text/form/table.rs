//! The calls by their words, with the fields of each. A later field is one more word at the end of its line, and a
//! later call one more line.
use unmavreth::trace::Kind;

/// What a word, or several, say.
pub enum Field {
    /// A number, in decimal.
    Number,
    /// A number that says of which family the addresses behind it are.
    Family,
    /// An address in one of the usual forms, or 32 hex digits.
    Address,
    /// Octets as hex digits, or `-` for none.
    String,
    /// These, one behind the other.
    Each(&'static [Field]),
    /// A count, and so many of these.
    List(&'static [Field]),
}
use Field::{Address, Each, Family, List, Number, String};

/// The places of a list in the slots of an entry, however many of them it fills.
pub const LIST_PLACES: usize = 16;

/// Family, source, destination, source port, destination port.
const PAIR: Field = Each(&[Family, Address, Address, Number, Number]);
/// Family, source prefix, destination prefix, their lengths.
const RULE: &[Field] = &[Family, Address, Address, Number, Number];

/// The word, the kind and the fields of each call.
pub const CALLS: [(&str, Kind, &[Field]); 9] = [
    // SPI, MOBIKE agreed, pair, IPsec SPI, peer, cloning agreed, operator
    ("open", Kind::OpenBoth, &[Number, Number, PAIR, Number, Number, Number, Number]),
    // SPI, owner's SPI, operator
    ("add", Kind::AddIpsec, &[Number, Number, Number]),
    // SPI, operator
    ("close", Kind::CloseIke, &[Number, Number]),
    // SPI, operator
    ("close-ipsec", Kind::CloseIpsec, &[Number, Number]),
    // SPI, message ID, pair, both NAT values, first type, body, cookie and message ID of a check, operator
    (
        "request",
        Kind::Request,
        &[Number, Number, PAIR, String, String, Number, String, String, Number, Number],
    ),
    // rules, operator
    ("policy", Kind::Policy, &[List(RULE), Number]),
    // SPI, message ID, first type, body, operator
    ("check-response", Kind::CheckResponse, &[Number, Number, Number, String, Number]),
    // SPI, new SPI, first type, body, operator
    ("clone", Kind::Clone, &[Number, Number, Number, String, Number]),
    // SPI, operator
    ("mark-deletion", Kind::MarkDeletion, &[Number, Number]),
];

/// How many slots these fields have.
pub fn width(fields: &[Field]) -> usize {
    let one = |field: &Field| match field {
        Number | Family | Address => 1,
        String => 2,
        Each(fields) => width(fields),
        List(fields) => 1 + LIST_PLACES * width(fields),
    };
    fields.iter().map(one).sum()
}
