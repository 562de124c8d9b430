// A trace: calls as octets, one entry behind the other, and its replay (request E3 of document 02).
pub mod codec;
mod cursor;
pub mod entry;
pub mod fields;
pub mod lines;
pub mod making;
pub mod numbers;
pub mod pieces;
pub mod reading;
pub mod replay;
pub mod slots;
pub mod writing;

/// Why an entry isn't read, or isn't written, with its number.
#[derive(Debug, Clone, Copy, PartialEq, Eq)]
pub enum Refusal {
    /// Writing only.
    OutputTooShort = 2,
    /// The octets end inside an entry, or a number isn't shortest or past 64 bits.
    Cut = 20,
    UnknownKind = 21,
    /// A number, count or length for its field.
    TooLarge = 22,
}
