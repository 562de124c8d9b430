//! The text form of a trace.
mod addresses;
mod table;
mod text;
mod trace;

pub use text::to_text;
pub use trace::to_trace;

/// What came of a text or a trace, and what of it isn't understood, if anything.
#[derive(Debug, PartialEq, Eq)]
pub struct Turned {
    pub octets: Vec<u8>,
    pub fault: Option<String>,
}
