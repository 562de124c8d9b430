//! Traces: the calls that were made on a gateway, as octets, one entry behind the other. `docs/TRACE.md`
//! has the format; `./replay` makes the calls of a trace again, and the example `trace_text` turns a trace
//! into a text and back.
//!
//! ```
//! use unmavreth::trace::{read_entry, write_entry, Entry};
//! use unmavreth::{Number, Operator};
//!
//! let close = Entry::CloseIke { spi: 7, operator: Operator::A };
//! let mut out = [9; 4];
//! assert_eq!(write_entry(&close, &mut out), Ok(3));
//! assert_eq!(out, [2, 7, 0, 9]);
//! assert_eq!(read_entry(&out, 0), Ok((close, 3)));
//! assert_eq!(read_entry(&out[..2], 0), Err(Number::Cut));
//! ```
mod entry;
mod from_slots;
mod into_slots;
mod slots;

pub use entry::{read_entry, write_entry, Entry};
pub use slots::{read_slots, write_slots, Kind, Slots};
