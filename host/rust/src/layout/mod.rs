//! The structs that cross the C interface, each with its size, its alignment and the offset of every
//! field, checked when this crate is compiled.

/// Does not compile unless the struct has this size and alignment and exactly these fields, each at
/// its offset.
macro_rules! laid_out {
    ($name:ident, size $size:literal, align $align:literal, { $($field:ident: $at:literal),* $(,)? }) => {
        const _: () = assert!(core::mem::size_of::<$name>() == $size);
        const _: () = assert!(core::mem::align_of::<$name>() == $align);
        $(const _: () = assert!(core::mem::offset_of!($name, $field) == $at);)*
        // A field that isn't named above would be missing in this pattern.
        const _: fn($name) = |$name { $($field: _),* }| {};
    };
}

mod addresses;
mod answers;
mod chain;
mod entries;
mod flag;
mod operator;
mod redirects;
mod rules;
mod tables;

pub(crate) use addresses::AddressList;
pub use addresses::{Address, Pair};
pub(crate) use answers::Part;
pub use answers::{Assessment, CloneReply, Reply, Written};
pub use chain::{Ask, Offsets, Reading, Seen, Tally};
pub(crate) use entries::{EntryRead, EntryWritten};
pub use flag::Flag;
pub use operator::Operator;
pub use redirects::Redirects;
pub(crate) use redirects::{DataWritten, GatewayRead, RedirectDecision};
pub use rules::{Policy, Rule};
pub use tables::{Agreed, IkeRecord, IpsecRecord, Opening, PendingCheck};
