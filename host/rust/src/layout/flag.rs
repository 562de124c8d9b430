//! A yes or no inside a struct that the library writes.

/// A yes or no of the C interface, held as an octet: 0 is no and any other yes, so that whatever octet
/// stands there may be looked at. Flags are equal if their octets are.
///
/// Only 0 and 1 can be made here, and the library makes no others; where C has a `bool`, as in
/// [`Seen`](crate::Seen), it may be given no others.
#[repr(transparent)]
#[derive(Debug, Clone, Copy, Default, PartialEq, Eq)]
pub struct Flag(u8);

impl Flag {
    /// No, as in a place that is free.
    pub const NO: Flag = Flag(0);
    /// Yes.
    pub const YES: Flag = Flag(1);

    /// Whether it says yes.
    pub const fn is_set(self) -> bool {
        self.0 != 0
    }
}

impl From<bool> for Flag {
    fn from(set: bool) -> Self {
        Flag(u8::from(set))
    }
}
