// Redirects (request E7 of document 02, RFC 5685): the data of the three notifications, the decision on a REDIRECT, and
// both as they are compared.
pub mod data;
pub mod decision;
pub mod program;

/// The notifications of which the data is read and written.
#[derive(Debug, Clone, Copy, PartialEq, Eq)]
pub enum Notification {
    Redirect,
    RedirectedFrom,
    RedirectSupported,
}

impl Notification {
    pub const ALL: [Notification; 3] =
        [Notification::Redirect, Notification::RedirectedFrom, Notification::RedirectSupported];
}

/// Why data isn't read or written, or a REDIRECT isn't accepted, with its number.
#[derive(Debug, Clone, Copy, PartialEq, Eq)]
pub enum Refusal {
    /// Writing only.
    OutputTooShort = 2,
    Malformed = 30,
    Exchange = 31,
    Nonce = 32,
    BeforeLast = 33,
    TooMany = 34,
}
