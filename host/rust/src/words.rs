//! The words for what the calls give back, and the names of payload and notify types: those of the C header
//! `unmavreth_words.h` and of the program `show_chain`, from the one table `host/words/words.txt`.
use crate::{Effect, Number, Outcome};
use std::error::Error;
use std::fmt;

impl Number {
    /// What the number says.
    pub fn words(self) -> &'static str {
        match self {
            Number::Done => "done",
            Number::BadArgument => "a bad argument",
            Number::OutputTooShort => "output too short",
            Number::BodyTooLong => "body too long",
            Number::NoSuchRecord => "no such record",
            Number::MobikeNotAgreed => "MOBIKE not agreed",
            Number::UnknownCritical => "unknown critical payload",
            Number::AddressesAltered => "addresses altered on the way",
            Number::NotAcceptable => "pair not acceptable",
            Number::Full => "all places in use",
            Number::SpiInUse => "SPI in use",
            Number::BadPolicy => "too many rules or a prefix too long",
            Number::CheckNotPending => "no check under way by a request with this ID",
            Number::Cut => "a cut entry, or a number not shortest or past 64 bits",
            Number::UnknownKind => "unknown kind of an entry",
            Number::TooLarge => "too large for its field",
            Number::BadRedirect => {
                "malformed data of a redirect, or a bad identity or nonce for one"
            }
            Number::WrongExchange => {
                "a redirect in a wrong exchange, or with a nonce in one that has none"
            }
            Number::WrongNonce => "a redirect without the nonce that was sent",
            Number::TimeBeforeLast => "a time before the last accepted redirect's",
            Number::TooManyRedirects => "five accepted redirects within 300 seconds before",
            Number::CloningNotAgreed => "cloning not agreed",
            Number::CannotCloneNow => "the IKE SA to clone is being deleted, or all places in use",
            Number::PeerAtLimit => "the peer has four IKE records or more",
            Number::OperatorAtShare => "the operator has its share of the records or more",
            Number::NoCloneRequest => "no CLONE_IKE_SA in the request",
            Number::BadChainLength => "a payload cut short or of a length that cannot be",
            Number::BadNotify => "a Notify of a length or with an SPI that cannot be",
            Number::BadDataSize => "notification data of a wrong size",
            Number::Repeated => "a repeated or contradictory notification",
            Number::OctetsAfterEnd => "octets after the end",
            Number::Other(_) => "not a number of the library",
        }
    }
}

impl fmt::Display for Number {
    fn fmt(&self, f: &mut fmt::Formatter) -> fmt::Result {
        f.pad(self.words())
    }
}

impl Error for Number {}

impl Effect {
    /// What became of an update. It has other words than a list, so that there is no `Display`.
    pub fn update_words(self) -> &'static str {
        match self {
            Effect::None => "none",
            Effect::Applied => "applied",
            Effect::Stale => "stale",
            Effect::Other(_) => "not an outcome of an update",
        }
    }

    /// What became of a list of additional addresses.
    pub fn list_words(self) -> &'static str {
        match self {
            Effect::None => "none",
            Effect::Applied => "replaced",
            Effect::Stale => "stale",
            Effect::Other(_) => "not an outcome of a list",
        }
    }
}

impl Outcome {
    /// What the response comes to.
    pub fn words(self) -> &'static str {
        match self {
            Outcome::None => "none",
            Outcome::Close => "close the IKE SA",
            Outcome::NatSeen => "NAT seen",
            Outcome::Unacceptable => "unacceptable",
            Outcome::Failed => "failed",
            Outcome::Accepted => "accepted",
            Outcome::Other(_) => "not an outcome of a response",
        }
    }
}

impl fmt::Display for Outcome {
    fn fmt(&self, f: &mut fmt::Formatter) -> fmt::Result {
        f.pad(self.words())
    }
}

/// The name of a notify type, if it has one here.
pub fn notify_words(notify_type: u16) -> Option<&'static str> {
    Some(match notify_type {
        1 => "UNSUPPORTED_CRITICAL_PAYLOAD",
        7 => "INVALID_SYNTAX",
        35 => "NO_ADDITIONAL_SAS",
        40 => "UNACCEPTABLE_ADDRESSES",
        41 => "UNEXPECTED_NAT_DETECTED",
        43 => "TEMPORARY_FAILURE",
        16388 => "NAT_DETECTION_SOURCE_IP",
        16389 => "NAT_DETECTION_DESTINATION_IP",
        16396 => "MOBIKE_SUPPORTED",
        16397 => "ADDITIONAL_IP4_ADDRESS",
        16398 => "ADDITIONAL_IP6_ADDRESS",
        16399 => "NO_ADDITIONAL_ADDRESSES",
        16400 => "UPDATE_SA_ADDRESSES",
        16401 => "COOKIE2",
        16402 => "NO_NATS_ALLOWED",
        16432 => "CLONE_IKE_SA_SUPPORTED",
        16433 => "CLONE_IKE_SA",
        _ => return None,
    })
}

/// The name of a payload type, as RFC 7296 has it in 3.2, if it has one here.
pub fn payload_words(payload_type: u8) -> Option<&'static str> {
    Some(match payload_type {
        33 => "Security Association",
        34 => "Key Exchange",
        35 => "Identification - Initiator",
        36 => "Identification - Responder",
        37 => "Certificate",
        38 => "Certificate Request",
        39 => "Authentication",
        40 => "Nonce",
        41 => "Notify",
        42 => "Delete",
        43 => "Vendor ID",
        44 => "Traffic Selector - Initiator",
        45 => "Traffic Selector - Responder",
        46 => "Encrypted and Authenticated",
        47 => "Configuration",
        48 => "Extensible Authentication",
        _ => return None,
    })
}
