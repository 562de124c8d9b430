//! The numbers that the calls give back, by their meaning.

/// The number that a call gives back. Any octet has a meaning here, so that looking at one never fails.
#[must_use = "a number other than 0 is a refusal"]
#[derive(Debug, Clone, Copy, PartialEq, Eq)]
pub enum Number {
    /// 0: done.
    Done,
    /// 1: a family other than 4 or 6, an IPv4 tail that isn't zero, an SPI of 0, an IPsec list not of
    /// 128 records, a NAT value not of 20 octets, a cookie to send not of 0 or 8 to 64 octets, or one for a
    /// check not of 8 to 64; an operator that is neither; a notification of cloning asked for with anything
    /// else.
    BadArgument,
    /// 2: the output is under 128 octets, 564 for the writer, 513 for the data of a redirect, or shorter than
    /// the entry of a trace.
    OutputTooShort,
    /// 3: the body is over 4,096 octets.
    BodyTooLong,
    /// 4: no such record of the operator that the call names.
    NoSuchRecord,
    /// 5: MOBIKE was not agreed.
    MobikeNotAgreed,
    /// 61: under 4 octets are left where a payload is due, or a length is under 4 or past the end.
    BadChainLength,
    /// 62: a Notify is under 8 octets, its SPI is past its length, or it has one where its type has none.
    BadNotify,
    /// 63: a notification's data has a size that its type does not have.
    BadDataSize,
    /// 64: a notification is repeated, or contradicts an earlier one.
    Repeated,
    /// 65: octets stand after the end of the chain.
    OctetsAfterEnd,
    /// 7: a critical payload of a type that is not known.
    UnknownCritical,
    /// 8: the addresses were altered on the way.
    AddressesAltered,
    /// 9: the pair is not acceptable by the operator's policy.
    NotAcceptable,
    /// 10: all places are in use.
    Full,
    /// 11: the SPI is in use in that table.
    SpiInUse,
    /// 12: a policy of over 16 rules, or a prefix that is too long.
    BadPolicy,
    /// 14: no check is under way by a request of ours with this ID.
    CheckNotPending,
    /// 20: a trace ends within an entry, or has a number not in its shortest form or past 64 bits.
    Cut,
    /// 21: the kind of an entry of a trace is not known.
    UnknownKind,
    /// 22: a number, a count or a length of a trace is too large for its field.
    TooLarge,
    /// 30: data of a redirect is cut or left over, its identity has a type or a size that can't be, or our
    /// nonce has such a size.
    BadRedirect,
    /// 31: a redirect came in a middle IKE_AUTH response, or with a nonce outside IKE_SA_INIT.
    WrongExchange,
    /// 32: a redirect came in IKE_SA_INIT without the nonce that was sent.
    WrongNonce,
    /// 33: a redirect's time is before that of the last accepted one.
    TimeBeforeLast,
    /// 34: five redirects were accepted less than 300 seconds before.
    TooManyRedirects,
    /// 40: cloning was not agreed.
    CloningNotAgreed,
    /// 41: the IKE SA to clone is being deleted, or all places are in use.
    CannotCloneNow,
    /// 42: the peer of the IKE SA to clone has four IKE records or more.
    PeerAtLimit,
    /// 43: the operator has 20 IKE records or more, or 80 IPsec records or more.
    OperatorAtShare,
    /// 44: the request has no CLONE_IKE_SA.
    NoCloneRequest,
    /// A number that no call gives.
    Other(u8),
}

impl Number {
    /// Whether the call was done.
    pub fn is_done(self) -> bool {
        self == Number::Done
    }

    /// Nothing if the call was done, and the number as an error if not.
    pub fn ok(self) -> Result<(), Number> {
        match self {
            Number::Done => Ok(()),
            refused => Err(refused),
        }
    }

    /// Whether a chain is malformed, 61 to 65.
    pub fn is_malformed(self) -> bool {
        matches!(u8::from(self), 61..=65)
    }
}

impl From<u8> for Number {
    fn from(number: u8) -> Self {
        match number {
            0 => Number::Done,
            1 => Number::BadArgument,
            2 => Number::OutputTooShort,
            3 => Number::BodyTooLong,
            4 => Number::NoSuchRecord,
            5 => Number::MobikeNotAgreed,
            61 => Number::BadChainLength,
            62 => Number::BadNotify,
            63 => Number::BadDataSize,
            64 => Number::Repeated,
            65 => Number::OctetsAfterEnd,
            7 => Number::UnknownCritical,
            8 => Number::AddressesAltered,
            9 => Number::NotAcceptable,
            10 => Number::Full,
            11 => Number::SpiInUse,
            12 => Number::BadPolicy,
            14 => Number::CheckNotPending,
            20 => Number::Cut,
            21 => Number::UnknownKind,
            22 => Number::TooLarge,
            30 => Number::BadRedirect,
            31 => Number::WrongExchange,
            32 => Number::WrongNonce,
            33 => Number::TimeBeforeLast,
            34 => Number::TooManyRedirects,
            40 => Number::CloningNotAgreed,
            41 => Number::CannotCloneNow,
            42 => Number::PeerAtLimit,
            43 => Number::OperatorAtShare,
            44 => Number::NoCloneRequest,
            other => Number::Other(other),
        }
    }
}

impl From<Number> for u8 {
    fn from(number: Number) -> Self {
        match number {
            Number::Done => 0,
            Number::BadArgument => 1,
            Number::OutputTooShort => 2,
            Number::BodyTooLong => 3,
            Number::NoSuchRecord => 4,
            Number::MobikeNotAgreed => 5,
            Number::BadChainLength => 61,
            Number::BadNotify => 62,
            Number::BadDataSize => 63,
            Number::Repeated => 64,
            Number::OctetsAfterEnd => 65,
            Number::UnknownCritical => 7,
            Number::AddressesAltered => 8,
            Number::NotAcceptable => 9,
            Number::Full => 10,
            Number::SpiInUse => 11,
            Number::BadPolicy => 12,
            Number::CheckNotPending => 14,
            Number::Cut => 20,
            Number::UnknownKind => 21,
            Number::TooLarge => 22,
            Number::BadRedirect => 30,
            Number::WrongExchange => 31,
            Number::WrongNonce => 32,
            Number::TimeBeforeLast => 33,
            Number::TooManyRedirects => 34,
            Number::CloningNotAgreed => 40,
            Number::CannotCloneNow => 41,
            Number::PeerAtLimit => 42,
            Number::OperatorAtShare => 43,
            Number::NoCloneRequest => 44,
            Number::Other(other) => other,
        }
    }
}

/// What became of an update, or of a list of additional addresses.
#[derive(Debug, Clone, Copy, PartialEq, Eq)]
pub enum Effect {
    /// 0: the request carries none, or it is answered with another number than 0.
    None,
    /// 1: the update is applied, or the list replaced.
    Applied,
    /// 2: its message ID doesn't exceed the mark, and it has no effect.
    Stale,
    /// A number that no call gives.
    Other(u8),
}

impl From<u8> for Effect {
    fn from(effect: u8) -> Self {
        match effect {
            0 => Effect::None,
            1 => Effect::Applied,
            2 => Effect::Stale,
            other => Effect::Other(other),
        }
    }
}

/// What a response comes to.
#[derive(Debug, Clone, Copy, PartialEq, Eq)]
pub enum Outcome {
    /// 0: it was refused with another number than 0.
    None,
    /// 1: the IKE SA is to be closed, for the return routability check failed.
    Close,
    /// 2: the peer says that the addresses were altered on the way.
    NatSeen,
    /// 3: the peer doesn't accept the addresses.
    Unacceptable,
    /// 4: another error.
    Failed,
    /// 5: accepted.
    Accepted,
    /// A number that no call gives.
    Other(u8),
}

impl From<u8> for Outcome {
    fn from(outcome: u8) -> Self {
        match outcome {
            0 => Outcome::None,
            1 => Outcome::Close,
            2 => Outcome::NatSeen,
            3 => Outcome::Unacceptable,
            4 => Outcome::Failed,
            5 => Outcome::Accepted,
            other => Outcome::Other(other),
        }
    }
}
