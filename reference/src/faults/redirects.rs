// Faults of the rules of redirects.
use super::Row;
use crate::kind::Kind;
use crate::redirect::data::{DataRead, WriteCheck};
use crate::redirect::decision::{exchange, Decided, Redirects};
use crate::redirect::Notification::{self, Redirect, RedirectSupported, RedirectedFrom};
use crate::redirect::Refusal::{self, BeforeLast, Exchange, Malformed, Nonce, TooMany};
use crate::rules::{Plain, RedirectRules};

pub const FAULTS: &[Row<dyn RedirectRules>] = &[
    (
        Kind::Redirects,
        "identity-cut",
        "An identity that would run past the end of the data is cut there and read.",
        &IdentityCut,
    ),
    (
        Kind::Redirects,
        "name-in-redirected-from",
        "An identity of type 3 is allowed in a REDIRECTED_FROM.",
        &AllowsIdentity(|of, identity_type, length| {
            of == RedirectedFrom && Plain.allows_identity(Redirect, identity_type, length)
        }),
    ),
    (
        Kind::Redirects,
        "empty-name",
        "A name may have no octets.",
        &AllowsIdentity(|of, identity_type, length| {
            of == Redirect && identity_type == 3 && length == 0
        }),
    ),
    (
        Kind::Redirects,
        "name-of-256",
        "A name of 256 octets is written.",
        &AllowsIdentity(|of, identity_type, length| {
            of == Redirect && identity_type == 3 && length == 256
        }),
    ),
    (
        Kind::Redirects,
        "address-of-any-length",
        "An identity of type 1 may have 16 octets, one of type 2 may have 4.",
        &AllowsIdentity(|_, identity_type, length| {
            matches!((identity_type, length), (1, 16) | (2, 4))
        }),
    ),
    (
        Kind::Redirects,
        "other-identity-types",
        "Types of an identity past 3 are taken as names.",
        &AllowsIdentity(|of, identity_type, length| {
            of == Redirect && identity_type > 3 && length > 0
        }),
    ),
    (
        Kind::Redirects,
        "redirected-from-left-over",
        "Octets behind the identity of a REDIRECTED_FROM are let through.",
        &AllowsBehind(|of, length| of == RedirectedFrom || Plain.allows_behind(of, length)),
    ),
    (
        Kind::Redirects,
        "supported-with-data",
        "A REDIRECT_SUPPORTED may have data.",
        &AllowsBehind(|of, length| of == RedirectSupported || Plain.allows_behind(of, length)),
    ),
    (
        Kind::Redirects,
        "received-nonce-30",
        "A nonce that came back of 1 to 15 or of over 256 octets is malformed.",
        &AllowsBehind(|of, length| {
            let nonce = length == 0 || (16..=256).contains(&length);
            nonce && Plain.allows_behind(of, length)
        }),
    ),
    (Kind::Redirects, "data-before-output", "30 is told before 2 in writing.", &DataBeforeOutput),
    (
        Kind::Redirects,
        "room-512",
        "An output of 512 octets is enough.",
        &HasRoom(|_, room, _| room == 512),
    ),
    (
        Kind::Redirects,
        "data-room-as-needed",
        "An output of as many octets as are written is enough.",
        &HasRoom(|of, room, length| of != RedirectSupported && room >= length),
    ),
    (
        Kind::Redirects,
        "supported-no-room",
        "REDIRECT_SUPPORTED needs no output.",
        &HasRoom(|of, _, _| of == RedirectSupported),
    ),
    (
        Kind::Redirects,
        "nonce-15-written",
        "A nonce of 15 octets is written.",
        &WritesNonce(|length| length == 15 || Plain.writes_nonce(length)),
    ),
    (
        Kind::Redirects,
        "nonce-257-written",
        "A nonce of 257 octets is written.",
        &WritesNonce(|length| length == 257 || Plain.writes_nonce(length)),
    ),
    (
        Kind::Redirects,
        "nonce-needed",
        "A REDIRECT isn't written without a nonce.",
        &WritesNonce(|length| length != 0 && Plain.writes_nonce(length)),
    ),
    (
        Kind::Redirects,
        "data-rest-cleared",
        "The octets past the data that is written are cleared.",
        &DataRestCleared,
    ),
    (
        Kind::Redirects,
        "exchange-first",
        "31 is checked before 30.",
        &Order(&[Exchange, Malformed, Nonce, BeforeLast, TooMany]),
    ),
    (
        Kind::Redirects,
        "nonce-first",
        "32 is checked before 30.",
        &Order(&[Nonce, Malformed, Exchange, BeforeLast, TooMany]),
    ),
    (
        Kind::Redirects,
        "times-first",
        "33 and 34 are checked before 31 and 32.",
        &Order(&[Malformed, BeforeLast, TooMany, Exchange, Nonce]),
    ),
    (
        Kind::Redirects,
        "often-before-late",
        "34 is checked before 33.",
        &Order(&[Malformed, Exchange, Nonce, TooMany, BeforeLast]),
    ),
    (
        Kind::Redirects,
        "sent-15",
        "A nonce sent of 15 octets is allowed.",
        &AllowsSent(|exchange, length| length == 15 || Plain.allows_sent(exchange, length)),
    ),
    (
        Kind::Redirects,
        "sent-257",
        "A nonce sent of 257 octets is allowed.",
        &AllowsSent(|exchange, length| length == 257 || Plain.allows_sent(exchange, length)),
    ),
    (
        Kind::Redirects,
        "sent-looked-at-outside",
        "The length of the nonce sent is looked at in every exchange.",
        &AllowsSent(|_, length| Plain.allows_sent(exchange::SA_INIT, length)),
    ),
    (
        Kind::Redirects,
        "middle-allowed",
        "A middle IKE_AUTH response is allowed.",
        &AllowsExchange(|at| at == exchange::MIDDLE_AUTH || Plain.allows_exchange(at)),
    ),
    (
        Kind::Redirects,
        "first-refused",
        "The first IKE_AUTH response is refused.",
        &AllowsExchange(|at| at != exchange::FIRST_AUTH && Plain.allows_exchange(at)),
    ),
    (
        Kind::Redirects,
        "other-exchanges",
        "An exchange past INFORMATIONAL is allowed.",
        &AllowsExchange(|at| at > exchange::INFORMATIONAL || Plain.allows_exchange(at)),
    ),
    (
        Kind::Redirects,
        "nonce-outside",
        "A nonce outside IKE_SA_INIT is let through.",
        &NonceOutside(|_| true),
    ),
    (
        Kind::Redirects,
        "octet-outside",
        "Outside IKE_SA_INIT a nonce of fewer than 16 octets is let through.",
        &NonceOutside(|length| length < 16),
    ),
    (
        Kind::Redirects,
        "shorter-nonce-compared",
        "Nonces are compared by as many octets as the shorter one has.",
        &SameNonce(|sent, received| sent.iter().zip(received).all(|(one, other)| one == other)),
    ),
    (
        Kind::Redirects,
        "received-nonce-begins",
        "A nonce that begins with the one sent is taken for it.",
        &SameNonce(|sent, received| received.starts_with(sent)),
    ),
    (
        Kind::Redirects,
        "nonce-missing",
        "A missing nonce is let through in IKE_SA_INIT.",
        &SameNonce(|sent, received| received.is_empty() || sent == received),
    ),
    (
        Kind::Redirects,
        "nonce-by-length",
        "Nonces are compared by their lengths.",
        &SameNonce(|sent, received| sent.len() == received.len()),
    ),
    (
        Kind::Redirects,
        "count-6-fresh",
        "A count over 5 reads as 0.",
        &Counted(|count| if count > 5 { 0 } else { usize::from(count) }),
    ),
    (
        Kind::Redirects,
        "before-oldest",
        "33 is about the oldest time that is kept.",
        &Last(|kept| kept.first().copied()),
    ),
    (
        Kind::Redirects,
        "before-greatest",
        "33 is about the greatest time that is kept.",
        &Last(|kept| kept.iter().max().copied()),
    ),
    (
        Kind::Redirects,
        "same-second-late",
        "A time in the second of the last accepted one is before it.",
        &SameSecondLate,
    ),
    (
        Kind::Redirects,
        "exactly-300-refused",
        "A time exactly 300 seconds before is less than 300 seconds before.",
        &IsRecent(|time, accepted| i128::from(time) - i128::from(accepted) <= 300),
    ),
    (
        Kind::Redirects,
        "299-accepted",
        "A time 299 seconds before isn't less than 300 seconds before.",
        &IsRecent(|time, accepted| i128::from(time) - i128::from(accepted) < 299),
    ),
    (
        Kind::Redirects,
        "difference-wraps",
        "The difference of times wraps, so that a time in the future is long ago.",
        &IsRecent(|time, accepted| time.wrapping_sub(accepted) < 300),
    ),
    (
        Kind::Redirects,
        "sum-wraps",
        "The sum of a time and 300 wraps.",
        &IsRecent(|time, accepted| time < accepted.wrapping_add(300)),
    ),
    (Kind::Redirects, "four-for-five", "34 is told of four accepted ones.", &TooManyAt(4)),
    (
        Kind::Redirects,
        "six-for-five",
        "34 is told of six accepted ones, of which the record has no room.",
        &TooManyAt(6),
    ),
    (
        Kind::Redirects,
        "refused-often-kept",
        "The time of one that gets 34 is kept.",
        &Keeps(TooMany),
    ),
    (Kind::Redirects, "refused-nonce-kept", "The time of one that gets 32 is kept.", &Keeps(Nonce)),
    (
        Kind::Redirects,
        "refused-late-kept",
        "The time of one that gets 33 is kept.",
        &Keeps(BeforeLast),
    ),
    (
        Kind::Redirects,
        "newest-dropped",
        "In a full record the newest time is dropped.",
        &Kept(|kept, before| {
            if before.count >= 5 {
                *kept = *before;
            }
        }),
    ),
    (
        Kind::Redirects,
        "four-kept",
        "A record that is full keeps the last four.",
        &Kept(|kept, _| {
            if kept.count == 5 {
                kept.times.rotate_left(1);
                (kept.count, kept.times[4]) = (4, 0);
            }
        }),
    ),
    (
        Kind::Redirects,
        "times-left",
        "Places past the new count keep what they had.",
        &Kept(|kept, before| {
            let count = usize::from(kept.count);
            kept.times[count..].copy_from_slice(&before.times[count..]);
        }),
    ),
    (
        Kind::Redirects,
        "newest-first",
        "The newest time is kept in the first place.",
        &Kept(|kept, _| {
            let count = usize::from(kept.count);
            kept.times[..count].rotate_right(1);
        }),
    ),
    (
        Kind::Redirects,
        "refused-identity",
        "With a refusal the identity of the data is handed out.",
        &Refused(|refused, read| {
            (refused.identity_type, refused.identity) = (read.identity_type, read.identity);
        }),
    ),
    (
        Kind::Redirects,
        "refused-nonce-length",
        "With a refusal the length of the nonce is told.",
        &Refused(|refused, read| refused.nonce_length = read.nonce.length),
    ),
];

struct IdentityCut;
impl RedirectRules for IdentityCut {
    fn identity_length(&self, told: usize, there: usize) -> Option<usize> {
        Some(told.min(there))
    }
}

/// Some other identities are allowed too.
struct AllowsIdentity(fn(Notification, u8, usize) -> bool);
impl RedirectRules for AllowsIdentity {
    fn allows_identity(&self, of: Notification, identity_type: u8, length: usize) -> bool {
        self.0(of, identity_type, length) || Plain.allows_identity(of, identity_type, length)
    }
}

struct AllowsBehind(fn(Notification, usize) -> bool);
impl RedirectRules for AllowsBehind {
    fn allows_behind(&self, of: Notification, length: usize) -> bool {
        self.0(of, length)
    }
}

struct DataBeforeOutput;
impl RedirectRules for DataBeforeOutput {
    fn order_of_writing(&self) -> [WriteCheck; 2] {
        [WriteCheck::Data, WriteCheck::Output]
    }
}

/// Some other outputs are enough too.
struct HasRoom(fn(Notification, usize, usize) -> bool);
impl RedirectRules for HasRoom {
    fn has_room(&self, of: Notification, room: usize, length: usize) -> bool {
        self.0(of, room, length) || Plain.has_room(of, room, length)
    }
}

struct WritesNonce(fn(usize) -> bool);
impl RedirectRules for WritesNonce {
    fn writes_nonce(&self, length: usize) -> bool {
        self.0(length)
    }
}

struct DataRestCleared;
impl RedirectRules for DataRestCleared {
    fn output(&self, before: &[u8], octets: &[u8]) -> Vec<u8> {
        Plain.output(&vec![0; before.len()], octets)
    }
}

struct Order(&'static [Refusal]);
impl RedirectRules for Order {
    fn order_of_deciding(&self) -> &'static [Refusal] {
        self.0
    }
}

struct AllowsSent(fn(u8, usize) -> bool);
impl RedirectRules for AllowsSent {
    fn allows_sent(&self, exchange: u8, length: usize) -> bool {
        self.0(exchange, length)
    }
}

struct AllowsExchange(fn(u8) -> bool);
impl RedirectRules for AllowsExchange {
    fn allows_exchange(&self, exchange: u8) -> bool {
        self.0(exchange)
    }
}

struct NonceOutside(fn(usize) -> bool);
impl RedirectRules for NonceOutside {
    fn allows_nonce_outside(&self, length: usize) -> bool {
        self.0(length)
    }
}

struct SameNonce(fn(&[u8], &[u8]) -> bool);
impl RedirectRules for SameNonce {
    fn same_nonce(&self, sent: &[u8], received: &[u8]) -> bool {
        self.0(sent, received)
    }
}

struct Counted(fn(u8) -> usize);
impl RedirectRules for Counted {
    fn counted(&self, count: u8) -> usize {
        self.0(count)
    }
}

struct Last(fn(&[u64]) -> Option<u64>);
impl RedirectRules for Last {
    fn last(&self, kept: &[u64]) -> Option<u64> {
        self.0(kept)
    }
}

struct SameSecondLate;
impl RedirectRules for SameSecondLate {
    fn is_before(&self, time: u64, last: u64) -> bool {
        time <= last
    }
}

struct IsRecent(fn(u64, u64) -> bool);
impl RedirectRules for IsRecent {
    fn is_recent(&self, time: u64, accepted: u64) -> bool {
        self.0(time, accepted)
    }
}

struct TooManyAt(usize);
impl RedirectRules for TooManyAt {
    fn are_too_many(&self, recent: usize) -> bool {
        recent >= self.0
    }
}

/// The time of one that is refused so is kept.
struct Keeps(Refusal);
impl RedirectRules for Keeps {
    fn keeps(&self, refused: Option<Refusal>) -> bool {
        refused == Some(self.0) || Plain.keeps(refused)
    }
}

/// Keeps another record, which is given with the one before.
struct Kept(fn(&mut Redirects, &Redirects));
impl RedirectRules for Kept {
    fn kept(&self, before: &Redirects, time: u64) -> Redirects {
        let mut kept = Plain.kept(before, time);
        self.0(&mut kept, before);
        kept
    }
}

/// Something more is given back with a refusal.
struct Refused(for<'a> fn(&mut Decided<'a>, &DataRead<'a>));
impl RedirectRules for Refused {
    fn refused<'a>(&self, refusal: Refusal, read: &DataRead<'a>) -> Decided<'a> {
        let mut refused = Plain.refused(refusal, read);
        self.0(&mut refused, read);
        refused
    }
}
