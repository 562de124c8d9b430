// Faults of the rules of what a response comes to.
use super::chain::unsplit;
use super::Row;
use crate::assess::{Assessed, Check, Verdict};
use crate::kind::Kind;
use crate::notify::NotifyType;
use crate::outcome::Place;
use crate::rules::{Plain, ResponseRules};
use crate::summary::Summary;

pub const FAULTS: &[Row<dyn ResponseRules>] = &[
    (
        Kind::Assess,
        "body-before-sent",
        "Checks 3, 61 to 65 and 7 come before check 1.",
        &BodyBeforeSent,
    ),
    (
        Kind::Assess,
        "sent-short",
        "A cookie sent of 1 to 7 octets passes.",
        &AllowsSent(|size| size < 8),
    ),
    (
        Kind::Assess,
        "unsent-closes",
        "A response without a cookie and without an error closes where none was sent.",
        &UnsentCloses,
    ),
    (Kind::Assess, "unasked-closes", "A COOKIE2 closes where none was sent.", &UnaskedCloses),
    (
        Kind::Assess,
        "missing-closes",
        "A missing cookie closes beside an error too.",
        &MissingCloses,
    ),
    (
        Kind::Assess,
        "missing-accepted",
        "A missing cookie without an error is accepted.",
        &MissingAccepted,
    ),
    (
        Kind::Assess,
        "error-before-close",
        "A different cookie beside an error doesn't close.",
        &ErrorBeforeClose,
    ),
    (
        Kind::Assess,
        "cookie-prefix",
        "Cookies are compared as far as the shorter one goes.",
        &CookiePrefix,
    ),
    (
        Kind::Assess,
        "error-by-number",
        "41 is told before 40, and 40 before any other, wherever they stand.",
        &ErrorByNumber,
    ),
    (
        Kind::Assess,
        "errors-swapped",
        "41 is told as unacceptable, and 40 as NAT seen.",
        &ErrorsSwapped,
    ),
    (Kind::Assess, "errors-tallied", "Notify types below 16384 are tallied.", &ErrorsTallied),
    (
        Kind::Assess,
        "unasked-untallied",
        "A COOKIE2 where none was sent isn't tallied.",
        &UnaskedUntallied,
    ),
    (
        Kind::Assess,
        "different-tallied",
        "A COOKIE2 different from the one sent is tallied.",
        &DifferentTallied,
    ),
    (
        Kind::Assess,
        "close-untallied",
        "With close nothing is tallied.",
        &WithClose(|assessed| assessed.tally = 0),
    ),
    (
        Kind::Assess,
        "came-back-untold",
        "With close the cookie that came back isn't handed out.",
        &WithClose(|assessed| assessed.cookie = Place { offset: 0, length: 0, octets: &[] }),
    ),
    (
        Kind::Assess,
        "assessed-unsplit",
        "6 is told in place of 61 to 65.",
        &Refused(|assessed| assessed.number = unsplit(assessed.number)),
    ),
    (
        Kind::Assess,
        "assessed-no-ordinal",
        "No ordinal is told.",
        &Refused(|assessed| assessed.ordinal = 0),
    ),
];

struct BodyBeforeSent;
impl ResponseRules for BodyBeforeSent {
    fn order(&self) -> [Check; 2] {
        [Check::Chain, Check::Sent]
    }
}

struct AllowsSent(fn(usize) -> bool);
impl ResponseRules for AllowsSent {
    fn allows_sent(&self, size: usize) -> bool {
        self.0(size) || Plain.allows_sent(size)
    }
}

struct UnsentCloses;
impl ResponseRules for UnsentCloses {
    fn closes(&self, sent: &[u8], cookie: Option<&[u8]>, has_error: bool) -> bool {
        (cookie.is_none() && !has_error) || Plain.closes(sent, cookie, has_error)
    }
}

struct UnaskedCloses;
impl ResponseRules for UnaskedCloses {
    fn closes(&self, sent: &[u8], cookie: Option<&[u8]>, has_error: bool) -> bool {
        (cookie.is_some() && sent.is_empty()) || Plain.closes(sent, cookie, has_error)
    }
}

struct MissingCloses;
impl ResponseRules for MissingCloses {
    fn closes(&self, sent: &[u8], cookie: Option<&[u8]>, _has_error: bool) -> bool {
        Plain.closes(sent, cookie, false)
    }
}

struct MissingAccepted;
impl ResponseRules for MissingAccepted {
    fn closes(&self, sent: &[u8], cookie: Option<&[u8]>, has_error: bool) -> bool {
        cookie.is_some() && Plain.closes(sent, cookie, has_error)
    }
}

struct ErrorBeforeClose;
impl ResponseRules for ErrorBeforeClose {
    fn closes(&self, sent: &[u8], cookie: Option<&[u8]>, has_error: bool) -> bool {
        !has_error && Plain.closes(sent, cookie, has_error)
    }
}

struct CookiePrefix;
impl ResponseRules for CookiePrefix {
    fn same_cookie(&self, sent: &[u8], cookie: &[u8]) -> bool {
        sent.iter().zip(cookie).all(|(one, other)| one == other)
    }
}

struct ErrorByNumber;
impl ResponseRules for ErrorByNumber {
    fn error(&self, errors: &[NotifyType]) -> Option<NotifyType> {
        errors.iter().copied().max_by_key(|&error| match error {
            NotifyType::UNEXPECTED_NAT_DETECTED => 2,
            NotifyType::UNACCEPTABLE_ADDRESSES => 1,
            _ => 0,
        })
    }
}

struct ErrorsSwapped;
impl ResponseRules for ErrorsSwapped {
    fn verdict(&self, error: Option<NotifyType>) -> Verdict {
        match Plain.verdict(error) {
            Verdict::NatSeen => Verdict::Unacceptable,
            Verdict::Unacceptable => Verdict::NatSeen,
            verdict => verdict,
        }
    }
}

struct ErrorsTallied;
impl ResponseRules for ErrorsTallied {
    fn unknown(&self, summary: &Summary) -> usize {
        summary.unknown_payloads + summary.unknown_notifies
    }
}

struct UnaskedUntallied;
impl ResponseRules for UnaskedUntallied {
    fn is_unasked(&self, _sent: &[u8], _cookie: Option<&[u8]>) -> bool {
        false
    }
}

struct DifferentTallied;
impl ResponseRules for DifferentTallied {
    fn is_unasked(&self, sent: &[u8], cookie: Option<&[u8]>) -> bool {
        cookie.is_some_and(|cookie| cookie != sent)
    }
}

struct WithClose(fn(&mut Assessed));
impl ResponseRules for WithClose {
    fn read<'a>(&self, verdict: Verdict, tally: u32, summary: &Summary<'a>) -> Assessed<'a> {
        let mut assessed = Plain.read(verdict, tally, summary);
        if verdict == Verdict::Close {
            self.0(&mut assessed);
        }
        assessed
    }
}

struct Refused(fn(&mut Assessed));
impl ResponseRules for Refused {
    fn refused(&self, number: u8, offset: usize, ordinal: usize) -> Assessed<'static> {
        let mut assessed = Plain.refused(number, offset, ordinal);
        self.0(&mut assessed);
        assessed
    }
}
