// The rules of what a response comes to: document 01, "The display's end", with request E4 of document 02.
use crate::asking::may_be_sent;
use crate::assess::{Assessed, Check, Verdict};
use crate::notify::NotifyType;
use crate::outcome::Place;
use crate::summary::Summary;

pub trait ResponseRules {
    /// "after checks 1, 3, 6, 7".
    fn order(&self) -> [Check; 2] {
        [Check::Sent, Check::Chain]
    }

    /// 1 is "a cookie to send not of 0 or 8 to 64 octets"; "the cookie sent (length 0: none)".
    fn allows_sent(&self, size: usize) -> bool {
        may_be_sent(size)
    }

    /// "close, if a cookie was sent and a different one is there, or none and no error either".
    fn closes(&self, sent: &[u8], cookie: Option<&[u8]>, has_error: bool) -> bool {
        let different = match cookie {
            Some(cookie) => !self.same_cookie(sent, cookie),
            None => !has_error,
        };
        !sent.is_empty() && different
    }

    /// The same: "a different one", by its octets and its length.
    fn same_cookie(&self, sent: &[u8], cookie: &[u8]) -> bool {
        sent == cookie
    }

    /// "else the first error", of all "below 16384" in the chain's order.
    fn error(&self, errors: &[NotifyType]) -> Option<NotifyType> {
        errors.first().copied()
    }

    /// "told as NAT seen (41), unacceptable (40) or failed (any other type below 16384); else accepted".
    fn verdict(&self, error: Option<NotifyType>) -> Verdict {
        match error {
            None => Verdict::Accepted,
            Some(NotifyType::UNEXPECTED_NAT_DETECTED) => Verdict::NatSeen,
            Some(NotifyType::UNACCEPTABLE_ADDRESSES) => Verdict::Unacceptable,
            Some(_) => Verdict::Failed,
        }
    }

    /// "a tally from 0, counted as in step 1, .. and notify types below 16384 left out".
    fn unknown(&self, summary: &Summary) -> usize {
        summary.unknown_payloads + summary.unknown_notifies.saturating_sub(summary.errors.len())
    }

    /// "with a COOKIE2 not asked for added".
    fn is_unasked(&self, sent: &[u8], cookie: Option<&[u8]>) -> bool {
        sent.is_empty() && cookie.is_some()
    }

    /// "Its answer also gives a tally", whatever the verdict; "COOKIE2's data is handed to the host".
    fn read<'a>(&self, verdict: Verdict, tally: u32, summary: &Summary<'a>) -> Assessed<'a> {
        let (payloads, cookie) = (summary.payloads as u16, Place::of(summary.cookie));
        Assessed { outcome: verdict as u8, payloads, tally, cookie, ..Assessed::default() }
    }

    /// "refusals give 0" for the tally, and "it is 0 with answers 1 to 7" is said of the count; "6 and 7 tell the
    /// payload's offset", E4: "also give the payload's ordinal".
    fn refused(&self, number: u8, offset: usize, ordinal: usize) -> Assessed<'static> {
        let (offset, ordinal) = (offset as u16, ordinal as u16);
        Assessed { number, offset, ordinal, ..Assessed::default() }
    }
}
