// The rules of redirects: request E7 of document 02, with RFC 5685, 9.1 to 9.3.
use crate::redirect::data::{DataRead, WriteCheck};
use crate::redirect::decision::{exchange, Decided, Redirects, MOST_TIMES};
use crate::redirect::{Notification, Refusal};

pub trait RedirectRules {
    /// "30 malformed (data cut ..": how long the identity is, of which the data tells this and so much is there.
    fn identity_length(&self, told: usize, there: usize) -> Option<usize> {
        (told <= there).then_some(told)
    }

    /// "Identity types are 1, 2 and, in REDIRECT only, 3, of 4, 16 and 1 to 255 octets."
    fn allows_identity(&self, of: Notification, identity_type: u8, length: usize) -> bool {
        match identity_type {
            1 => length == 4,
            2 => length == 16,
            3 => of == Notification::Redirect && (1..=255).contains(&length),
            _ => false,
        }
    }

    /// "30 malformed (.. or left over": behind an identity, RFC 5685, 9.2, has "Nonce Data" in a REDIRECT; 9.3 has
    /// nothing in a REDIRECTED_FROM, and REDIRECT_SUPPORTED has "no data". A nonce that came back is no "nonce sent or
    /// to write".
    fn allows_behind(&self, of: Notification, length: usize) -> bool {
        of == Notification::Redirect || length == 0
    }

    /// "Refusals, in order: 2 .., 30".
    fn order_of_writing(&self) -> [WriteCheck; 2] {
        [WriteCheck::Output, WriteCheck::Data]
    }

    /// "2 output under 513 octets", whatever is written.
    fn has_room(&self, _of: Notification, room: usize, _length: usize) -> bool {
        room >= 513
    }

    /// "30 .. length of a nonce .. to write"; "16 to 256 octets". No nonce to write is one of 0 octets, by decision.
    fn writes_nonce(&self, length: usize) -> bool {
        length == 0 || (16..=256).contains(&length)
    }

    /// Document 01: "octets past the reported length are untouched".
    fn output(&self, before: &[u8], octets: &[u8]) -> Vec<u8> {
        let mut output = before.to_vec();
        output.iter_mut().zip(octets).for_each(|(place, octet)| *place = *octet);
        output
    }

    /// "Refusals, in order: .. 30 .., 31 .., 32 .., 33 .., 34".
    fn order_of_deciding(&self) -> &'static [Refusal] {
        use Refusal::{BeforeLast, Exchange, Malformed, Nonce, TooMany};
        &[Malformed, Exchange, Nonce, BeforeLast, TooMany]
    }

    /// "In IKE_SA_INIT the nonce must equal the one sent, 16 to 256 octets"; "30 .. length of a nonce sent". Document
    /// 01: "arguments for what isn't asked for, aren't looked at", so that it isn't in another exchange.
    fn allows_sent(&self, exchange: u8, length: usize) -> bool {
        exchange != exchange::SA_INIT || (16..=256).contains(&length)
    }

    /// "31 a middle IKE_AUTH response"; RFC 5685 has a REDIRECT in an IKE_SA_INIT response, in the first or the last
    /// IKE_AUTH response and in an INFORMATIONAL request, and nowhere else.
    fn allows_exchange(&self, exchange: u8) -> bool {
        use exchange::{FIRST_AUTH, INFORMATIONAL, LAST_AUTH, SA_INIT};
        matches!(exchange, SA_INIT | FIRST_AUTH | LAST_AUTH | INFORMATIONAL)
    }

    /// "31 .. or a nonce outside IKE_SA_INIT": of this length, which isn't 0.
    fn allows_nonce_outside(&self, _length: usize) -> bool {
        false
    }

    /// "32 nonce missing or different", by its octets and its length.
    fn same_nonce(&self, sent: &[u8], received: &[u8]) -> bool {
        sent == received
    }

    /// "the display's record keeps its time". No paper decides what a count over 5 means, which no decision leaves; it
    /// reads as 5 by decision, as document 01 has it of a policy.
    fn counted(&self, count: u8) -> usize {
        usize::from(count).min(MOST_TIMES)
    }

    /// "33 .. the last accepted one's": of those kept, oldest first.
    fn last(&self, kept: &[u64]) -> Option<u64> {
        kept.last().copied()
    }

    /// "33 time in seconds before the last accepted one's".
    fn is_before(&self, time: u64, last: u64) -> bool {
        time < last
    }

    /// "34 .. less than 300 seconds before it": a difference of whole numbers.
    fn is_recent(&self, time: u64, accepted: u64) -> bool {
        i128::from(time) - i128::from(accepted) < 300
    }

    /// "34 five accepted ones".
    fn are_too_many(&self, recent: usize) -> bool {
        recent >= 5
    }

    /// "It is accepted exactly if no refusal applies; the display's record keeps its time"; "none changes the record".
    fn keeps(&self, refused: Option<Refusal>) -> bool {
        refused.is_none()
    }

    /// The record with this time: the last five suffice for 33 and 34. Document 01: past the count "in a list newly
    /// kept or given they are 0".
    fn kept(&self, before: &Redirects, time: u64) -> Redirects {
        let all = [&before.times[..self.counted(before.count)], &[time]].concat();
        let last = &all[all.len().saturating_sub(MOST_TIMES)..];
        let mut times = [0; MOST_TIMES];
        times[..last.len()].copy_from_slice(last);
        Redirects { count: last.len() as u8, times }
    }

    /// The header: with every number but 0 nothing else is given back.
    fn refused<'a>(&self, refusal: Refusal, _read: &DataRead<'a>) -> Decided<'a> {
        Decided { number: refusal as u8, ..Decided::default() }
    }
}
