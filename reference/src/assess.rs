// The assessment of responses at the initiator's end: a verdict by the cookie sent and the response.
use crate::calls::Refusal;
use crate::cookie;
use crate::outcome::Place;
use crate::reader::{self, Answer, Reading};
use crate::rules::{ResponseRules, Rules};
use crate::summary::Summary;

#[derive(Debug, Clone, Copy, PartialEq, Eq)]
pub enum Check {
    /// 1, of the cookie sent.
    Sent,
    /// 3, 61 to 65 and 7, as the reader tells them.
    Chain,
}

/// What a response that was read means, with its number.
#[derive(Debug, Clone, Copy, PartialEq, Eq)]
pub enum Verdict {
    Close = 1,
    NatSeen = 2,
    Unacceptable = 3,
    Failed = 4,
    Accepted = 5,
}

/// What the assess gives back, in the form in which the two programs are compared.
#[derive(Debug, Clone, Copy, Default, PartialEq, Eq)]
pub struct Assessed<'a> {
    pub number: u8,
    /// The verdict's number; 0 with refusals.
    pub outcome: u8,
    pub payloads: u16,
    /// Told with 61 to 65 and 7.
    pub offset: u16,
    /// The payload's, told with these too.
    pub ordinal: u16,
    pub tally: u32,
    /// The cookie that came back.
    pub cookie: Place<'a>,
    /// The part of the response's body that is handed out for it.
    pub handed_out: Place<'a>,
}

impl Verdict {
    /// By its number.
    pub fn of(outcome: u8) -> Self {
        match outcome {
            1 => Verdict::Close,
            2 => Verdict::NatSeen,
            3 => Verdict::Unacceptable,
            4 => Verdict::Failed,
            _ => Verdict::Accepted,
        }
    }
}

impl Assessed<'_> {
    /// Every field by name, to be shown.
    pub fn fields(&self) -> Vec<(String, String)> {
        let fields = [
            ("number", self.number.to_string()),
            ("outcome", self.outcome.to_string()),
            ("payloads", self.payloads.to_string()),
            ("offset", self.offset.to_string()),
            ("ordinal", self.ordinal.to_string()),
            ("tally", self.tally.to_string()),
            ("cookie", self.cookie.show()),
            ("cookie handed out", self.handed_out.show()),
        ];
        fields.map(|(name, value)| (name.to_string(), value)).to_vec()
    }
}

/// Assesses a response to a request that was sent with this cookie; an empty one is none.
pub fn assess<'a>(sent: &[u8], first: u8, body: &'a [u8], rules: &impl Rules) -> Assessed<'a> {
    let reading = reader::read(first, body, rules.chain());
    let assessed = match refusal(sent, &reading, rules) {
        Some(refused) => refused,
        None => of_read(sent, &reading.summary, rules.responses()),
    };
    let (at, length) = assessed.cookie.as_told();
    Assessed { handed_out: cookie::hand_out(body, at, length, rules.parts()), ..assessed }
}

/// What is given back where a check fails: of the first one in their order.
fn refusal<'a>(sent: &[u8], reading: &Reading, rules: &impl Rules) -> Option<Assessed<'a>> {
    let failed = rules.responses().order().into_iter().find(|check| match check {
        Check::Sent => !rules.responses().allows_sent(sent.len()),
        Check::Chain => reading.answer != Answer::Read,
    });
    failed.map(|check| match check {
        Check::Sent => rules.responses().refused(Refusal::Argument as u8, 0, 0),
        Check::Chain => {
            let (number, offset) = (reading.answer.number(rules.chain()), reading.answer.offset());
            rules.responses().refused(number, offset, reading.ordinal)
        }
    })
}

/// What is given back of a response that was read.
fn of_read<'a>(
    sent: &[u8],
    summary: &Summary<'a>,
    rules: &(impl ResponseRules + ?Sized),
) -> Assessed<'a> {
    let cookie = summary.cookie.map(|cookie| cookie.octets);
    let error = rules.error(&summary.errors);
    let verdict = if rules.closes(sent, cookie, error.is_some()) {
        Verdict::Close
    } else {
        rules.verdict(error)
    };
    let unasked = usize::from(rules.is_unasked(sent, cookie));
    rules.read(verdict, (rules.unknown(summary) + unasked) as u32, summary)
}

#[cfg(test)]
mod tests {
    use super::*;
    use crate::rules::Plain;

    const SENT: [u8; 8] = [1, 2, 3, 4, 5, 6, 7, 8];
    const OTHER: [u8; 8] = [1, 2, 3, 4, 5, 6, 7, 9];
    const NONE: [u8; 0] = [];
    const COOKIE2: u16 = 16401;

    /// Notifications by type and data, then this many unknown payloads.
    fn response(notifications: &[(u16, &[u8])], unknown: usize) -> (u8, Vec<u8>) {
        let mut payloads: Vec<(u8, Vec<u8>)> = Vec::new();
        for (notify_type, data) in notifications {
            let content = [&[0, 0][..], &notify_type.to_be_bytes(), data].concat();
            payloads.push((41, content));
        }
        payloads.extend(vec![(200, vec![]); unknown]);
        let types: Vec<u8> = payloads.iter().map(|payload| payload.0).chain([0]).collect();
        let mut body = Vec::new();
        for (place, (_, content)) in payloads.iter().enumerate() {
            body.extend([types[place + 1], 0, 0, 4 + content.len() as u8]);
            body.extend(content);
        }
        (types[0], body)
    }

    /// All but the cookie.
    fn assessed(sent: &[u8], notifications: &[(u16, &[u8])], unknown: usize) -> Assessed<'static> {
        let (first, body) = response(notifications, unknown);
        let Assessed { number, outcome, payloads, offset, ordinal, tally, .. } =
            assess(sent, first, &body, &Plain);
        Assessed { number, outcome, payloads, offset, ordinal, tally, ..Assessed::default() }
    }

    fn verdict_of(sent: &[u8], notifications: &[(u16, &[u8])]) -> u8 {
        let assessed = assessed(sent, notifications, 0);
        assert_eq!((assessed.number, assessed.offset, assessed.ordinal), (0, 0, 0));
        assert_eq!(usize::from(assessed.payloads), notifications.len());
        assessed.outcome
    }

    #[test]
    fn without_an_error_or_a_cookie_sent_it_is_accepted() {
        assert_eq!(verdict_of(&NONE, &[]), 5);
        assert_eq!(verdict_of(&NONE, &[(16384, &[])]), 5);
        assert_eq!(verdict_of(&NONE, &[(COOKIE2, &OTHER)]), 5);
        assert_eq!(verdict_of(&SENT, &[(COOKIE2, &SENT)]), 5);
    }

    #[test]
    fn each_error_is_told() {
        for (error, told) in [(41, 2), (40, 3), (7, 4), (1, 4), (14, 4), (0, 4), (16383, 4)] {
            assert_eq!(verdict_of(&NONE, &[(error, &[])]), told);
            assert_eq!(verdict_of(&SENT, &[(error, &[]), (COOKIE2, &SENT)]), told);
            assert_eq!(verdict_of(&SENT, &[(COOKIE2, &SENT), (error, &[])]), told);
        }
    }

    #[test]
    fn the_first_error_is_told() {
        assert_eq!(verdict_of(&NONE, &[(7, &[]), (40, &[]), (41, &[])]), 4);
        assert_eq!(verdict_of(&NONE, &[(40, &[]), (41, &[]), (7, &[])]), 3);
        assert_eq!(verdict_of(&NONE, &[(16403, &[]), (41, &[]), (40, &[])]), 2);
    }

    #[test]
    fn a_different_cookie_closes_beside_an_error_too() {
        assert_eq!(verdict_of(&SENT, &[(COOKIE2, &OTHER)]), 1);
        assert_eq!(verdict_of(&SENT, &[(COOKIE2, &OTHER), (40, &[])]), 1);
        assert_eq!(verdict_of(&SENT, &[(41, &[]), (COOKIE2, &OTHER)]), 1);
    }

    #[test]
    fn a_cookie_of_another_length_is_different() {
        let longer = [&SENT[..], &[9]].concat();
        assert_eq!(verdict_of(&SENT, &[(COOKIE2, &longer)]), 1);
        assert_eq!(verdict_of(&longer, &[(COOKIE2, &SENT)]), 1);
        assert_eq!(verdict_of(&longer, &[(COOKIE2, &longer)]), 5);
    }

    #[test]
    fn a_missing_cookie_closes_without_an_error_only() {
        assert_eq!(verdict_of(&SENT, &[]), 1);
        assert_eq!(verdict_of(&SENT, &[(16384, &[])]), 1);
        assert_eq!(verdict_of(&SENT, &[(41, &[])]), 2);
        assert_eq!(verdict_of(&SENT, &[(7, &[])]), 4);
    }

    #[test]
    fn the_tally_leaves_errors_out_and_adds_an_unasked_cookie() {
        let mixed: [(u16, &[u8]); 4] =
            [(40, &[]), (16384, &[]), (COOKIE2, &SENT), (16396, &[1, 2])];
        assert_eq!(assessed(&SENT, &mixed, 2).tally, 3);
        assert_eq!(assessed(&NONE, &mixed, 2).tally, 4);
        let closed = assessed(&OTHER, &mixed, 2);
        assert_eq!((closed.outcome, closed.payloads, closed.tally), (1, 6, 3));
    }

    #[test]
    fn the_cookie_that_came_back_is_handed_out() {
        let (first, body) = response(&[(40, &[]), (COOKIE2, &SENT)], 0);
        for sent in [&SENT[..], &OTHER, &NONE] {
            let assessed = assess(sent, first, &body, &Plain);
            assert_eq!(assessed.cookie, Place::in_body(&body, 16, 8));
            assert_eq!(assessed.handed_out.octets, SENT);
        }
        let refused = assess(&[1; 7], first, &body, &Plain);
        assert_eq!((refused.cookie, refused.handed_out), (Place::default(), Place::default()));
    }

    #[test]
    fn refusals_give_0() {
        let refused =
            |number, offset, ordinal| Assessed { number, offset, ordinal, ..Assessed::default() };
        fn assess<'a>(sent: &[u8], first: u8, body: &'a [u8]) -> Assessed<'a> {
            super::assess(sent, first, body, &Plain)
        }
        for size in [1, 7, 65, 66, 300] {
            assert_eq!(assess(&vec![1; size], 41, &[0; 4097]), refused(1, 0, 0));
            assert_eq!(assess(&vec![1; size], 33, &[41, 0, 0, 4, 0]), refused(1, 0, 0));
        }
        assert_eq!(assess(&[1; 64], 200, &[0; 4097]), refused(3, 0, 0));
        assert_eq!(assess(&SENT, 33, &[41, 0, 0, 4, 0]), refused(61, 4, 1));
        assert_eq!(assess(&SENT, 200, &[41, 0, 0, 4, 0, 0, 0, 7, 0, 0, 0]), refused(62, 4, 1));
        assert_eq!(assess(&NONE, 200, &[201, 0, 0, 4, 0, 0x80, 0, 4]), refused(7, 4, 1));
        assert_eq!(assess(&NONE, 0, &[0; 4096]), refused(65, 0, 0));
        let (first, body) = response(&[(40, &[]), (COOKIE2, &SENT[..7])], 0);
        assert_eq!(assess(&SENT, first, &body), refused(63, 8, 1));
        let (first, body) = response(&[(40, &[]), (COOKIE2, &SENT), (COOKIE2, &SENT)], 0);
        assert_eq!(assess(&SENT, first, &body), refused(64, 24, 2));
    }
}
