// The decision on a REDIRECT: by its data, the exchange that it came in, and the times of those accepted before.
use super::data::{read, DataRead};
use super::{Notification, Refusal};
use crate::outcome::Place;
use crate::rules::RedirectRules;
use crate::show::hex;

pub const MOST_TIMES: usize = 5;

/// What is kept of the redirects that were accepted: the times of the last ones, oldest first.
#[repr(C)]
#[derive(Debug, Clone, Copy, PartialEq, Eq)]
pub struct Redirects {
    pub count: u8,
    pub times: [u64; MOST_TIMES],
}

impl Redirects {
    pub const FRESH: Redirects = Redirects { count: 0, times: [0; MOST_TIMES] };
}

/// The exchange that a REDIRECT came in, as a number.
pub mod exchange {
    pub const SA_INIT: u8 = 0;
    pub const FIRST_AUTH: u8 = 1;
    pub const MIDDLE_AUTH: u8 = 2;
    pub const LAST_AUTH: u8 = 3;
    pub const INFORMATIONAL: u8 = 4;
}

/// A REDIRECT as it is given.
#[derive(Debug, Clone, PartialEq, Eq)]
pub struct Redirect {
    pub exchange: u8,
    /// The nonce of our IKE_SA_INIT request.
    pub sent: Vec<u8>,
    /// In seconds.
    pub time: u64,
    pub data: Vec<u8>,
}

#[derive(Debug, Clone, Copy, Default, PartialEq, Eq)]
pub struct Decided<'a> {
    pub number: u8,
    pub identity_type: u8,
    /// Of the gateway to go to.
    pub identity: Place<'a>,
    pub nonce_length: usize,
}

/// Decides a REDIRECT, and keeps its time in the record if it is accepted.
pub fn decide<'a>(
    record: &mut Redirects,
    redirect: &'a Redirect,
    rules: &(impl RedirectRules + ?Sized),
) -> Decided<'a> {
    let read = read(Notification::Redirect, &redirect.data, rules);
    let order = rules.order_of_deciding().iter().copied();
    let refused = order.into_iter().find(|&check| redirect.fails(check, &read, record, rules));
    if rules.keeps(refused) {
        *record = rules.kept(record, redirect.time);
    }
    match refused {
        Some(refusal) => rules.refused(refusal, &read),
        None => Decided {
            number: 0,
            identity_type: read.identity_type,
            identity: read.identity,
            nonce_length: read.nonce.length,
        },
    }
}

impl Redirect {
    fn fails(
        &self,
        check: Refusal,
        read: &DataRead,
        record: &Redirects,
        rules: &(impl RedirectRules + ?Sized),
    ) -> bool {
        let kept = &record.times[..rules.counted(record.count)];
        let is_init = self.exchange == exchange::SA_INIT;
        match check {
            Refusal::OutputTooShort => false,
            Refusal::Malformed => {
                read.number != 0 || !rules.allows_sent(self.exchange, self.sent.len())
            }
            Refusal::Exchange => {
                let has_nonce = read.nonce.length > 0;
                !rules.allows_exchange(self.exchange)
                    || (!is_init && has_nonce && !rules.allows_nonce_outside(read.nonce.length))
            }
            Refusal::Nonce => is_init && !rules.same_nonce(&self.sent, read.nonce.octets),
            Refusal::BeforeLast => {
                rules.last(kept).is_some_and(|last| rules.is_before(self.time, last))
            }
            Refusal::TooMany => {
                let recent = kept.iter().filter(|&&at| rules.is_recent(self.time, at)).count();
                rules.are_too_many(recent)
            }
        }
    }
}

impl Decided<'_> {
    /// Every field by name, to be shown.
    pub fn fields(&self) -> Vec<(String, String)> {
        let fields = [
            ("number", self.number.to_string()),
            ("identity type", self.identity_type.to_string()),
            ("identity", self.identity.show()),
            ("nonce length", self.nonce_length.to_string()),
        ];
        fields.map(|(name, value)| (name.to_string(), value)).to_vec()
    }
}

impl Redirect {
    /// Its arguments by name, to be shown.
    pub fn fields(&self) -> Vec<(String, String)> {
        let fields = [
            ("exchange", self.exchange.to_string()),
            ("nonce sent", hex(&self.sent)),
            ("time", self.time.to_string()),
            ("data", hex(&self.data)),
        ];
        fields.map(|(name, value)| (name.to_string(), value)).to_vec()
    }
}

#[cfg(test)]
mod tests {
    use super::*;
    use crate::rules::Plain;

    const ADDRESS: [u8; 6] = [1, 4, 192, 0, 2, 1];

    fn redirect(exchange: u8, time: u64, nonce: &[u8]) -> Redirect {
        let data = [&ADDRESS[..], nonce].concat();
        Redirect { exchange, sent: (0..16).collect(), time, data }
    }

    /// The numbers of these decisions, each on what the one before left.
    fn numbers(record: &mut Redirects, redirects: &[Redirect]) -> Vec<u8> {
        redirects.iter().map(|redirect| decide(record, redirect, &Plain).number).collect()
    }

    #[test]
    fn the_examples_of_times() {
        let times = [7, 7, 7, 7, 7, 7, 306, 307, 306];
        let all = times.map(|time| redirect(exchange::INFORMATIONAL, time, &[]));
        let mut record = Redirects::FRESH;
        assert_eq!(numbers(&mut record, &all), [0, 0, 0, 0, 0, 34, 34, 0, 33]);
        assert_eq!(record, Redirects { count: 5, times: [7, 7, 7, 7, 307] });
    }

    #[test]
    fn the_examples_of_nonces() {
        let sent: Vec<u8> = (0..16).collect();
        let longer = [&sent[..], &[0]].concat();
        let all = [&sent[..], &[], &sent[..15], &longer];
        let all = all.map(|nonce| redirect(exchange::SA_INIT, 10, nonce));
        let mut record = Redirects::FRESH;
        assert_eq!(numbers(&mut record, &all), [0, 32, 32, 32]);
        assert_eq!(record, Redirects { count: 1, times: [10, 0, 0, 0, 0] });
        let accepted = decide(&mut record, &all[0], &Plain);
        assert_eq!((accepted.identity_type, accepted.nonce_length), (1, 16));
        assert_eq!(accepted.identity.octets, [192, 0, 2, 1]);
    }

    #[test]
    fn refusals_come_in_their_order_and_keep_nothing() {
        let full = Redirects { count: 5, times: [100; 5] };
        let malformed = |redirect: Redirect| Redirect { data: vec![1, 5], ..redirect };
        let short = |redirect: Redirect| Redirect { sent: vec![0; 15], ..redirect };
        let of = |exchange, time, nonce| redirect(exchange, time, nonce);
        let cases = [
            (malformed(of(2, 99, &[1])), 30),
            (short(of(0, 99, &[])), 30),
            (short(of(4, 100, &[])), 34),
            (of(2, 99, &[]), 31),
            (of(5, 99, &[]), 31),
            (of(255, 500, &[]), 31),
            (of(4, 99, &[1]), 31),
            (of(0, 99, &[1]), 32),
            (of(0, 99, &[]), 32),
            (of(1, 99, &[]), 33),
            (of(3, 100, &[]), 34),
            (of(3, 399, &[]), 34),
        ];
        for (redirect, number) in cases {
            let mut record = full;
            let decided = decide(&mut record, &redirect, &Plain);
            assert_eq!(decided, Decided { number, ..Decided::default() });
            assert_eq!(record, full);
        }
        let mut record = full;
        assert_eq!(decide(&mut record, &of(3, 400, &[]), &Plain).number, 0);
        assert_eq!(record.times, [100, 100, 100, 100, 400]);
    }

    #[test]
    fn records_that_no_decision_leaves() {
        let late = |time| redirect(exchange::INFORMATIONAL, time, &[]);
        // A count over 5 reads as 5, and a time in the future is recent.
        for (count, times, time, number) in [
            (255, [0; 5], 299, 34),
            (255, [0; 5], 300, 0),
            (5, [u64::MAX, u64::MAX, u64::MAX, u64::MAX, 3], 3, 34),
            (5, [u64::MAX, u64::MAX, u64::MAX, u64::MAX, 3], 2, 33),
            (4, [u64::MAX; 5], u64::MAX, 0),
            (5, [u64::MAX - 299; 5], u64::MAX, 34),
            (5, [u64::MAX - 300; 5], u64::MAX, 0),
        ] {
            let mut record = Redirects { count, times };
            assert_eq!(decide(&mut record, &late(time), &Plain).number, number);
        }
        let mut left = Redirects { count: 1, times: [1, 9, 9, 9, 9] };
        assert_eq!(decide(&mut left, &late(5), &Plain).number, 0);
        assert_eq!(left, Redirects { count: 2, times: [1, 5, 0, 0, 0] });
    }
}
