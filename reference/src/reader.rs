// The payload reader: the answer to a first payload type and a body, with what the chain says.
use crate::chain::{self, Exchange};
use crate::flaws::{self, Flaw};
use crate::rules::ChainRules;
use crate::summary::{summarise, Summary};

pub const MAX_BODY: usize = 4096;

#[derive(Debug, Clone, Copy, PartialEq, Eq)]
pub enum Answer {
    Read,
    BodyTooLong,
    Flawed(Flaw),
}

impl Answer {
    pub fn number(self, rules: &(impl ChainRules + ?Sized)) -> u8 {
        match self {
            Answer::Read => 0,
            Answer::BodyTooLong => 3,
            Answer::Flawed(flaw) => rules.number(flaw.cause),
        }
    }

    pub fn offset(self) -> usize {
        match self {
            Answer::Flawed(flaw) => flaw.offset,
            Answer::Read | Answer::BodyTooLong => 0,
        }
    }
}

#[derive(Debug)]
pub struct Reading<'a> {
    pub answer: Answer,
    /// That of the payload that 61 to 65 and 7 are about, else 0.
    pub ordinal: usize,
    /// The type of the payload that 7 is about, else 0.
    pub critical_type: u8,
    /// Empty unless the chain was read.
    pub summary: Summary<'a>,
}

/// Reads the chain of an INFORMATIONAL request or of a response.
pub fn read<'a>(first: u8, body: &'a [u8], rules: &(impl ChainRules + ?Sized)) -> Reading<'a> {
    read_in(Exchange::Informational, first, body, rules)
}

/// Reads the chain of a message of this exchange.
pub fn read_in<'a>(
    exchange: Exchange,
    first: u8,
    body: &'a [u8],
    rules: &(impl ChainRules + ?Sized),
) -> Reading<'a> {
    let chain = chain::split(first, body);
    let unflawed = |answer, summary| {
        let ordinal = rules.ordinal_without_flaw(&chain);
        Reading { answer, ordinal, critical_type: 0, summary }
    };
    if body.len() > rules.longest_body() {
        return unflawed(Answer::BodyTooLong, Summary::default());
    }
    match flaws::told(&chain, exchange, rules) {
        None => unflawed(Answer::Read, summarise(&chain, exchange, rules)),
        Some(flaw) => Reading {
            answer: Answer::Flawed(flaw),
            ordinal: flaw.ordinal,
            critical_type: rules.type_told(&flaw, &chain),
            summary: Summary {
                payloads: rules.count_of_flawed(&flaw),
                cookie: rules.cookie_of_flawed(first, body),
                ..Summary::default()
            },
        },
    }
}

#[cfg(test)]
mod tests {
    use super::*;
    use crate::rules::Plain;
    use crate::summary::Part;

    const UPDATE: [u8; 8] = [0, 0, 0, 8, 0, 0, 0x40, 0x10];

    fn cookie(size: u8) -> Vec<u8> {
        let mut body = vec![0, 0, 0, 8 + size, 0, 0, 0x40, 0x11];
        body.extend(1..=size);
        body
    }

    /// Number, offset and ordinal.
    fn answer(first: u8, body: &[u8]) -> (u8, usize, usize) {
        let Reading { answer, ordinal, .. } = read(first, body, &Plain);
        (answer.number(&Plain), answer.offset(), ordinal)
    }

    #[test]
    fn row_a_empty_chain() {
        let reading = read(0, &[], &Plain);
        assert_eq!(reading.answer, Answer::Read);
        assert_eq!(reading.summary.payloads, 0);
    }

    #[test]
    fn row_b_missing_payload() {
        assert_eq!(answer(41, &[]), (61, 0, 0));
    }

    #[test]
    fn row_c_one_update() {
        let reading = read(41, &UPDATE, &Plain);
        assert_eq!(reading.answer, Answer::Read);
        assert_eq!(reading.summary.payloads, 1);
        assert!(reading.summary.update);
    }

    #[test]
    fn row_d_octet_after_the_end() {
        assert_eq!(answer(41, &[&UPDATE[..], &[0xff]].concat()), (65, 8, 1));
    }

    #[test]
    fn row_e_cookie_of_7() {
        assert_eq!(answer(41, &cookie(7)), (63, 0, 0));
    }

    #[test]
    fn row_f_cookie_of_64() {
        let body = cookie(64);
        let reading = read(41, &body, &Plain);
        assert_eq!(reading.answer, Answer::Read);
        assert_eq!(reading.summary.cookie, Some(Part { offset: 8, octets: &body[8..] }));
    }

    #[test]
    fn row_g_unknown_critical() {
        assert_eq!(answer(200, &[0, 0x80, 0, 4]), (7, 0, 0));
    }

    #[test]
    fn only_7_tells_a_type() {
        let told = |first, body| read(first, body, &Plain).critical_type;
        assert_eq!(told(33, &[199, 0, 0, 4, 41, 0x80, 0, 4]), 199);
        assert_eq!(told(199, &[0, 0x80, 0, 5]), 0);
        assert_eq!(told(199, &[0, 0, 0, 4]), 0);
        assert_eq!(told(199, &[0; 4097]), 0);
    }

    #[test]
    fn row_h_unknown_not_critical() {
        let reading = read(200, &[0, 0, 0, 4], &Plain);
        assert_eq!(reading.answer, Answer::Read);
        assert_eq!((reading.summary.payloads, reading.summary.unknown_payloads), (1, 1));
    }

    #[test]
    fn row_c_with_a_cookie() {
        let body = [
            0x29, 0, 0, 8, 0, 0, 0x40, 0x10, 0, 0, 0, 16, 0, 0, 0x40, 0x11, 1, 2, 3, 4, 5, 6, 7, 8,
        ];
        let summary = read(41, &body, &Plain).summary;
        assert_eq!(summary.payloads, 2);
        assert!(summary.update);
        assert_eq!(summary.cookie, Some(Part { offset: 16, octets: &[1, 2, 3, 4, 5, 6, 7, 8] }));
    }

    #[test]
    fn smaller_offset_comes_before_number() {
        let critical_then_cut = [41, 0x80, 0, 4, 0, 0, 0, 7, 0, 0, 0];
        assert_eq!(answer(200, &critical_then_cut), (7, 0, 0));
        let critical_last = [200, 0, 0, 4, 0, 0x80, 0, 4];
        assert_eq!(answer(33, &critical_last), (7, 4, 1));
        let size_then_cut = [&[41, 0, 0, 9, 0, 0, 0x40, 0x10, 0][..], &[0; 3]].concat();
        assert_eq!(answer(41, &size_then_cut), (63, 0, 0));
    }

    #[test]
    fn in_one_payload_61_comes_before_7() {
        assert_eq!(answer(200, &[0, 0x80, 0, 3]), (61, 0, 0));
        assert_eq!(answer(200, &[0, 0x80, 0, 5]), (61, 0, 0));
        assert_eq!(answer(33, &[200, 0, 0, 4, 0, 0x80, 0, 3]), (61, 4, 1));
    }

    #[test]
    fn each_sort_of_flaw_has_its_number() {
        let only = |content: &[u8]| {
            let body = [&[0, 0, 0, 4 + content.len() as u8], content].concat();
            answer(41, &body).0
        };
        assert_eq!(answer(41, &[0; 3]).0, 61);
        assert_eq!(answer(41, &[0, 0, 0, 3]).0, 61);
        assert_eq!(answer(41, &[0, 0, 0, 5]).0, 61);
        assert_eq!(only(&[]), 62);
        assert_eq!(only(&[0, 0, 0x40]), 62);
        // SPIs: past the length, and of types that have none, whatever the data.
        assert_eq!(only(&[0, 1, 0x40, 0x13]), 62);
        assert_eq!(only(&[0, 1, 0x40, 0x0c, 9]), 62);
        assert_eq!(only(&[0, 1, 0x40, 0x10, 9]), 62);
        assert_eq!(only(&[0, 1, 0x40, 0x10, 9, 9]), 62);
        assert_eq!(only(&[0, 0, 0x40, 0x10, 9]), 63);
        assert_eq!(answer(0, &[0]), (65, 0, 0));
    }

    /// Notifications by the low octet of their type, their SPI size and what follows.
    fn notifications(all: &[(u8, u8, &[u8])]) -> Vec<u8> {
        let mut body = Vec::new();
        for (place, (low, spi_size, rest)) in all.iter().enumerate() {
            let next = if place + 1 < all.len() { 41 } else { 0 };
            body.extend([next, 0, 0, 8 + rest.len() as u8, 0, *spi_size, 0x40, *low]);
            body.extend_from_slice(rest);
        }
        body
    }

    #[test]
    fn in_one_payload_the_lowest_number_is_told() {
        let (update, cookie2, none, address) = (0x10, 0x11, 0x0f, 0x0d);
        let second = |low, spi_size, rest: &[u8]| {
            let first: &[u8] = if low == cookie2 { &[1; 8] } else { &[] };
            answer(41, &notifications(&[(low, 0, first), (low, spi_size, rest)]))
        };
        assert_eq!(second(update, 0, &[]), (64, 8, 1));
        assert_eq!(second(update, 0, &[1]), (63, 8, 1));
        assert_eq!(second(update, 1, &[1]), (62, 8, 1));
        assert_eq!(second(update, 1, &[]), (62, 8, 1));
        assert_eq!(second(cookie2, 0, &[1; 8]), (64, 16, 1));
        assert_eq!(second(cookie2, 0, &[1; 7]), (63, 16, 1));
        assert_eq!(second(cookie2, 1, &[1; 9]), (62, 16, 1));
        let both = |one, two| answer(41, &notifications(&[(none, 0, &[]), one, two]));
        assert_eq!(both((0x13, 0, &[]), (address, 0, &[1; 4])), (64, 16, 2));
        assert_eq!(both((0x13, 0, &[]), (address, 0, &[1; 5])), (63, 16, 2));
        assert_eq!(both((0x13, 0, &[]), (address, 4, &[1; 8])), (62, 16, 2));
    }

    #[test]
    fn the_two_of_clones_are_known_in_a_rekey_only() {
        for (low, is_clone) in [(0x30, false), (0x31, true)] {
            let read = |exchange, spi_size, rest: &[u8]| {
                let body = notifications(&[(low, spi_size, rest), (low, 0, &[])]);
                let Reading { answer, summary, .. } = read_in(exchange, 41, &body, &Plain);
                let Summary { payloads, unknown_notifies, clone_supported, clone, .. } = summary;
                (answer.number(&Plain), payloads, unknown_notifies, clone_supported, clone)
            };
            for (spi_size, rest) in [(0, &[][..]), (0, &[1]), (1, &[1]), (1, &[1, 2])] {
                let told = read(Exchange::Informational, spi_size, rest);
                assert_eq!(told, (0, 2, 2, false, false));
            }
            let told = |spi_size, rest| read(Exchange::Rekey, spi_size, rest);
            assert_eq!(told(0, &[]), (0, 2, 0, !is_clone, is_clone));
            assert_eq!(told(0, &[1]).0, 63);
            assert_eq!(told(1, &[1]).0, 62);
            assert_eq!(told(1, &[1, 2]).0, 62);
            assert_eq!(told(2, &[1]).0, 62);
        }
    }

    #[test]
    fn missing_payload_is_told_where_it_would_begin() {
        let body = [&[33, 0, 16, 0][..], &[0; 4092]].concat();
        assert_eq!(answer(33, &body), (61, 4096, 1));
        assert_eq!(answer(33, &[33, 0, 0, 4].repeat(1024)), (61, 4096, 1024));
    }

    #[test]
    fn of_octets_after_the_end_the_payloads_before_are_told() {
        let body = |payloads: usize, after: usize| {
            let mut body = [33, 0, 0, 4].repeat(payloads);
            body[4 * payloads - 4] = 0;
            body.resize(4 * payloads + after, 33);
            body
        };
        assert_eq!(answer(33, &body(1, 1)), (65, 4, 1));
        assert_eq!(answer(33, &body(256, 9)), (65, 1024, 256));
        assert_eq!(answer(33, &body(1023, 4)), (65, 4092, 1023));
    }

    #[test]
    fn too_long_comes_before_everything() {
        assert_eq!(answer(0, &[0; 4097]), (3, 0, 0));
        assert_eq!(answer(33, &[33, 0, 0, 4].repeat(1025)), (3, 0, 0));
        assert_eq!(answer(0, &[0; 4096]), (65, 0, 0));
    }
}
