// Flaws by number and ordinal: each sort first, in the middle and last, behind up to as many payloads as a
// body holds, two in one chain, and two in one payload.
use super::atoms::allowed_sizes;
use super::draft::{ChainDraft, Draft};
use super::Case;
use crate::chain::NOTIFY;
use crate::notify::NotifyType;
use crate::reader::MAX_BODY;

const SKIPPED: u8 = 33;
const UNKNOWN: u8 = 200;
const UNKNOWN_STATUS: NotifyType = NotifyType(16403);
const CRITICAL: u8 = 0x80;

const UPDATE: NotifyType = NotifyType::UPDATE_SA_ADDRESSES;
const COOKIE: NotifyType = NotifyType::COOKIE2;
const NONE: NotifyType = NotifyType::NO_ADDITIONAL_ADDRESSES;
const IPV4: NotifyType = NotifyType::ADDITIONAL_IP4_ADDRESS;
const IPV6: NotifyType = NotifyType::ADDITIONAL_IP6_ADDRESS;

/// A chain, with the number and the ordinal that are told of it.
#[derive(Clone)]
struct Told {
    chain: ChainDraft,
    number: u8,
    ordinal: usize,
}

pub fn all() -> Vec<Case> {
    told().iter().map(|told| told.chain.assemble()).collect()
}

fn told() -> Vec<Told> {
    [at_places(), behind_many(), two_in_a_chain(), two_in_a_payload(), after_the_end()].concat()
}

impl Told {
    /// The chain ends with the payload that is told.
    fn last(number: u8, payloads: Vec<Draft>) -> Self {
        let ordinal = payloads.len() - 1;
        Told { chain: ChainDraft::of(payloads), number, ordinal }
    }

    /// Under 4 octets are left for a payload of this type.
    fn missing(payload_type: u8, left: usize) -> Self {
        let chain = ChainDraft { payloads: vec![], last_next: payload_type, tail: vec![0; left] };
        Told { chain, number: 61, ordinal: 0 }
    }

    /// Octets after the end of an empty chain.
    fn leftover(tail: Vec<u8>) -> Self {
        Told { chain: ChainDraft { tail, ..ChainDraft::default() }, number: 65, ordinal: 0 }
    }

    /// Whether other payloads may follow the one that is told.
    fn may_go_on(&self) -> bool {
        self.ordinal < self.chain.payloads.len()
    }

    /// So many of these payloads before the chain, which may pass the longest body.
    fn behind(&self, filler: &Draft, count: usize) -> Self {
        let mut told = self.clone();
        told.chain.payloads.splice(0..0, vec![filler.clone(); count]);
        told.ordinal += count;
        if told.chain.size() > MAX_BODY {
            (told.number, told.ordinal) = (3, 0);
        }
        told
    }
}

fn bare(payload_type: u8, flags: u8) -> Draft {
    Draft::payload(payload_type, flags, vec![])
}

fn with_length(mut draft: Draft, told: u16) -> Draft {
    draft.told_length = Some(told);
    draft
}

/// The least data that the type allows, or so many octets more than the most.
fn data(notify_type: NotifyType, more: usize) -> Vec<u8> {
    let sizes = allowed_sizes(notify_type);
    vec![1; if more == 0 { sizes[0] } else { sizes[sizes.len() - 1] + more }]
}

fn notify(notify_type: NotifyType, more: usize) -> Draft {
    Draft::notify(notify_type, &data(notify_type, more))
}

/// With an SPI of 4 octets before the data.
fn with_spi(notify_type: NotifyType, more: usize) -> Draft {
    let rest = [vec![9; 4], data(notify_type, more)].concat();
    Draft::notify_with_spi(notify_type, 4, &rest)
}

fn with_long_spi(notify_type: NotifyType, more: usize) -> Draft {
    let rest = data(notify_type, more);
    Draft::notify_with_spi(notify_type, rest.len() as u8 + 1, &rest)
}

/// Sound payloads of 4 and of 8 octets, which repeat and contradict nothing.
fn fillers() -> [Draft; 4] {
    [
        bare(SKIPPED, CRITICAL),
        bare(UNKNOWN, 0),
        Draft::notify(UNKNOWN_STATUS, &[]),
        Draft::notify(NotifyType::MOBIKE_SUPPORTED, &[]),
    ]
}

/// Flaws of each number, in payloads that others may follow.
fn some_in_payloads() -> Vec<Told> {
    vec![
        Told::last(61, vec![with_length(bare(UNKNOWN, CRITICAL), 3)]),
        Told::last(61, vec![with_length(notify(COOKIE, 0), 65535)]),
        Told::last(62, vec![bare(NOTIFY, CRITICAL)]),
        Told::last(62, vec![with_spi(NotifyType::MOBIKE_SUPPORTED, 0)]),
        Told::last(63, vec![notify(UPDATE, 1)]),
        Told::last(64, vec![notify(UPDATE, 0); 2]),
        Told::last(64, vec![notify(NONE, 0), notify(IPV4, 0)]),
        Told::last(7, vec![bare(UNKNOWN, CRITICAL)]),
    ]
}

/// The others that are told apart by how they come about.
fn more_in_payloads() -> Vec<Told> {
    let mut all = vec![
        Told::last(61, vec![with_length(bare(SKIPPED, 0), 0)]),
        Told::last(61, vec![with_length(bare(UNKNOWN, CRITICAL), 4097)]),
        Told::last(61, vec![with_length(notify(COOKIE, 0), 2)]),
        Told::last(61, vec![with_length(Draft::payload(NOTIFY, 0, vec![0; 3]), 4097)]),
        Told::last(62, vec![Draft::payload(NOTIFY, 0, vec![0; 3])]),
        Told::last(62, vec![with_long_spi(UNKNOWN_STATUS, 0)]),
        Told::last(62, vec![with_long_spi(COOKIE, 0)]),
        Told::last(62, vec![with_spi(IPV6, 0)]),
        Told::last(63, vec![Draft::notify(COOKIE, &[1; 7])]),
        Told::last(63, vec![notify(NotifyType::NAT_DETECTION_SOURCE_IP, 1)]),
        Told::last(7, vec![Draft::payload(1, 0xff, vec![0; 4])]),
    ];
    all.extend(between().map(|[earlier, later]| {
        let apart = bare(SKIPPED, 0);
        Told::last(64, vec![notify(earlier, 0), apart, notify(later, 0)])
    }));
    all
}

/// Flaws of how a chain ends.
fn some_in_ends() -> Vec<Told> {
    let looks_sound = vec![0, 0, 0, 4];
    vec![
        Told::missing(NOTIFY, 0),
        Told::missing(UNKNOWN, 3),
        Told::leftover(vec![0xff]),
        Told::leftover(looks_sound),
    ]
}

fn more_in_ends() -> Vec<Told> {
    let missing =
        [(SKIPPED, 0), (UNKNOWN, 0), (SKIPPED, 1), (NOTIFY, 1), (SKIPPED, 3), (NOTIFY, 3)];
    missing.map(|(payload_type, left)| Told::missing(payload_type, left)).into()
}

/// Types of which the second may not stand behind the first.
fn between() -> [[NotifyType; 2]; 9] {
    let contradictory = [[NONE, IPV4], [NONE, IPV6], [IPV4, NONE], [IPV6, NONE]];
    let [one, two, three, four, five] = NotifyType::ONCE.map(|once| [once; 2]);
    let [six, seven, eight, nine] = contradictory;
    [one, two, three, four, five, six, seven, eight, nine]
}

/// Each flaw first, in the middle and last, among payloads of each class.
fn at_places() -> Vec<Told> {
    let mut all = Vec::new();
    let flaws = [some_in_payloads(), more_in_payloads(), some_in_ends(), more_in_ends()];
    for told in flaws.concat() {
        all.push(told.clone());
        for filler in fillers() {
            for count in [1, 2] {
                let last = told.behind(&filler, count);
                if told.may_go_on() {
                    let mut middle = last.clone();
                    middle.chain.payloads.push(filler.clone());
                    all.push(middle);
                }
                all.push(last);
            }
        }
        if told.may_go_on() {
            let mut first = told;
            first.chain.payloads.extend(fillers());
            all.push(first);
        }
    }
    all
}

/// Behind 254 to 257 payloads, and behind as many as the body has room for, one fewer and one more.
fn behind_many() -> Vec<Told> {
    let filler = bare(SKIPPED, 0);
    let mut all = Vec::new();
    for told in [some_in_payloads(), some_in_ends()].concat() {
        let most = (MAX_BODY - told.chain.size()) / filler.size();
        let counts = [254, 255, 256, 257, most - 1, most, most + 1];
        all.extend(counts.map(|count| told.behind(&filler, count)));
    }
    all
}

/// Two flaws, of which that at the smaller offset is told, whatever their numbers.
fn two_in_a_chain() -> Vec<Told> {
    let mut all = Vec::new();
    for first in some_in_payloads() {
        for second in [some_in_payloads(), some_in_ends()].concat() {
            let mut both = first.clone();
            both.chain.payloads.push(bare(UNKNOWN, 0));
            both.chain.payloads.extend(second.chain.payloads);
            (both.chain.last_next, both.chain.tail) = (second.chain.last_next, second.chain.tail);
            all.push(both);
        }
    }
    all
}

/// Every two or three flaws that one payload can have, of which the lowest number is told.
fn two_in_a_payload() -> Vec<Told> {
    let mut all = Vec::new();
    for [earlier, later] in between() {
        let later = [
            (64, notify(later, 0)),
            (63, notify(later, 1)),
            (62, with_spi(later, 0)),
            (62, with_spi(later, 1)),
            (62, with_long_spi(later, 0)),
            (62, with_long_spi(later, 1)),
            (61, with_length(notify(later, 0), 3)),
            (61, with_length(notify(later, 1), 65535)),
        ];
        for (number, later) in later {
            let apart = Draft::notify(UNKNOWN_STATUS, &[]);
            let payloads = vec![notify(earlier, 0), later];
            all.push(Told::last(number, payloads.clone()));
            all.push(Told::last(number, payloads).behind(&apart, 1));
        }
    }
    let sized = NotifyType::KNOWN.into_iter().filter(|&it| it != NotifyType::MOBIKE_SUPPORTED);
    all.extend(sized.flat_map(|known| {
        let all_spi = Draft::notify_with_spi(known, 1, &data(known, 1));
        [with_spi(known, 1), with_long_spi(known, 1), all_spi].map(|it| Told::last(62, vec![it]))
    }));
    for told in [0, 1, 2, 3, 5, 4097, 65535] {
        let critical = Told::last(61, vec![with_length(bare(UNKNOWN, CRITICAL), told)]);
        all.extend([0, 1, 2].map(|count| critical.behind(&bare(UNKNOWN, 0), count)));
    }
    all
}

/// Octets after chains of few payloads and of as many as a body holds before one to four octets more.
fn after_the_end() -> Vec<Told> {
    let mut all = Vec::new();
    for count in [0, 1, 2, 3, 255, 256, 257, 511, 512, 1022, 1023, 1024] {
        for octets in [1, 2, 3, 4, 5, 8] {
            for octet in [0, NOTIFY] {
                let told = Told::leftover(vec![octet; octets]);
                all.push(told.behind(&bare(UNKNOWN, 0), count));
            }
        }
    }
    all
}

#[cfg(test)]
mod tests {
    use super::*;
    use crate::reader::read;
    use crate::rules::Plain;
    use std::collections::BTreeMap;

    #[test]
    fn each_chain_is_told_as_it_is_meant() {
        for told in told() {
            let case = told.chain.assemble();
            let reading = read(case.first, &case.body, &Plain);
            let got = (reading.answer.number(&Plain), reading.ordinal);
            assert_eq!(got, (told.number, told.ordinal), "{case:?}");
        }
    }

    #[test]
    fn each_number_comes_with_small_and_great_ordinals() {
        let mut ordinals: BTreeMap<u8, Vec<usize>> = BTreeMap::new();
        for told in told() {
            ordinals.entry(told.number).or_default().push(told.ordinal);
        }
        for number in [61, 62, 63, 64, 65, 7] {
            let least = if number == 64 { 1 } else { 0 };
            for ordinal in [least, 2, 256, 257] {
                assert!(ordinals[&number].contains(&ordinal), "{number} {ordinal}");
            }
        }
        let greatest = [61, 62, 63, 64, 65, 7].map(|number| ordinals[&number].iter().max());
        // Those that a body has room for: 62 needs 4 octets, 63 9 and 64 16 of two payloads.
        let room = [1024, 1023, 1021, 1021, 1023, 1023];
        assert_eq!(greatest, room.each_ref().map(Some));
    }
}
