// Faults of the rules of a request to clone.
use super::chain::notifies_in;
use super::Row;
use crate::calls::Refusal;
use crate::cloning::Check::{
    self, Agreed, Asked, Body, Chain, Deleting, Full, InUse, NewSpi, Operator, Output, Peer,
    Record, Share, Spi,
};
use crate::cloning::{Answer, CloneReply, CloneRequest};
use crate::flaws::Flaw;
use crate::kind::Kind;
use crate::notifications::Notification;
use crate::notify::NotifyType;
use crate::rules::{CloneRules, Plain};
use crate::summary::Summary;
use crate::tables::{IkeRecord, Record as _, IKE_PLACES};

pub const FAULTS: &[Row<dyn CloneRules>] = &[
    (
        Kind::Clones,
        "clone-in-use-first",
        "A clone checks 11 before 41 and 42.",
        &Order(&[
            Spi, NewSpi, Operator, Output, Body, Record, Agreed, Chain, Asked, InUse, Deleting,
            Full, Peer, Share,
        ]),
    ),
    (
        Kind::Clones,
        "clone-peer-first",
        "A clone checks 42 before 41.",
        &Order(&[
            Spi, NewSpi, Operator, Output, Body, Record, Agreed, Chain, Asked, Peer, Deleting,
            Full, InUse, Share,
        ]),
    ),
    (
        Kind::Clones,
        "clone-full-after-peer",
        "A clone checks 41 of a full table after 42.",
        &Order(&[
            Spi, NewSpi, Operator, Output, Body, Record, Agreed, Chain, Asked, Deleting, Peer,
            Full, InUse, Share,
        ]),
    ),
    (
        Kind::Clones,
        "clone-agreement-after-chain",
        "A clone checks 40 after the chain was read.",
        &Order(&[
            Spi, NewSpi, Operator, Output, Body, Record, Chain, Agreed, Asked, Deleting, Full,
            Peer, InUse, Share,
        ]),
    ),
    (
        Kind::Clones,
        "clone-without-share",
        "A clone doesn't ask for the share.",
        &Order(&[
            Spi, NewSpi, Operator, Output, Body, Record, Agreed, Chain, Asked, Deleting, Full,
            Peer, InUse,
        ]),
    ),
    (
        Kind::Clones,
        "clone-share-before-in-use",
        "A clone checks 43 before 11.",
        &Order(&[
            Spi, NewSpi, Operator, Output, Body, Record, Agreed, Chain, Asked, Deleting, Full,
            Peer, Share, InUse,
        ]),
    ),
    (
        Kind::Clones,
        "clone-share-before-peer",
        "A clone checks 43 before 42.",
        &Order(&[
            Spi, NewSpi, Operator, Output, Body, Record, Agreed, Chain, Asked, Deleting, Full,
            Share, Peer, InUse,
        ]),
    ),
    (
        Kind::Clones,
        "clone-share-before-full",
        "A clone checks 43 before 41 of a full table.",
        &Order(&[
            Spi, NewSpi, Operator, Output, Body, Record, Agreed, Chain, Asked, Deleting, Share,
            Full, Peer, InUse,
        ]),
    ),
    (
        Kind::Clones,
        "clone-operator-with-4",
        "A clone for an operator that there isn't is checked after 2 and 3.",
        &Order(&[
            Spi, NewSpi, Output, Body, Operator, Record, Agreed, Chain, Asked, Deleting, Full,
            Peer, InUse, Share,
        ]),
    ),
    (Kind::Clones, "clone-room-8", "An output of 8 octets is enough for a clone.", &LeastOutput(8)),
    (
        Kind::Clones,
        "clone-by-mobike",
        "40 is told by what is agreed of MOBIKE.",
        &Agreement(|record| record.agreed.mobike),
    ),
    (
        Kind::Clones,
        "clone-only-1",
        "In check 40 only an octet of 1 is yes.",
        &Agreement(|record| u8::from(record.agreed.cloning == 1)),
    ),
    (
        Kind::Clones,
        "clone-by-support",
        "CLONE_IKE_SA_SUPPORTED asks for a clone too.",
        &IsAsked(|summary| summary.clone || summary.clone_supported),
    ),
    (
        Kind::Clones,
        "clone-asked-before-flaws",
        "Of a chain without CLONE_IKE_SA 44 is told before 61 to 65 and 7.",
        &AskedBeforeFlaws,
    ),
    (
        Kind::Clones,
        "clone-of-deleted",
        "A record that is being deleted is cloned.",
        &BeingDeleted(|_| false),
    ),
    (
        Kind::Clones,
        "clone-deleted-only-1",
        "Only a mark of 1 says that a record is being deleted.",
        &BeingDeleted(|octet| octet == 1),
    ),
    // The same as if the original weren't counted.
    (Kind::Clones, "clone-limit-5", "A peer may have 5 records.", &Most(5)),
    (Kind::Clones, "clone-limit-3", "A peer may have 3 records.", &Most(3)),
    (
        Kind::Clones,
        "clone-deleted-uncounted",
        "A peer's records that are being deleted aren't counted.",
        &OfPeer(|records, meant, place| {
            records[place].deleting == 0 && Plain.is_of_peer(records, meant, place)
        }),
    ),
    (
        Kind::Clones,
        "clone-free-counted",
        "Free places that still have the peer's number are counted.",
        &OfPeer(|records, meant, place| {
            let of = |place: usize| (records[place].agreed.peer, records[place].agreed.operator);
            of(place) == of(meant)
        }),
    ),
    (
        Kind::Clones,
        "clone-peer-of-both",
        "A peer's records of both operators count to its limit.",
        &OfPeer(|records, meant, place| {
            records[place].is_in_use() && records[place].agreed.peer == records[meant].agreed.peer
        }),
    ),
    (
        Kind::Clones,
        "clone-peer-16-bits",
        "Peers are compared by their low 16 bits.",
        &OfPeer(|records, meant, place| {
            let low =
                |place: usize| (records[place].agreed.peer as u16, records[place].agreed.operator);
            records[place].is_in_use() && low(place) == low(meant)
        }),
    ),
    (
        Kind::Clones,
        "clone-own-spi",
        "The new SPI may be the original's.",
        &Used(|meant, new_spi, in_use| {
            meant.map(|it| it.spi) != Some(new_spi) && new_spi == in_use.spi
        }),
    ),
    (
        Kind::Clones,
        "clone-in-use-own-only",
        "11 looks at the operator's own records only.",
        &Used(|meant, new_spi, in_use| {
            let operator = meant.map(|it| it.agreed.operator);
            operator == Some(in_use.agreed.operator) && new_spi == in_use.spi
        }),
    ),
    (
        Kind::Clones,
        "clone-update-mark",
        "A clone has the original's update mark.",
        &NewRecord(|new, _, original| new.update_mark = original.update_mark),
    ),
    (
        Kind::Clones,
        "clone-list-mark",
        "A clone has the original's list mark.",
        &NewRecord(|new, _, original| new.list_mark = original.list_mark),
    ),
    (
        Kind::Clones,
        "clone-list",
        "A clone has the original's list.",
        &NewRecord(|new, _, original| {
            (new.count, new.addresses) = (original.count, original.addresses);
        }),
    ),
    (
        Kind::Clones,
        "clone-tally",
        "A clone has the original's tally.",
        &NewRecord(|new, _, original| new.unknown = original.unknown),
    ),
    (
        Kind::Clones,
        "clone-check",
        "A clone has the original's pending check.",
        &NewRecord(|new, _, original| new.check = original.check),
    ),
    (
        Kind::Clones,
        "clone-deletion-left",
        "A clone has the mark for being deleted that was left in its place.",
        &NewRecord(|new, left, _| new.deleting = left.deleting),
    ),
    (
        Kind::Clones,
        "clone-peer-lost",
        "A clone has no peer.",
        &NewRecord(|new, _, _| new.agreed.peer = 0),
    ),
    (
        Kind::Clones,
        "clone-cloning-lost",
        "A clone has no cloning agreed.",
        &NewRecord(|new, _, _| new.agreed.cloning = 0),
    ),
    (
        Kind::Clones,
        "clone-mobike-lost",
        "A clone has no MOBIKE agreed.",
        &NewRecord(|new, _, _| new.agreed.mobike = 0),
    ),
    (
        Kind::Clones,
        "clone-operator-lost",
        "A clone is A's, whosever the original is.",
        &NewRecord(|new, _, _| new.agreed.operator = 0),
    ),
    (
        Kind::Clones,
        "clone-operator-left",
        "A clone is the operator's that was left in its place.",
        &NewRecord(|new, left, _| new.agreed.operator = left.agreed.operator),
    ),
    (
        Kind::Clones,
        "clone-cloning-1",
        "A clone has 1 for cloning agreed, whatever octet said yes.",
        &NewRecord(|new, _, _| new.agreed.cloning = 1),
    ),
    (
        Kind::Clones,
        "clone-pair-zero",
        "A clone has no pair.",
        &NewRecord(|new, _, _| new.pair = IkeRecord::FREE.pair),
    ),
    (
        Kind::Clones,
        "clone-tallied",
        "What is unknown in the request is added to the original's tally.",
        &After(|after, summary, answer| {
            let unknown = summary.map_or(0, |it| it.unknown_payloads + it.unknown_notifies);
            if answer == &Answer::Done {
                after.unknown = after.unknown.saturating_add(unknown as u32);
            }
        }),
    ),
    (
        Kind::Clones,
        "clone-as-rekey",
        "The original is marked as being deleted, as with a rekey.",
        &After(|after, _, answer| after.deleting |= u8::from(answer == &Answer::Done)),
    ),
    (
        Kind::Clones,
        "clone-silent",
        "A clone that is done writes nothing, as RFC 7791 has it.",
        &Response(|response, answer| {
            if answer == &Answer::Done {
                *response = None;
            }
        }),
    ),
    (
        Kind::Clones,
        "clone-41-silent",
        "With 41 nothing is written.",
        &Response(|response, answer| {
            if answer == &Answer::Refused(Refusal::CannotCloneNow) {
                *response = None;
            }
        }),
    ),
    (
        Kind::Clones,
        "clone-errors-exchanged",
        "41 writes NO_ADDITIONAL_SAS, and 42 TEMPORARY_FAILURE.",
        &Response(|response, _| {
            let exchanged = |notify_type| match notify_type {
                NotifyType::TEMPORARY_FAILURE => NotifyType::NO_ADDITIONAL_SAS,
                NotifyType::NO_ADDITIONAL_SAS => NotifyType::TEMPORARY_FAILURE,
                other => other,
            };
            *response = response.take().map(|(notify_type, data)| (exchanged(notify_type), data));
        }),
    ),
    (
        Kind::Clones,
        "clone-numbers-written",
        "41 and 42 write the notify types of their own numbers.",
        &Response(|response, answer| match answer {
            Answer::Refused(refusal @ (Refusal::CannotCloneNow | Refusal::PeerAtLimit)) => {
                *response = Some((NotifyType(*refusal as u16), vec![]));
            }
            _ => {}
        }),
    ),
    (
        Kind::Clones,
        "clone-43-temporary",
        "With 43 TEMPORARY_FAILURE is written.",
        &Response(|response, answer| {
            if answer == &Answer::Refused(Refusal::OperatorAtShare) {
                *response = Some((NotifyType::TEMPORARY_FAILURE, vec![]));
            }
        }),
    ),
    (
        Kind::Clones,
        "clone-43-silent",
        "With 43 nothing is written.",
        &Response(|response, answer| {
            if answer == &Answer::Refused(Refusal::OperatorAtShare) {
                *response = None;
            }
        }),
    ),
    (
        Kind::Clones,
        "clone-11-written",
        "With 11 NO_ADDITIONAL_SAS is written.",
        &Response(|response, answer| {
            if answer == &Answer::Refused(Refusal::SpiInUse) {
                *response = Some((NotifyType::NO_ADDITIONAL_SAS, vec![]));
            }
        }),
    ),
    (
        Kind::Clones,
        "clone-44-written",
        "With 44 INVALID_SYNTAX is written.",
        &Response(|response, answer| {
            if answer == &Answer::Refused(Refusal::NoCloneRequest) {
                *response = Some((NotifyType::INVALID_SYNTAX, vec![]));
            }
        }),
    ),
    (
        Kind::Clones,
        "clone-44-uncounted",
        "With 44 no payloads are counted.",
        &Uncounted(&[Refusal::NoCloneRequest]),
    ),
    (
        Kind::Clones,
        "clone-43-uncounted",
        "With 43 no payloads are counted.",
        &Uncounted(&[Refusal::OperatorAtShare]),
    ),
    (Kind::Clones, "clone-no-ordinal", "With 61 to 65 and 7 the ordinal is 0.", &NoOrdinal),
    (Kind::Clones, "clone-rest-cleared", "The octets past the response are cleared.", &RestCleared),
];

struct Order(&'static [Check]);
impl CloneRules for Order {
    fn order(&self) -> &'static [Check] {
        self.0
    }
}

struct LeastOutput(usize);
impl CloneRules for LeastOutput {
    fn least_output(&self) -> usize {
        self.0
    }
}

struct Agreement(fn(&IkeRecord) -> u8);
impl CloneRules for Agreement {
    fn agreement(&self, record: &IkeRecord) -> u8 {
        self.0(record)
    }
}

struct IsAsked(fn(&Summary) -> bool);
impl CloneRules for IsAsked {
    fn is_asked(&self, summary: &Summary) -> bool {
        self.0(summary)
    }
}

struct AskedBeforeFlaws;
impl CloneRules for AskedBeforeFlaws {
    fn flawed(&self, flaw: Flaw, request: &CloneRequest) -> Answer {
        let notifies = notifies_in(request.first, &request.body);
        if notifies.iter().any(|it| it.notify_type == NotifyType::CLONE_IKE_SA) {
            Answer::Flawed(flaw)
        } else {
            Answer::Refused(Refusal::NoCloneRequest)
        }
    }
}

struct BeingDeleted(fn(u8) -> bool);
impl CloneRules for BeingDeleted {
    fn is_being_deleted(&self, record: &IkeRecord) -> bool {
        self.0(record.deleting)
    }
}

struct Most(usize);
impl CloneRules for Most {
    fn most_of_peer(&self) -> usize {
        self.0
    }
}

struct OfPeer(fn(&[IkeRecord; IKE_PLACES], usize, usize) -> bool);
impl CloneRules for OfPeer {
    fn is_of_peer(&self, records: &[IkeRecord; IKE_PLACES], meant: usize, place: usize) -> bool {
        self.0(records, meant, place)
    }
}

struct Used(fn(Option<&IkeRecord>, u64, &IkeRecord) -> bool);
impl CloneRules for Used {
    fn is_in_use(&self, meant: Option<&IkeRecord>, new_spi: u64, in_use: &IkeRecord) -> bool {
        self.0(meant, new_spi, in_use)
    }
}

/// Changes the clone, by what was left in its place and by the original.
struct NewRecord(fn(&mut IkeRecord, &IkeRecord, &IkeRecord));
impl CloneRules for NewRecord {
    fn new_record(&self, left: &IkeRecord, original: &IkeRecord, new_spi: u64) -> IkeRecord {
        let mut new = Plain.new_record(left, original, new_spi);
        self.0(&mut new, left, original);
        new
    }
}

/// Changes the original.
struct After(fn(&mut IkeRecord, Option<&Summary>, &Answer));
impl CloneRules for After {
    fn original_after(
        &self,
        original: &IkeRecord,
        summary: Option<&Summary>,
        answer: &Answer,
    ) -> IkeRecord {
        let mut after = *original;
        self.0(&mut after, summary, answer);
        after
    }
}

struct Response(fn(&mut Option<Notification>, &Answer));
impl CloneRules for Response {
    fn response(&self, answer: &Answer) -> Option<Notification> {
        let mut response = Plain.response(answer);
        self.0(&mut response, answer);
        response
    }
}

struct Uncounted(&'static [Refusal]);
impl CloneRules for Uncounted {
    fn payloads(&self, answer: &Answer, read: usize) -> usize {
        match answer {
            Answer::Refused(refusal) if self.0.contains(refusal) => 0,
            _ => Plain.payloads(answer, read),
        }
    }
}

struct NoOrdinal;
impl CloneRules for NoOrdinal {
    fn told_of_flaw(&self, flaw: &Flaw) -> CloneReply {
        CloneReply { ordinal: 0, ..Plain.told_of_flaw(flaw) }
    }
}

struct RestCleared;
impl CloneRules for RestCleared {
    fn output(&self, before: &[u8], response: &[u8]) -> Vec<u8> {
        Plain.output(&vec![0; before.len()], response)
    }
}
