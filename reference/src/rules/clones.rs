// The rules of a request to clone an IKE SA: requests E8 and E9 of document 02, with RFC 7791.
use crate::calls::Refusal;
use crate::cloning::{Answer, Check, CloneReply, CloneRequest};
use crate::flaws::{Cause, Flaw};
use crate::notifications::Notification;
use crate::notify::NotifyType;
use crate::request::LEAST_OUTPUT;
use crate::summary::Summary;
use crate::tables::{IkeRecord, Record, IKE_PLACES};

pub trait CloneRules {
    /// "Refusals, in order: 1, 2, 3, 4, 40 support not agreed, 6, 7, 44 no CLONE_IKE_SA there, 41 being deleted or
    /// table full .., 42 .., 11". There is no 5. E9: "clones count", and 43 comes "after every 11".
    fn order(&self) -> &'static [Check] {
        use Check::{
            Agreed, Asked, Body, Chain, Deleting, Full, InUse, NewSpi, Operator, Output, Peer,
            Record, Share, Spi,
        };
        &[
            Spi, NewSpi, Operator, Output, Body, Record, Agreed, Chain, Asked, Deleting, Full,
            Peer, InUse, Share,
        ]
    }

    /// Document 01: 2 is "output under 128 octets", whatever is written.
    fn least_output(&self) -> usize {
        LEAST_OUTPUT
    }

    /// 40 is "support not agreed": of what is agreed, the octet that says it.
    fn agreement(&self, record: &IkeRecord) -> u8 {
        record.agreed.cloning
    }

    /// "6, 7, 44": of a chain that is flawed the flaw is told, whether or not CLONE_IKE_SA is there.
    fn flawed(&self, flaw: Flaw, _request: &CloneRequest) -> Answer {
        Answer::Flawed(flaw)
    }

    /// 44 is "no CLONE_IKE_SA there".
    fn is_asked(&self, summary: &Summary) -> bool {
        summary.clone
    }

    /// 41 is "being deleted". No paper decides which octets say so; every one but 0 by decision.
    fn is_being_deleted(&self, record: &IkeRecord) -> bool {
        record.deleting != 0
    }

    /// 42 is "peer has 4 records or more".
    fn most_of_peer(&self) -> usize {
        4
    }

    /// The same: whether the record at this place is one that the peer of the one at `meant` has. The original is one,
    /// and so is one that is being deleted; "A place is free when its SPI is 0", and then no record. E9: "peer limits
    /// are per operator".
    fn is_of_peer(&self, records: &[IkeRecord; IKE_PLACES], meant: usize, place: usize) -> bool {
        let (record, meant) = (&records[place].agreed, &records[meant].agreed);
        let is_in_use = records[place].is_in_use();
        is_in_use && record.peer == meant.peer && record.operator == meant.operator
    }

    /// Document 01: 11 is "SPI in use in that table", here of "a new SPI": of the original's too, and of the other
    /// operator's records.
    fn is_in_use(&self, _meant: Option<&IkeRecord>, new_spi: u64, in_use: &IkeRecord) -> bool {
        new_spi == in_use.spi
    }

    /// "The clone has a new SPI, the same pair, peer and agreements, no marks, an empty list, tally 0, no pending
    /// check", whatever was left in its place. Its agreements are the original's as they stand, octet for octet, and so
    /// is its operator.
    fn new_record(&self, _left: &IkeRecord, original: &IkeRecord, new_spi: u64) -> IkeRecord {
        let IkeRecord { agreed, pair, .. } = *original;
        IkeRecord { spi: new_spi, agreed, pair, ..IkeRecord::FREE }
    }

    /// "nothing else changes": the original stays as it is, though the chain has something to tally. With refusals too.
    fn original_after(
        &self,
        original: &IkeRecord,
        _summary: Option<&Summary>,
        _answer: &Answer,
    ) -> IkeRecord {
        *original
    }

    /// "Done writes CLONE_IKE_SA"; "41 .. (TEMPORARY_FAILURE, 43), 42 .. (NO_ADDITIONAL_SAS, 35)", "40 and 44 write
    /// nothing"; E9: with 43 "cloning then writes NO_ADDITIONAL_SAS"; document 01: 6 is INVALID_SYNTAX (7), 7 is
    /// UNSUPPORTED_CRITICAL_PAYLOAD (1), "data: its type", and of other numbers the response is "none".
    fn response(&self, answer: &Answer) -> Option<Notification> {
        match answer {
            Answer::Done => Some((NotifyType::CLONE_IKE_SA, vec![])),
            Answer::Flawed(Flaw { cause: Cause::UnknownCritical { payload_type }, .. }) => {
                Some((NotifyType::UNSUPPORTED_CRITICAL_PAYLOAD, vec![*payload_type]))
            }
            Answer::Flawed(_) => Some((NotifyType::INVALID_SYNTAX, vec![])),
            Answer::Refused(Refusal::CannotCloneNow) => {
                Some((NotifyType::TEMPORARY_FAILURE, vec![]))
            }
            Answer::Refused(Refusal::PeerAtLimit | Refusal::OperatorAtShare) => {
                Some((NotifyType::NO_ADDITIONAL_SAS, vec![]))
            }
            Answer::Refused(_) => None,
        }
    }

    /// Document 01: the count of payloads "is 0 with answers 1 to 7". No paper decides it of the others; with 40, for
    /// which nothing is read, 0, and with those that come behind the reading the chain's, by decision.
    fn payloads(&self, answer: &Answer, read: usize) -> usize {
        use Refusal::{CannotCloneNow, NoCloneRequest, OperatorAtShare, PeerAtLimit, SpiInUse};
        match answer {
            Answer::Done => read,
            Answer::Refused(NoCloneRequest | CannotCloneNow | PeerAtLimit) => read,
            Answer::Refused(SpiInUse | OperatorAtShare) => read,
            Answer::Refused(_) | Answer::Flawed(_) => 0,
        }
    }

    /// Document 01: "6 and 7 tell the payload's offset, other answers 0"; E4: "also give the payload's ordinal".
    fn told_of_flaw(&self, flaw: &Flaw) -> CloneReply {
        CloneReply { offset: flaw.offset, ordinal: flaw.ordinal, ..CloneReply::default() }
    }

    /// Document 01: "octets past the reported length are untouched".
    fn output(&self, before: &[u8], response: &[u8]) -> Vec<u8> {
        let mut output = before.to_vec();
        output.iter_mut().zip(response).for_each(|(place, &octet)| *place = octet);
        output
    }
}
