// A request to clone an IKE SA: what it is given, its checks, what it gives back and writes, and the clone.
use crate::calls::{refuse_if, Refusal};
use crate::chain::Exchange;
use crate::flaws::Flaw;
use crate::notifications::{first_type, octets};
use crate::reader;
use crate::reply::written_and_rest;
use crate::rules::{ChainRules, CloneRules, Rules, TableRules};
use crate::show;
use crate::summary::Summary;
use crate::tables::{free_place, Record, Tables, IKE_PLACES};

/// A CREATE_CHILD_SA request given as an IKE rekey.
#[derive(Debug, Clone, PartialEq, Eq)]
pub struct CloneRequest {
    pub spi: u64,
    /// Of the clone.
    pub new_spi: u64,
    pub first: u8,
    pub body: Vec<u8>,
    pub operator: u8,
    /// What the output holds before the call.
    pub output: Vec<u8>,
}

#[derive(Debug, Clone, Copy, PartialEq, Eq)]
pub enum Check {
    /// 1, of the SPI.
    Spi,
    /// 1, of the new one.
    NewSpi,
    /// 1, of the operator.
    Operator,
    /// 2.
    Output,
    /// 3.
    Body,
    /// 4.
    Record,
    /// 40.
    Agreed,
    /// 61 to 65 and 7.
    Chain,
    /// 44.
    Asked,
    /// 41, of the record.
    Deleting,
    /// 41, of the table.
    Full,
    /// 42.
    Peer,
    /// 11.
    InUse,
    /// 43.
    Share,
}

/// What a request comes to.
#[derive(Debug, Clone, Copy, PartialEq, Eq)]
pub enum Answer {
    Done,
    Refused(Refusal),
    /// 61 to 65 or 7.
    Flawed(Flaw),
}

/// What is given back, in the form in which the two programs are compared.
#[derive(Debug, Clone, Copy, Default, PartialEq, Eq)]
pub struct CloneReply {
    pub number: u8,
    /// The response's first type.
    pub first: u8,
    pub payloads: usize,
    /// Told with 61 to 65 and 7.
    pub offset: usize,
    /// The payload's, told with these too.
    pub ordinal: usize,
    /// The response's length.
    pub length: usize,
}

/// A reply, with the whole output after the call.
#[derive(Debug, Clone, PartialEq, Eq)]
pub struct Cloned {
    pub reply: CloneReply,
    pub output: Vec<u8>,
}

impl Cloned {
    pub fn response(&self) -> &[u8] {
        written_and_rest(&self.output, self.reply.length).0
    }

    /// Every field by name, to be shown.
    pub fn fields(&self) -> Vec<(String, String)> {
        let CloneReply { number, first, payloads, offset, ordinal, length } = self.reply;
        let (response, rest) = written_and_rest(&self.output, length);
        let fields = [
            ("number", number.to_string()),
            ("payloads", payloads.to_string()),
            ("offset", offset.to_string()),
            ("ordinal", ordinal.to_string()),
            ("response's first type", first.to_string()),
            ("response's length", length.to_string()),
            ("response", show::hex(response)),
            ("rest of the output", show::hex(rest)),
        ];
        fields.map(|(name, value)| (name.to_string(), value)).to_vec()
    }
}

/// Clones the IKE SA, or refuses to; the IPsec list isn't looked at.
pub fn clone(request: &CloneRequest, tables: &mut Tables, rules: &impl Rules) -> Cloned {
    let of_clones = rules.clones();
    let named = rules.tables().named(request.operator);
    let meant = rules.tables().meant_of(&tables.ike.records, request.spi, named);
    let (answer, summary) = request.check(meant, tables, rules);
    let original = meant.map(|place| tables.ike.records[place]);
    if let (Some(place), Some(original)) = (meant, original) {
        let after = of_clones.original_after(&original, summary.as_ref(), &answer);
        if after != original {
            tables.ike_mut()[place] = after;
        }
    }
    let free = free_place(&tables.ike.records, rules.tables());
    if let (Answer::Done, Some(original), Some(place)) = (answer, original, free) {
        let left = tables.ike.records[place];
        tables.ike_mut()[place] = of_clones.new_record(&left, &original, request.new_spi);
    }
    let response = octets(of_clones.response(&answer).as_slice());
    let read = summary.map_or(0, |summary| summary.payloads);
    let told = match answer {
        Answer::Done => CloneReply::default(),
        Answer::Refused(refusal) => CloneReply { number: refusal as u8, ..CloneReply::default() },
        Answer::Flawed(flaw) => {
            let number = rules.chain().number(flaw.cause);
            CloneReply { number, ..of_clones.told_of_flaw(&flaw) }
        }
    };
    let (payloads, first) = (of_clones.payloads(&answer, read), first_type(&response));
    let reply = CloneReply { payloads, first, length: response.len(), ..told };
    Cloned { reply, output: of_clones.output(&request.output, &response) }
}

impl CloneRequest {
    /// The checks in their order, up to the first that fails; with what the chain says, if it was read.
    fn check(
        &self,
        meant: Option<usize>,
        tables: &Tables,
        rules: &impl Rules,
    ) -> (Answer, Option<Summary<'_>>) {
        let mut summary = None;
        for check in rules.clones().order() {
            if *check == Check::Chain {
                let read = reader::read_in(Exchange::Rekey, self.first, &self.body, rules.chain());
                if let reader::Answer::Flawed(flaw) = read.answer {
                    return (rules.clones().flawed(flaw, self), None);
                }
                summary = Some(read.summary);
            } else if let Err(refusal) =
                self.check_refusal(*check, meant, summary.as_ref(), tables, rules)
            {
                return (Answer::Refused(refusal), summary);
            }
        }
        (Answer::Done, summary)
    }

    /// Any check but that of the chain, with the place of the record that is meant.
    fn check_refusal(
        &self,
        check: Check,
        meant: Option<usize>,
        summary: Option<&Summary>,
        tables: &Tables,
        rules: &impl Rules,
    ) -> Result<(), Refusal> {
        let of_clones = rules.clones();
        let records = &tables.ike.records;
        let named = rules.tables().named(self.operator);
        let original = meant.map(|place| &records[place]);
        let is_agreed = original.is_some_and(|it| rules.tables().is_yes(of_clones.agreement(it)));
        match check {
            Check::Spi => refuse_if(self.spi == 0, Refusal::Argument),
            Check::NewSpi => refuse_if(self.new_spi == 0, Refusal::Argument),
            Check::Operator => refuse_if(named.is_none(), Refusal::Argument),
            Check::Output => {
                refuse_if(self.output.len() < of_clones.least_output(), Refusal::OutputTooShort)
            }
            Check::Body => {
                refuse_if(self.body.len() > rules.chain().longest_body(), Refusal::BodyTooLong)
            }
            Check::Record => refuse_if(meant.is_none(), Refusal::NoSuchRecord),
            Check::Agreed => refuse_if(!is_agreed, Refusal::CloningNotAgreed),
            // As the reader tells it.
            Check::Chain => Ok(()),
            Check::Asked => {
                let is_asked = summary.is_some_and(|summary| of_clones.is_asked(summary));
                refuse_if(!is_asked, Refusal::NoCloneRequest)
            }
            Check::Deleting => {
                let is_deleted = original.is_some_and(|it| of_clones.is_being_deleted(it));
                refuse_if(is_deleted, Refusal::CannotCloneNow)
            }
            Check::Full => {
                let is_full = free_place(records, rules.tables()).is_none();
                refuse_if(is_full, Refusal::CannotCloneNow)
            }
            Check::Peer => {
                let has = |meant| {
                    let is_of_peer = |&place: &usize| of_clones.is_of_peer(records, meant, place);
                    (0..IKE_PLACES).filter(is_of_peer).count()
                };
                let is_at_limit = meant.map_or(0, has) >= of_clones.most_of_peer();
                refuse_if(is_at_limit, Refusal::PeerAtLimit)
            }
            Check::InUse => {
                let mut in_use = records.iter().filter(|record| record.is_in_use());
                let is_in_use = in_use.any(|it| of_clones.is_in_use(original, self.new_spi, it));
                refuse_if(is_in_use, Refusal::SpiInUse)
            }
            Check::Share => {
                let is_at_share = rules.tables().ikes(records, named) >= rules.tables().ike_share();
                refuse_if(is_at_share, Refusal::OperatorAtShare)
            }
        }
    }

    /// Its arguments by name, to be shown.
    pub fn fields(&self) -> Vec<(String, String)> {
        let fields = [
            ("SPI", self.spi.to_string()),
            ("new SPI", self.new_spi.to_string()),
            ("operator", self.operator.to_string()),
            ("first type", self.first.to_string()),
            ("body length", self.body.len().to_string()),
            ("body", show::hex(&self.body)),
            ("output's length", self.output.len().to_string()),
            ("output before", show::hex(&self.output)),
        ];
        fields.map(|(name, value)| (name.to_string(), value)).to_vec()
    }
}

#[cfg(test)]
mod tests {
    use super::*;
    use crate::address::{Address, AddressPair};
    use crate::agreed::Agreed;
    use crate::pending::PendingCheck;
    use crate::rules::Plain;
    use crate::tables::{IkeRecord, IpsecRecord};

    const PAIR: AddressPair = AddressPair { family: 5, source_port: 1, ..AddressPair::ZERO };
    const AGREED: Agreed = Agreed { mobike: 3, cloning: 2, operator: 0, peer: 9 };
    const CLONE: [u8; 4] = [0, 0, 0x40, 0x31];
    const SUPPORTED: [u8; 4] = [0, 0, 0x40, 0x30];

    /// A leftover, a record with something in every field and an IPsec record of it.
    fn tables() -> Tables {
        let mut tables = Tables::empty();
        let address = Address { family: 4, octets: [1; 16] };
        let record = IkeRecord {
            spi: 7,
            agreed: AGREED,
            pair: PAIR,
            update_mark: 5,
            list_mark: 6,
            count: 2,
            addresses: [address; 16],
            unknown: 4,
            check: PendingCheck { length: 8, octets: [5; 64], id: 3 },
            deleting: 0,
        };
        tables.ike_mut()[0] = IkeRecord { spi: 0, deleting: 8, ..record };
        tables.ike_mut()[1] = record;
        tables.ipsec_mut()[0] = IpsecRecord { spi: 1, owner: 7, pair: PAIR };
        tables.ipsec_mut()[1] = IpsecRecord { spi: 2, owner: 8, pair: PAIR };
        tables
    }

    fn tables_with(change: impl Fn(&mut IkeRecord)) -> Tables {
        let mut tables = tables();
        change(&mut tables.ike_mut()[1]);
        tables
    }

    /// As many records of the peer as this, the original among them.
    fn with_peers(count: usize) -> Tables {
        let mut tables = tables();
        for place in 2..=count {
            let agreed = Agreed { peer: 9, ..Agreed::NOTHING };
            let (spi, deleting) = (100 + place as u64, place as u8);
            tables.ike_mut()[place] = IkeRecord { spi, agreed, deleting, ..IkeRecord::FREE };
        }
        tables
    }

    fn full() -> Tables {
        let mut tables = tables();
        let free = tables.ike_mut().iter_mut().zip(50..).filter(|(record, _)| record.spi == 0);
        free.for_each(|(record, spi)| record.spi = spi);
        tables
    }

    /// To clone 7 as 8, with these notifications, given without their headers, and an unknown payload.
    fn request(notifications: &[&[u8]]) -> CloneRequest {
        let mut body = Vec::new();
        for (place, content) in notifications.iter().enumerate() {
            let next = if place + 1 < notifications.len() { 41 } else { 200 };
            body.extend([next, 0, 0, 4 + content.len() as u8]);
            body.extend_from_slice(content);
        }
        body.extend([0, 0, 0, 4]);
        let first = if notifications.is_empty() { 200 } else { 41 };
        CloneRequest { spi: 7, new_spi: 8, first, body, operator: 0, output: vec![0xff; 128] }
    }

    /// The number, the count of payloads and the response; the rest of the output is as it was.
    fn made(tables: &mut Tables, request: &CloneRequest) -> (u8, usize, Vec<u8>) {
        let cloned = clone(request, tables, &Plain);
        let CloneReply { number, payloads, first, length, .. } = cloned.reply;
        assert_eq!(first, if length == 0 { 0 } else { 41 });
        assert_eq!(cloned.output[length..], request.output[length..]);
        (number, payloads, cloned.response().to_vec())
    }

    fn notify(notify_type: u8) -> Vec<u8> {
        vec![0, 0, 0, 8, 0, 0, 0, notify_type]
    }

    #[test]
    fn a_clone_has_the_pair_and_what_is_agreed_and_nothing_else_changes() {
        for length in [0, 127, 128, 129] {
            let mut tables = tables().with_ipsec_length(length);
            let mut expected = tables.clone();
            let done = vec![0, 0, 0, 8, 0, 0, 0x40, 0x31];
            assert_eq!(made(&mut tables, &request(&[&CLONE])), (0, 2, done.clone()));
            let record = IkeRecord { spi: 8, agreed: AGREED, pair: PAIR, ..IkeRecord::FREE };
            expected.ike_mut()[0] = record;
            assert_eq!(tables, expected);
            // A second one, of the clone too, takes the next free place.
            let again =
                CloneRequest { spi: 8, new_spi: 10, ..request(&[&SUPPORTED, &CLONE, &CLONE]) };
            assert_eq!(made(&mut tables, &again), (0, 4, done));
            expected.ike_mut()[2] = IkeRecord { spi: 10, ..record };
            assert_eq!(tables, expected);
        }
    }

    #[test]
    fn refusals_come_in_their_order_write_what_they_name_and_change_nothing() {
        let asked = request(&[&CLONE]);
        let flawed = CloneRequest { body: vec![0, 0, 0, 3], ..asked.clone() };
        let long = CloneRequest { body: vec![0; 4097], ..asked.clone() };
        let short = CloneRequest { output: vec![0xff; 127], ..long.clone() };
        let critical = CloneRequest { first: 199, body: vec![0, 0x80, 0, 4], ..asked.clone() };
        let own = CloneRequest { new_spi: 7, ..asked.clone() };
        let with = |spi, new_spi, of: &CloneRequest| CloneRequest { spi, new_spi, ..of.clone() };
        let unagreed = tables_with(|record| (record.agreed.cloning, record.deleting) = (0, 1));
        let deleted = tables_with(|record| record.deleting = 255);
        let critical_told = vec![0, 0, 0, 9, 0, 0, 0, 1, 199];
        let refused = [
            (tables(), with(0, 8, &short), 1, 0, vec![]),
            (tables(), with(7, 0, &short), 1, 0, vec![]),
            (tables(), with(9, 8, &short), 2, 0, vec![]),
            (tables(), with(9, 8, &long), 3, 0, vec![]),
            (tables(), with(9, 8, &flawed), 4, 0, vec![]),
            (unagreed, flawed.clone(), 40, 0, vec![]),
            (deleted.clone(), flawed, 61, 0, notify(7)),
            (deleted.clone(), request(&[&SUPPORTED, &[0, 1, 0x40, 0x31, 1, 1]]), 62, 0, notify(7)),
            (deleted.clone(), request(&[&[0, 0, 0x40, 0x31, 1]]), 63, 0, notify(7)),
            (deleted.clone(), request(&[&[0, 0, 0x40, 0x30, 1]]), 63, 0, notify(7)),
            (deleted.clone(), critical, 7, 0, critical_told),
            (deleted.clone(), with(7, 7, &request(&[&SUPPORTED])), 44, 2, vec![]),
            (deleted.clone(), with(7, 7, &request(&[])), 44, 1, vec![]),
            (deleted, own.clone(), 41, 2, notify(43)),
            (full(), own.clone(), 41, 2, notify(43)),
            (with_peers(4), own.clone(), 42, 2, notify(35)),
            (with_peers(31), own.clone(), 42, 2, notify(35)),
            (with_peers(3), own, 11, 2, vec![]),
            (with_peers(3), with(7, 103, &asked), 11, 2, vec![]),
        ];
        for (mut tables, request, number, payloads, response) in refused {
            let before = tables.clone();
            assert_eq!(made(&mut tables, &request), (number, payloads, response));
            assert_eq!(tables, before);
        }
    }

    #[test]
    fn a_share_and_a_peer_are_those_of_one_operator() {
        let asked = request(&[&CLONE]);
        // Of so many records of A and of B, which have the peer or haven't.
        let of_both = |of_a: usize, of_b: usize, peer: u32| {
            let mut tables = tables();
            for place in 2..=of_a + of_b {
                let operator = u8::from(place > of_a);
                let agreed = Agreed { operator, peer, ..Agreed::NOTHING };
                let spi = 100 + place as u64;
                tables.ike_mut()[place] = IkeRecord { spi, agreed, ..IkeRecord::FREE };
            }
            tables
        };
        let cases = [
            (of_both(19, 12, 8), 8, 0),
            (of_both(20, 11, 8), 8, 43),
            (of_both(21, 0, 8), 8, 43),
            (of_both(20, 11, 8), 7, 11),
            (of_both(20, 11, 8), 122, 11),
            (of_both(20, 11, 9), 8, 42),
            (of_both(3, 20, 9), 8, 0),
            (of_both(3, 20, 9), 104, 11),
        ];
        for (mut tables, new_spi, number) in cases {
            let before = tables.clone();
            let asked = CloneRequest { new_spi, ..asked.clone() };
            let response = match number {
                0 => vec![0, 0, 0, 8, 0, 0, 0x40, 0x31],
                42 | 43 => notify(35),
                _ => vec![],
            };
            let of_other = CloneRequest { operator: 1, ..asked.clone() };
            assert_eq!(made(&mut tables, &of_other), (4, 0, vec![]));
            let of_none = CloneRequest { operator: 2, ..asked.clone() };
            assert_eq!(made(&mut tables, &of_none), (1, 0, vec![]));
            assert_eq!(tables, before);
            assert_eq!(made(&mut tables, &asked), (number, 2, response));
            assert_eq!(tables == before, number != 0);
        }
    }

    #[test]
    fn a_flaw_is_told_at_its_offset_and_with_its_ordinal() {
        let flawed = request(&[&CLONE, &SUPPORTED, &[0, 0, 0x40, 0x31, 1]]);
        let CloneReply { number, offset, ordinal, .. } =
            clone(&flawed, &mut tables(), &Plain).reply;
        assert_eq!((number, offset, ordinal), (63, 16, 2));
    }

    #[test]
    fn a_peer_ends_with_four_records_and_mobike_is_not_asked_for() {
        let mut tables = tables_with(|record| record.agreed.mobike = 0);
        let numbers = [8, 10, 11, 12].map(|new_spi| {
            let request = CloneRequest { new_spi, ..request(&[&CLONE]) };
            made(&mut tables, &request).0
        });
        assert_eq!(numbers, [0, 0, 0, 42]);
    }
}
