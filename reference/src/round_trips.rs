// Round trips: a request that is written and then read, and a chain that is read and then written.
use crate::address::{Address, AddressPair};
use crate::agreed::Agreed;
use crate::asking::{Arguments, Ask, LEAST_OUTPUT};
use crate::cloning::{clone, CloneReply, CloneRequest};
use crate::outcome::Outcome;
use crate::reader;
use crate::request;
use crate::rules::{RoundTripRules, Rules};
use crate::show;
use crate::summary::MAX_KEPT;
use crate::tables::{IkeRecord, Record, Tables};
use crate::writer::{self, Written};

/// A program's reader and writer.
pub trait Program {
    fn read<'a>(&self, first: u8, body: &'a [u8]) -> Outcome<'a>;
    fn write(&self, arguments: &Arguments) -> Written;
    /// What a request to clone gives back.
    fn clone(&self, request: &CloneRequest, tables: &mut Tables) -> CloneReply;

    /// The number and the count of payloads of a request to clone that has this chain and in which nothing else can be
    /// refused: what is told of a chain in the clone's reading.
    fn in_rekey(&self, first: u8, body: &[u8]) -> (u8, usize) {
        let mut tables = Tables::empty();
        let agreed = Agreed { cloning: 1, ..Agreed::NOTHING };
        tables.ike_mut()[0] = IkeRecord { spi: 7, agreed, ..IkeRecord::FREE };
        let (body, output) = (body.to_vec(), vec![0x5a; request::LEAST_OUTPUT]);
        let request = CloneRequest { spi: 7, new_spi: 8, first, body, operator: 0, output };
        let CloneReply { number, payloads, .. } = self.clone(&request, &mut tables);
        (number, payloads)
    }
}

/// This program.
pub struct Model<'r, R>(pub &'r R);

impl<R: Rules> Program for Model<'_, R> {
    fn read<'a>(&self, first: u8, body: &'a [u8]) -> Outcome<'a> {
        Outcome::of(&reader::read(first, body, self.0.chain()), body, self.0)
    }

    fn write(&self, arguments: &Arguments) -> Written {
        writer::write(arguments, self.0.writer())
    }

    fn clone(&self, request: &CloneRequest, tables: &mut Tables) -> CloneReply {
        clone(request, tables, self.0).reply
    }
}

/// What was asked for, or what was read: every argument, empty or 0 where it is absent.
#[derive(Debug, Clone, Default, PartialEq, Eq)]
pub struct Content {
    /// The reader's answer.
    pub number: u8,
    pub payloads: usize,
    /// Unknown payloads and notifications.
    pub unknown: usize,
    pub update: u8,
    pub no_additional: u8,
    pub no_nats: bool,
    pub pair: AddressPair,
    pub nat_source: Vec<u8>,
    pub nat_destination: Vec<u8>,
    pub addresses: usize,
    pub families: [u8; MAX_KEPT],
    pub list: [Address; MAX_KEPT],
    pub cookie: Vec<u8>,
    /// In the clone's reading, the number and the count of payloads.
    pub in_rekey: (u8, usize),
}

impl Content {
    fn read(outcome: &Outcome, in_rekey: (u8, usize)) -> Self {
        Content {
            number: outcome.number,
            payloads: outcome.payloads,
            unknown: outcome.unknown_payloads + outcome.unknown_notifies,
            update: outcome.update,
            no_additional: outcome.no_additional,
            no_nats: outcome.no_nats.length != 0,
            pair: outcome.no_nats_pair,
            nat_source: outcome.nat_source.octets.to_vec(),
            nat_destination: outcome.nat_destination.octets.to_vec(),
            addresses: outcome.addresses,
            families: outcome.address_families,
            list: outcome.address_list,
            cookie: outcome.cookie.octets.to_vec(),
            in_rekey,
        }
    }

    /// Of arguments that pass the writer's checks.
    fn asked(arguments: &Arguments, rules: &(impl RoundTripRules + ?Sized)) -> Self {
        let Ask { update, no_nats, nat_source, nat_destination, no_additional, count, .. } =
            arguments.ask;
        let payloads = rules.asked_payloads(arguments);
        let list = rules.asked_list(arguments);
        Content {
            number: 0,
            payloads,
            unknown: rules.asked_unknown(&arguments.ask),
            update: u8::from(update),
            no_additional: u8::from(no_additional),
            no_nats,
            pair: rules.asked_pair(arguments),
            nat_source: rules.asked_value(nat_source, &arguments.nat_source),
            nat_destination: rules.asked_value(nat_destination, &arguments.nat_destination),
            addresses: usize::from(count),
            families: list.map(|address| address.family),
            list,
            cookie: arguments.cookie.clone(),
            in_rekey: (rules.asked_in_rekey(&arguments.ask), payloads),
        }
    }

    /// Every field by name, to be shown.
    pub fn fields(&self) -> Vec<(String, String)> {
        let fields = [
            ("number", self.number.to_string()),
            ("payloads", self.payloads.to_string()),
            ("unknown", self.unknown.to_string()),
            ("update", self.update.to_string()),
            ("no additional addresses", self.no_additional.to_string()),
            ("no NATs allowed", self.no_nats.to_string()),
            ("no NATs allowed, pair", show::pair(&self.pair)),
            ("NAT source", show::hex(&self.nat_source)),
            ("NAT destination", show::hex(&self.nat_destination)),
            ("additional addresses", self.addresses.to_string()),
            ("families", show::hex(&self.families)),
            ("cookie", show::hex(&self.cookie)),
            ("number in the clone's reading", self.in_rekey.0.to_string()),
            ("payloads in the clone's reading", self.in_rekey.1.to_string()),
        ];
        let mut fields = fields.map(|(name, value)| (name.to_string(), value)).to_vec();
        let list = self.list.iter().map(show::address).enumerate();
        fields.extend(list.map(|(place, address)| (format!("address list {place}"), address)));
        fields
    }
}

/// What reading what was written must give: what was asked for, and none if it isn't written.
pub fn expected(arguments: &Arguments, rules: &impl Rules) -> Option<Content> {
    let asked = || Content::asked(arguments, rules.round_trips());
    arguments.check(rules.writer()).is_ok().then(asked)
}

/// What the program reads of what it writes; none if it doesn't write it.
pub fn written_and_read(program: &impl Program, arguments: &Arguments) -> Option<Content> {
    let written = program.write(arguments);
    let (first, octets) = (written.first, written.octets());
    let read = || Content::read(&program.read(first, octets), program.in_rekey(first, octets));
    (written.number == 0).then(read)
}

/// Whether the program reads the chain and, asked for what it read, writes the same chain.
pub fn is_written_again(program: &impl Program, first: u8, body: &[u8]) -> bool {
    let outcome = program.read(first, body);
    if outcome.number != 0 {
        return false;
    }
    let written = program.write(&asking_again(&outcome));
    written.number == 0 && written.first == first && written.octets() == body
}

/// Whether the program clones by this chain, which is of one payload, and writes the same one where it is asked for
/// CLONE_IKE_SA.
pub fn is_clone_written_again(program: &impl Program, first: u8, body: &[u8]) -> bool {
    if program.in_rekey(first, body) != (0, 1) {
        return false;
    }
    let nothing = asking_again(&Outcome::default());
    let ask = Ask { clone: true, ..Ask::default() };
    let written = program.write(&Arguments { ask, ..nothing });
    written.number == 0 && written.first == first && written.octets() == body
}

/// Asks for all that was read, and for nothing else.
fn asking_again(outcome: &Outcome) -> Arguments {
    Arguments {
        ask: Ask {
            update: outcome.update != 0,
            no_nats: outcome.no_nats.length != 0,
            nat_source: outcome.nat_source.length != 0,
            nat_destination: outcome.nat_destination.length != 0,
            no_additional: outcome.no_additional != 0,
            count: outcome.addresses as u16,
            ..Ask::default()
        },
        pair: outcome.no_nats_pair,
        addresses: outcome.address_list,
        nat_source: outcome.nat_source.octets.to_vec(),
        nat_destination: outcome.nat_destination.octets.to_vec(),
        cookie: outcome.cookie.octets.to_vec(),
        output: vec![0x5a; LEAST_OUTPUT],
    }
}
