// A request as it is given: checks 1 to 7 in their order, and whether it is sound.
use crate::address::AddressPair;
use crate::calls::{refuse_if, Refusal, User};
use crate::flaws::Flaw;
use crate::reader::{self, Answer};
use crate::rules::{ChainRules, RequestRules, Rules, TableRules};
use crate::steps;
use crate::summary::Summary;
use crate::tables::Tables;

pub const NAT_VALUE_LENGTH: usize = 20;

/// The longest response: two NAT detection values and a cookie.
pub const LEAST_OUTPUT: usize = 128;

#[derive(Debug, Clone)]
pub struct Request {
    pub spi: u64,
    pub id: u32,
    /// The packet's.
    pub pair: AddressPair,
    /// The NAT detection values that the host lends.
    pub nat_source: Vec<u8>,
    pub nat_destination: Vec<u8>,
    /// For the check of an update that is applied: the cookie of our request, and its ID.
    pub cookie: Vec<u8>,
    pub check_id: u32,
    pub operator: u8,
    pub first: u8,
    pub body: Vec<u8>,
    /// What the output holds before the call.
    pub output: Vec<u8>,
}

#[derive(Debug, Clone, Copy, PartialEq, Eq)]
pub enum Check {
    /// 1, of all but the IPsec list.
    Argument,
    /// 1, of the IPsec list.
    List,
    /// 2.
    Output,
    /// 3.
    Body,
    /// 4.
    Record,
    /// 5.
    Agreed,
    /// 61 to 65 and 7.
    Chain,
}

/// A request that passed the checks: its record's place, and what its chain says.
pub struct Passed<'a> {
    pub place: usize,
    pub summary: Summary<'a>,
}

/// The first check that fails.
pub enum Failed {
    /// 1 to 5.
    Refused(Refusal),
    /// 61 to 65 or 7.
    Flawed(Flaw),
}

impl From<Refusal> for Failed {
    fn from(refusal: Refusal) -> Self {
        Failed::Refused(refusal)
    }
}

impl Request {
    /// Checks 1 to 7 in their order, 61 to 65 in the place of 6, and these and 7 as the reader tells them.
    pub fn check(&self, tables: &Tables, rules: &impl Rules) -> Result<Passed<'_>, Failed> {
        let named = rules.tables().named(self.operator);
        let place = rules.tables().meant_of(&tables.ike.records, self.spi, named);
        let mut summary = None;
        for check in rules.requests().order() {
            match check {
                Check::Chain => summary = Some(self.summary(rules)?),
                _ => self.check_refusal(*check, place, tables, rules)?,
            }
        }
        let place = place.expect("check 4 passed");
        Ok(Passed { place, summary: summary.expect("the chain was checked") })
    }

    /// What the chain says, unless 61 to 65 or 7 is told of it.
    fn summary(&self, rules: &impl Rules) -> Result<Summary<'_>, Failed> {
        let reading = reader::read(self.first, &self.body, rules.chain());
        match reading.answer {
            Answer::Flawed(flaw) => Err(Failed::Flawed(flaw)),
            Answer::Read | Answer::BodyTooLong => Ok(reading.summary),
        }
    }

    /// One of 1 to 5, with the place of the record that is meant.
    fn check_refusal(
        &self,
        check: Check,
        place: Option<usize>,
        tables: &Tables,
        rules: &impl Rules,
    ) -> Result<(), Refusal> {
        let (of_tables, list) = (rules.tables(), tables.ipsec.records.len());
        let is_agreed = |place: usize| of_tables.is_yes(tables.ike.records[place].agreed.mobike);
        let longest = rules.chain().longest_body();
        match check {
            Check::Argument => refuse_if(!self.has_sound_arguments(rules), Refusal::Argument),
            Check::List => {
                refuse_if(!of_tables.allows_list(User::Handler, list), Refusal::Argument)
            }
            Check::Output => refuse_if(self.output.len() < LEAST_OUTPUT, Refusal::OutputTooShort),
            Check::Body => refuse_if(self.body.len() > longest, Refusal::BodyTooLong),
            Check::Record => refuse_if(place.is_none(), Refusal::NoSuchRecord),
            Check::Agreed => refuse_if(!place.is_some_and(is_agreed), Refusal::MobikeNotAgreed),
            // As `summary` tells it.
            Check::Chain => Ok(()),
        }
    }

    /// 1: "family not 4 or 6, IPv4 tail not zero, an SPI of 0, .. a lent NAT value not of 20 octets"; E6: "1 for
    /// another cookie length"; an operator that there isn't is 1 by decision.
    fn has_sound_arguments(&self, rules: &impl Rules) -> bool {
        self.spi != 0
            && rules.tables().is_pair_sound(&self.pair)
            && rules.requests().allows_values(&self.nat_source, &self.nat_destination)
            && rules.requests().allows_cookie(self)
            && rules.tables().named(self.operator).is_some()
    }

    /// "A request is sound if checks 1 to 7 pass and, where it carries an update, those of 8 and 9 would pass too,
    /// whatever the mark."
    pub fn is_sound(&self, tables: &Tables, rules: &impl Rules) -> bool {
        self.check(tables, rules).is_ok_and(|passed| {
            !passed.summary.update || steps::is_fit(self, &passed, tables, rules).is_ok()
        })
    }
}
