// Making the call of an entry on tables, and what the replay tells of it.
use super::entry::{self, Entry, Pair, Request, Rule};
use crate::address::AddressPair;
use crate::agreed::Agreed;
use crate::calls::Call;
use crate::check::{decide, CheckResponse};
use crate::cloning::{clone, CloneRequest};
use crate::handler::handle;
use crate::opening::Adding;
use crate::opening_both::Opening;
use crate::policy::{self, RuleList};
use crate::request;
use crate::rules::{ReplayRules, Rules};
use crate::tables::Tables;

/// What is told of a call; the outcomes as a reply has them.
#[derive(Debug, Clone, Copy, Default, PartialEq, Eq)]
pub struct Answer {
    pub number: u8,
    /// 0 none, 1 applied, 2 stale.
    pub update: u8,
    /// 0 none, 1 replaced, 2 stale.
    pub list: u8,
}

impl Entry {
    /// Makes the call of an entry that was read, so that its numbers have the room of their fields.
    pub fn make(&self, tables: &mut Tables, of: &impl Rules) -> Answer {
        let call = match self {
            Entry::Request(request) => return request.make(tables, of),
            Entry::CheckResponse { spi, id, first, body, operator } => {
                let (id, first, body) = (*id as u32, *first as u8, body.clone());
                let operator = of.replay().operator(*operator);
                let response = CheckResponse { spi: *spi, id, first, body, operator };
                return of.replay().answer_to_check(&decide(&response, tables, of));
            }
            Entry::Clone { spi, new_spi, first, body, operator } => {
                let (spi, new_spi, first) = (*spi, *new_spi, *first as u8);
                let (body, output) = (body.clone(), vec![0; of.replay().output_lent()]);
                let operator = of.replay().operator(*operator);
                let request = CloneRequest { spi, new_spi, first, body, operator, output };
                return of.replay().answer_to_clone(&clone(&request, tables, of));
            }
            Entry::OpenBoth(entry::Opening {
                spi,
                agreed,
                pair,
                child,
                peer,
                cloning,
                operator,
            }) => {
                let (mobike, cloning, peer) = (*agreed as u8, *cloning as u8, *peer as u32);
                let operator = of.replay().operator(*operator);
                let agreed = Agreed { mobike, cloning, operator, peer };
                let (pair, child) = (pair.narrow(), *child as u32);
                Call::OpenBoth(Opening { spi: *spi, agreed, pair, child })
            }
            Entry::MarkDeletion { spi, operator } => {
                Call::MarkDeletion { spi: *spi, operator: of.replay().operator(*operator) }
            }
            Entry::AddIpsec { spi, owner, operator } => {
                let operator = of.replay().operator(*operator);
                Call::OpenIpsec(Adding { spi: *spi as u32, owner: *owner, operator })
            }
            Entry::CloseIke { spi, operator } => {
                Call::CloseIke { spi: *spi, operator: of.replay().operator(*operator) }
            }
            Entry::CloseIpsec { spi, operator } => {
                Call::CloseIpsec { spi: *spi as u32, operator: of.replay().operator(*operator) }
            }
            Entry::Policy { count, rules, operator } => Call::SetPolicy {
                count: *count as u16,
                rules: Box::new(rule_list(rules)),
                operator: of.replay().operator(*operator),
            },
        };
        Answer { number: call.make(tables, of), ..Answer::default() }
    }
}

impl Request {
    fn make(&self, tables: &mut Tables, of: &impl Rules) -> Answer {
        let request = request::Request {
            spi: self.spi,
            id: self.id as u32,
            pair: self.pair.narrow(),
            nat_source: self.nat_source.clone(),
            nat_destination: self.nat_destination.clone(),
            first: self.first as u8,
            cookie: self.cookie.clone(),
            check_id: self.check_id as u32,
            operator: of.replay().operator(self.operator),
            body: self.body.clone(),
            output: vec![0; of.replay().output_lent()],
        };
        let reply = handle(&request, tables, of).reply;
        Answer { number: reply.number, update: reply.update, list: reply.list }
    }
}

impl Pair {
    fn narrow(&self) -> AddressPair {
        AddressPair {
            family: self.family as u8,
            source: self.source,
            destination: self.destination,
            source_port: self.source_port as u16,
            destination_port: self.destination_port as u16,
        }
    }
}

fn rule_list(rules: &entry::Rules) -> RuleList {
    let narrow = |rule: Rule| policy::Rule {
        family: rule.family as u8,
        source: rule.source,
        destination: rule.destination,
        source_length: rule.source_length as u8,
        destination_length: rule.destination_length as u8,
    };
    RuleList { rules: rules.map(narrow) }
}
