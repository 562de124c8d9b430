// A call of demand 3's lists: a request, or the response to a check; and what it gives back.
use crate::assess::Assessed;
use crate::check::{self, CheckResponse};
use crate::handler;
use crate::reply::Handled;
use crate::request::Request;
use crate::request_fields;
use crate::rules::Rules;
use crate::tables::Tables;

#[derive(Debug, Clone)]
pub enum Asked {
    Request(Request),
    Check(CheckResponse),
}

#[derive(Debug, Clone, PartialEq, Eq)]
pub enum Given<'a> {
    Handled(Handled<'a>),
    Assessed(Assessed<'a>),
}

impl Asked {
    pub fn spi(&self) -> u64 {
        match self {
            Asked::Request(request) => request.spi,
            Asked::Check(response) => response.spi,
        }
    }

    pub fn operator(&self) -> u8 {
        match self {
            Asked::Request(request) => request.operator,
            Asked::Check(response) => response.operator,
        }
    }

    /// The same, to be changed.
    pub fn operator_mut(&mut self) -> &mut u8 {
        match self {
            Asked::Request(request) => &mut request.operator,
            Asked::Check(response) => &mut response.operator,
        }
    }

    pub fn request(&self) -> Option<&Request> {
        match self {
            Asked::Request(request) => Some(request),
            Asked::Check(_) => None,
        }
    }

    /// What the output holds before the call; a check response has none.
    pub fn output(&self) -> &[u8] {
        self.request().map_or(&[], |request| &request.output)
    }

    /// Makes the call by this program.
    pub fn make<'a>(&'a self, tables: &mut Tables, rules: &impl Rules) -> Given<'a> {
        match self {
            Asked::Request(request) => Given::Handled(handler::handle(request, tables, rules)),
            Asked::Check(response) => Given::Assessed(check::decide(response, tables, rules)),
        }
    }

    /// Its arguments by name, to be shown.
    pub fn fields(&self) -> Vec<(String, String)> {
        match self {
            Asked::Request(request) => request_fields::of(request),
            Asked::Check(response) => request_fields::of_check(response),
        }
    }
}

impl Given<'_> {
    pub fn number(&self) -> u8 {
        match self {
            Given::Handled(handled) => handled.reply.number,
            Given::Assessed(assessed) => assessed.number,
        }
    }

    /// Whether another call gave the same answer, a cookie by its octets.
    pub fn same_answer(&self, other: &Given) -> bool {
        match (self, other) {
            (Given::Handled(one), Given::Handled(other)) => one.same_answer(other),
            (Given::Assessed(one), Given::Assessed(other)) => one == other,
            _ => false,
        }
    }

    pub fn response(&self) -> &[u8] {
        match self {
            Given::Handled(handled) => handled.response(),
            Given::Assessed(_) => &[],
        }
    }

    /// Whether the octets of the output after the response are what they were.
    pub fn leaves_rest(&self, before: &[u8]) -> bool {
        match self {
            Given::Handled(handled) => handled.leaves_rest(before),
            Given::Assessed(_) => true,
        }
    }

    /// Whether it tells an update that was applied.
    pub fn is_applied(&self) -> bool {
        matches!(self, Given::Handled(handled) if handled.reply.update == 1)
    }

    /// Every field by name, to be shown.
    pub fn fields(&self) -> Vec<(String, String)> {
        match self {
            Given::Handled(handled) => handled.fields(),
            Given::Assessed(assessed) => assessed.fields(),
        }
    }
}
