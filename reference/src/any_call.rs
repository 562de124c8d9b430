// Any call on the tables: those that open, close, mark and set, requests, check responses and requests to clone; and
// what it gives back.
use crate::asked::{Asked, Given};
use crate::calls::Call;
use crate::cloning::{clone, CloneRequest, Cloned};
use crate::rules::Rules;
use crate::table_fields::call_line;
use crate::tables::Tables;

#[derive(Debug, Clone)]
pub enum AnyCall {
    Table(Call),
    Asked(Asked),
    Clone(CloneRequest),
}

/// What is given back, with the whole output if there is any.
#[derive(Debug, Clone, PartialEq, Eq)]
pub enum Gave<'a> {
    Number(u8),
    Given(Given<'a>),
    Cloned(Cloned),
}

impl AnyCall {
    /// The operator that it names.
    pub fn operator(&self) -> u8 {
        match self {
            AnyCall::Table(call) => call.operator(),
            AnyCall::Asked(asked) => asked.operator(),
            AnyCall::Clone(request) => request.operator,
        }
    }

    /// The same, to be changed.
    pub fn operator_mut(&mut self) -> &mut u8 {
        match self {
            AnyCall::Table(call) => call.operator_mut(),
            AnyCall::Asked(asked) => asked.operator_mut(),
            AnyCall::Clone(request) => &mut request.operator,
        }
    }

    /// Makes the call by this program.
    pub fn make<'a>(&'a self, tables: &mut Tables, rules: &impl Rules) -> Gave<'a> {
        match self {
            AnyCall::Table(call) => Gave::Number(call.make(tables, rules)),
            AnyCall::Asked(asked) => Gave::Given(asked.make(tables, rules)),
            AnyCall::Clone(request) => Gave::Cloned(clone(request, tables, rules)),
        }
    }

    /// Its arguments by name, to be shown.
    pub fn fields(&self) -> Vec<(String, String)> {
        match self {
            AnyCall::Table(call) => vec![("call".to_string(), call_line(call))],
            AnyCall::Asked(asked) => asked.fields(),
            AnyCall::Clone(request) => request.fields(),
        }
    }
}

impl Gave<'_> {
    pub fn number(&self) -> u8 {
        match self {
            Gave::Number(number) => *number,
            Gave::Given(given) => given.number(),
            Gave::Cloned(cloned) => cloned.reply.number,
        }
    }

    /// Every field by name, to be shown.
    pub fn fields(&self) -> Vec<(String, String)> {
        match self {
            Gave::Number(number) => vec![("number".to_string(), number.to_string())],
            Gave::Given(given) => given.fields(),
            Gave::Cloned(cloned) => cloned.fields(),
        }
    }
}
