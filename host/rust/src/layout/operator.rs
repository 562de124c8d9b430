//! One of the operators that share a gateway.
use crate::limits::OPERATORS;

/// An operator, held as the octet that the C interface has, so that whatever octet stands there may be
/// looked at: [`A`](Operator::A) or [`B`](Operator::B). Any other is neither: no call takes it, and a record
/// that has it is nobody's.
#[repr(transparent)]
#[derive(Debug, Clone, Copy, Default, PartialEq, Eq)]
pub struct Operator(u8);

impl Operator {
    /// 0, which a host with one operator names everywhere.
    pub const A: Operator = Operator(0);
    /// 1.
    pub const B: Operator = Operator(1);
    /// Both.
    pub const ALL: [Operator; OPERATORS] = [Operator::A, Operator::B];
}

impl From<u8> for Operator {
    fn from(octet: u8) -> Self {
        Operator(octet)
    }
}

impl From<Operator> for u8 {
    fn from(operator: Operator) -> Self {
        operator.0
    }
}
