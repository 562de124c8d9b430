// A row with what was measured of it.
use crate::callgrind;
use crate::rows::{Kind, Row};
use crate::side::Side;
use crate::timed::{self, Times};

pub struct Figure {
    pub row: Row,
    /// The instructions of each side.
    pub ours: u64,
    pub lean: u64,
    /// 0 for a decision on a redirect, which the second program does not make.
    pub second: u64,
    /// Of the policy check bit by bit; 0 for another call.
    pub bits: u64,
    /// For a policy check.
    pub times: Option<Times>,
}

impl Figure {
    pub fn of(valgrind: &str, row: Row) -> Result<Self, String> {
        let count = |side| callgrind::count(valgrind, &row.key, side);
        let bits = if row.kind == Kind::Policy { count(Side::Bits)? } else { 0 };
        let second = if row.kind == Kind::Redirect { 0 } else { count(Side::Second)? };
        let [ours, lean] = [count(Side::Ours)?, count(Side::Lean)?];
        let times = timed::time(&row);
        Ok(Figure { row, ours, lean, second, bits, times })
    }
}
