// The sides: the programs on which a row's call is made.
use crate::job::Job;
use crate::told::Told;
use crate::{baseline, bit_by_bit, ours, second};

#[derive(Clone, Copy)]
pub enum Side {
    Ours,
    Second,
    Lean,
    /// It makes only the check of the policy.
    Bits,
}

impl Side {
    pub const ALL: [Side; 4] = [Side::Ours, Side::Second, Side::Lean, Side::Bits];

    pub fn name(self) -> &'static str {
        match self {
            Side::Ours => "ours",
            Side::Second => "second",
            Side::Lean => "lean",
            Side::Bits => "bits",
        }
    }

    pub fn named(name: &str) -> Option<Side> {
        Side::ALL.into_iter().find(|side| side.name() == name)
    }

    /// The uncounted call alone, if this side makes it.
    pub fn told(self, job: &Job) -> Option<Told> {
        match self {
            Side::Ours => Some(ours::told(job)),
            Side::Second => second::told(job),
            Side::Lean => Some(baseline::told(job)),
            Side::Bits => bit_by_bit::told(job),
        }
    }

    /// The call uncounted and then counted, if this side makes it.
    pub fn counted(self, job: &Job) -> Option<Told> {
        match self {
            Side::Ours => Some(ours::counted(job)),
            Side::Second => second::counted(job),
            Side::Lean => Some(baseline::counted(job)),
            Side::Bits => bit_by_bit::counted(job),
        }
    }
}
