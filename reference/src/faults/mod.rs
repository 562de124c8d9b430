// Deliberate faults of this program, to show that the comparison would find such ones. A comparison that would not
// notice a fault in one program would not notice it in the other.
//
// How this is to grow: a new rule is a method of a trait in `rules/`, with the sentence that it reads; its fault is a
// struct in the file of its part here, which overrides that method alone, and a row in that file's table. Each rule has
// one, and a second one only where it can be wrong in another way that other cases have to find. A fault that no case
// finds shows a hole in the cases, and one that differs from another in no case shows nothing; tests look for both, for
// rules without a fault, and for faults of more than one rule. What a fault needs beside its rule is made here, and
// nothing of it in the program.
mod chain;
mod checks;
mod clones;
mod operators;
mod orders;
mod parts;
mod policy;
mod redirects;
mod replay;
mod requests;
mod responses;
mod round_trips;
mod tables;
mod trace;
mod writer;

use crate::kind::Kind;
use crate::rules::{
    ChainRules, CheckRules, CloneRules, OperatorRules, OrderRules, PartRules, Plain, PolicyRules,
    RedirectRules, ReplayRules, RequestRules, ResponseRules, RoundTripRules, Rules, TableRules,
    TraceRules, WriterRules,
};

/// A row of a part's table: the kind of cases that must find the fault, its name, what is wrong, and the wrong rules.
type Row<R> = (Kind, &'static str, &'static str, &'static R);

/// A fault by its name.
#[derive(Clone, Copy)]
pub struct Fault {
    /// The kind of cases that must find it.
    pub kind: Kind,
    pub name: &'static str,
    /// What is wrong, in a line.
    pub wrong: &'static str,
    /// The program that has it.
    pub program: Faulty,
}

impl Fault {
    /// All faults, by kind.
    pub fn all() -> impl Iterator<Item = Fault> {
        Kind::ALL.into_iter().flat_map(Self::of_kind)
    }

    fn of_kind(kind: Kind) -> impl Iterator<Item = Fault> {
        of_every_part().into_iter().filter(move |fault| fault.kind == kind)
    }

    pub fn named(name: &str) -> Option<Fault> {
        Self::all().find(|fault| fault.name == name)
    }
}

fn of_every_part() -> Vec<Fault> {
    let sound = Faulty::NOWHERE;
    let mut faults = Vec::new();
    faults.extend(of_part(chain::FAULTS, |chain| Faulty { chain, ..sound }));
    faults.extend(of_part(parts::FAULTS, |parts| Faulty { parts, ..sound }));
    faults.extend(of_part(tables::FAULTS, |tables| Faulty { tables, ..sound }));
    faults.extend(of_part(policy::FAULTS, |policy| Faulty { policy, ..sound }));
    faults.extend(of_part(requests::FAULTS, |requests| Faulty { requests, ..sound }));
    faults.extend(of_part(checks::FAULTS, |checks| Faulty { checks, ..sound }));
    faults.extend(of_part(clones::FAULTS, |clones| Faulty { clones, ..sound }));
    faults.extend(of_part(orders::FAULTS, |orders| Faulty { orders, ..sound }));
    faults.extend(of_part(operators::FAULTS, |operators| Faulty { operators, ..sound }));
    faults.extend(of_part(responses::FAULTS, |responses| Faulty { responses, ..sound }));
    faults.extend(of_part(writer::FAULTS, |writer| Faulty { writer, ..sound }));
    faults.extend(of_part(round_trips::FAULTS, |round_trips| Faulty { round_trips, ..sound }));
    faults.extend(of_part(redirects::FAULTS, |redirects| Faulty { redirects, ..sound }));
    faults.extend(of_part(trace::FAULTS, |trace| Faulty { trace, ..sound }));
    faults.extend(of_part(replay::FAULTS, |replay| Faulty { replay, ..sound }));
    faults
}

fn of_part<R: ?Sized>(
    rows: &'static [Row<R>],
    program: impl Fn(&'static R) -> Faulty,
) -> impl Iterator<Item = Fault> {
    rows.iter().map(move |&(kind, name, wrong, rules)| {
        let program = program(rules);
        Fault { kind, name, wrong, program }
    })
}

/// A program of which one part has other rules. They are trait objects, so that the program is compiled once for all
/// faults together.
#[derive(Clone, Copy)]
pub struct Faulty {
    chain: &'static dyn ChainRules,
    parts: &'static dyn PartRules,
    tables: &'static dyn TableRules,
    policy: &'static dyn PolicyRules,
    requests: &'static dyn RequestRules,
    checks: &'static dyn CheckRules,
    clones: &'static dyn CloneRules,
    orders: &'static dyn OrderRules,
    operators: &'static dyn OperatorRules,
    responses: &'static dyn ResponseRules,
    writer: &'static dyn WriterRules,
    round_trips: &'static dyn RoundTripRules,
    redirects: &'static dyn RedirectRules,
    trace: &'static dyn TraceRules,
    replay: &'static dyn ReplayRules,
}

impl Faulty {
    /// The rules of the papers in every part.
    const NOWHERE: Faulty = Faulty {
        chain: &Plain,
        parts: &Plain,
        tables: &Plain,
        policy: &Plain,
        requests: &Plain,
        checks: &Plain,
        clones: &Plain,
        orders: &Plain,
        operators: &Plain,
        responses: &Plain,
        writer: &Plain,
        round_trips: &Plain,
        redirects: &Plain,
        trace: &Plain,
        replay: &Plain,
    };
}

impl Rules for Faulty {
    type Chain = dyn ChainRules;
    type Parts = dyn PartRules;
    type Tables = dyn TableRules;
    type Policy = dyn PolicyRules;
    type Requests = dyn RequestRules;
    type Checks = dyn CheckRules;
    type Clones = dyn CloneRules;
    type Orders = dyn OrderRules;
    type Operators = dyn OperatorRules;
    type Responses = dyn ResponseRules;
    type Writer = dyn WriterRules;
    type RoundTrips = dyn RoundTripRules;
    type Redirects = dyn RedirectRules;
    type Trace = dyn TraceRules;
    type Replay = dyn ReplayRules;

    fn chain(&self) -> &Self::Chain {
        self.chain
    }

    fn parts(&self) -> &Self::Parts {
        self.parts
    }

    fn tables(&self) -> &Self::Tables {
        self.tables
    }

    fn policy(&self) -> &Self::Policy {
        self.policy
    }

    fn requests(&self) -> &Self::Requests {
        self.requests
    }

    fn checks(&self) -> &Self::Checks {
        self.checks
    }

    fn clones(&self) -> &Self::Clones {
        self.clones
    }

    fn orders(&self) -> &Self::Orders {
        self.orders
    }

    fn operators(&self) -> &Self::Operators {
        self.operators
    }

    fn responses(&self) -> &Self::Responses {
        self.responses
    }

    fn writer(&self) -> &Self::Writer {
        self.writer
    }

    fn round_trips(&self) -> &Self::RoundTrips {
        self.round_trips
    }

    fn redirects(&self) -> &Self::Redirects {
        self.redirects
    }

    fn trace(&self) -> &Self::Trace {
        self.trace
    }

    fn replay(&self) -> &Self::Replay {
        self.replay
    }
}

#[cfg(test)]
mod tests;
