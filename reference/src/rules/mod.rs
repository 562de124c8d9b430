// The rules of the papers, part by part: each a small method with the sentence that it reads. A program is
// whatever gives a set of rules for each part; this one goes by the methods as they stand here.
mod chain;
mod checks;
mod clones;
mod operators;
mod orders;
mod parts;
mod policy;
mod redirects;
mod replay;
mod requests;
mod responses;
mod round_trips;
mod tables;
mod trace;
mod writer;

pub use chain::ChainRules;
pub use checks::CheckRules;
pub use clones::CloneRules;
pub use operators::OperatorRules;
pub use orders::OrderRules;
pub use parts::PartRules;
pub use policy::PolicyRules;
pub use redirects::RedirectRules;
pub use replay::ReplayRules;
pub use requests::RequestRules;
pub use responses::ResponseRules;
pub use round_trips::RoundTripRules;
pub use tables::TableRules;
pub use trace::TraceRules;
pub use writer::WriterRules;

/// The rules of every part.
pub trait Rules {
    type Chain: ChainRules + ?Sized;
    type Parts: PartRules + ?Sized;
    type Tables: TableRules + ?Sized;
    type Policy: PolicyRules + ?Sized;
    type Requests: RequestRules + ?Sized;
    type Checks: CheckRules + ?Sized;
    type Clones: CloneRules + ?Sized;
    type Orders: OrderRules + ?Sized;
    type Operators: OperatorRules + ?Sized;
    type Responses: ResponseRules + ?Sized;
    type Writer: WriterRules + ?Sized;
    type RoundTrips: RoundTripRules + ?Sized;
    type Redirects: RedirectRules + ?Sized;
    type Trace: TraceRules + ?Sized;
    type Replay: ReplayRules + ?Sized;

    fn chain(&self) -> &Self::Chain;
    fn parts(&self) -> &Self::Parts;
    fn tables(&self) -> &Self::Tables;
    fn policy(&self) -> &Self::Policy;
    fn requests(&self) -> &Self::Requests;
    fn checks(&self) -> &Self::Checks;
    fn clones(&self) -> &Self::Clones;
    fn orders(&self) -> &Self::Orders;
    fn operators(&self) -> &Self::Operators;
    fn responses(&self) -> &Self::Responses;
    fn writer(&self) -> &Self::Writer;
    fn round_trips(&self) -> &Self::RoundTrips;
    fn redirects(&self) -> &Self::Redirects;
    fn trace(&self) -> &Self::Trace;
    fn replay(&self) -> &Self::Replay;
}

/// The second program: every rule as it is read from the papers.
#[derive(Debug, Clone, Copy)]
pub struct Plain;

impl ChainRules for Plain {}
impl PartRules for Plain {}
impl TableRules for Plain {}
impl PolicyRules for Plain {}
impl RequestRules for Plain {}
impl CheckRules for Plain {}
impl CloneRules for Plain {}
impl OrderRules for Plain {}
impl OperatorRules for Plain {}
impl ResponseRules for Plain {}
impl WriterRules for Plain {}
impl RoundTripRules for Plain {}
impl RedirectRules for Plain {}
impl TraceRules for Plain {}
impl ReplayRules for Plain {}

impl Rules for Plain {
    type Chain = Plain;
    type Parts = Plain;
    type Tables = Plain;
    type Policy = Plain;
    type Requests = Plain;
    type Checks = Plain;
    type Clones = Plain;
    type Orders = Plain;
    type Operators = Plain;
    type Responses = Plain;
    type Writer = Plain;
    type RoundTrips = Plain;
    type Redirects = Plain;
    type Trace = Plain;
    type Replay = Plain;

    fn chain(&self) -> &Plain {
        self
    }

    fn parts(&self) -> &Plain {
        self
    }

    fn tables(&self) -> &Plain {
        self
    }

    fn policy(&self) -> &Plain {
        self
    }

    fn requests(&self) -> &Plain {
        self
    }

    fn checks(&self) -> &Plain {
        self
    }

    fn clones(&self) -> &Plain {
        self
    }

    fn orders(&self) -> &Plain {
        self
    }

    fn operators(&self) -> &Plain {
        self
    }

    fn responses(&self) -> &Plain {
        self
    }

    fn writer(&self) -> &Plain {
        self
    }

    fn round_trips(&self) -> &Plain {
        self
    }

    fn redirects(&self) -> &Plain {
        self
    }

    fn trace(&self) -> &Plain {
        self
    }

    fn replay(&self) -> &Plain {
        self
    }
}
