// The kinds that this program runs, and the cases of each.
use crate::assess;
use crate::checks;
use crate::clones;
use crate::entries;
use crate::isolation;
use crate::orders;
use crate::reader;
use crate::redirects;
use crate::report::Detail;
use crate::requests;
use crate::round_trips;
use crate::shares;
use crate::tables;
use crate::traces;
use crate::writer;
use reference::cases::assess::AssessCases;
use reference::cases::checks::ChecksCases;
use reference::cases::clones::ClonesCases;
use reference::cases::entries::EntriesCases;
use reference::cases::isolation::IsolationCases;
use reference::cases::orders::OrdersCases;
use reference::cases::reader::ReaderCases;
use reference::cases::redirects::RedirectsCases;
use reference::cases::requests::RequestsCases;
use reference::cases::round_trips::RoundTripsCases;
use reference::cases::shares::SharesCases;
use reference::cases::tables::TablesCases;
use reference::cases::traces::TracesCases;
use reference::cases::writer::WriterCases;
use reference::kind::Kind;
use reference::rules::{Plain, Rules};
use std::io;

/// The kinds of the library's calls, in the order in which they take turns in a run of all.
const OF_CALLS: [Kind; 23] = [
    Kind::Reader,
    Kind::Requests,
    Kind::Tables,
    Kind::Assess,
    Kind::Reader,
    Kind::Requests,
    Kind::Tables,
    Kind::Assess,
    Kind::Checks,
    Kind::Clones,
    Kind::Requests,
    Kind::Orders,
    Kind::Writer,
    Kind::RoundTrips,
    Kind::Checks,
    Kind::Clones,
    Kind::Writer,
    Kind::RoundTrips,
    Kind::Entries,
    Kind::Assess,
    Kind::RoundTrips,
    Kind::Entries,
    Kind::Redirects,
];

/// The turns of all kinds, in two halves. A trace has one in each, since a program is started for each, which is enough
/// for a run of the gate to come to the end of those that are listed. Whole runs of two operators have one in either,
/// since they are long.
pub fn turns() -> Vec<Kind> {
    let half = |of_runs: Kind| [&OF_CALLS[..], &[Kind::Traces, of_runs]].concat();
    [half(Kind::Isolation), half(Kind::Shares)].concat()
}

pub fn named(name: &str) -> Option<Kind> {
    turns().into_iter().find(|kind| kind.name() == name)
}

/// What came of one case.
pub struct Verdict {
    pub agrees: bool,
    /// The case's input and fields, as far as they were asked for.
    pub shown: String,
}

impl Verdict {
    /// With these lines, if the case is shown at all.
    pub fn of(agrees: bool, detail: Detail, lines: impl FnOnce() -> Vec<String>) -> Self {
        let shown = if detail.shows(agrees) { lines().join("\n") } else { String::new() };
        Verdict { agrees, shown }
    }
}

/// The cases of one seed, of every kind.
pub struct Cases {
    reader: ReaderCases,
    tables: TablesCases,
    requests: RequestsCases,
    checks: ChecksCases,
    clones: ClonesCases,
    orders: OrdersCases,
    isolation: IsolationCases,
    shares: SharesCases,
    assess: AssessCases,
    writer: WriterCases,
    round_trips: RoundTripsCases,
    redirects: RedirectsCases,
    traces: TracesCases,
    entries: EntriesCases,
}

impl Cases {
    pub fn new(seed: u64) -> Self {
        Cases {
            reader: ReaderCases::new(seed),
            tables: TablesCases::new(seed),
            requests: RequestsCases::new(seed),
            checks: ChecksCases::new(seed),
            clones: ClonesCases::new(seed),
            orders: OrdersCases::new(seed),
            isolation: IsolationCases::new(seed),
            shares: SharesCases::new(seed),
            assess: AssessCases::new(seed),
            writer: WriterCases::new(seed),
            round_trips: RoundTripsCases::new(seed),
            redirects: RedirectsCases::new(seed),
            traces: TracesCases::new(seed),
            entries: EntriesCases::new(seed),
        }
    }

    /// Whether the case can tell a program with these rules from a sound one. Of a trace this is found
    /// without starting a program; other cases are just run.
    pub fn may_tell(&self, kind: Kind, number: u64, rules: &impl Rules) -> bool {
        if kind != Kind::Traces {
            return true;
        }
        let case = self.traces.case(number);
        case.printed(rules) != case.printed(&Plain)
    }

    pub fn run(
        &self,
        kind: Kind,
        number: u64,
        rules: &impl Rules,
        detail: Detail,
    ) -> io::Result<Verdict> {
        Ok(match kind {
            Kind::Reader => reader::run(self.reader.case(number), rules, detail),
            Kind::Tables => tables::run(self.tables.case(number), rules, detail),
            Kind::Requests => requests::run(self.requests.case(number), rules, detail),
            Kind::Checks => checks::run(self.checks.case(number), rules, detail),
            Kind::Clones => clones::run(self.clones.case(number), rules, detail),
            Kind::Orders => orders::run(self.orders.case(number), rules, detail),
            Kind::Isolation => isolation::run(self.isolation.case(number), rules, detail),
            Kind::Shares => shares::run(self.shares.case(number), rules, detail),
            Kind::Assess => assess::run(self.assess.case(number), rules, detail),
            Kind::Writer => writer::run(self.writer.case(number), rules, detail),
            Kind::RoundTrips => round_trips::run(self.round_trips.case(number), rules, detail),
            Kind::Redirects => redirects::run(self.redirects.case(number), rules, detail),
            Kind::Traces => traces::run(self.traces.case(number), rules, detail)?,
            Kind::Entries => entries::run(self.entries.case(number), rules, detail),
        })
    }
}
