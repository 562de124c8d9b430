// Each fault shows in some case of its kind, and no two faults of a kind show the same in all.
use super::*;
use crate::assess::assess;
use crate::cases::assess::{self, AssessCases};
use crate::cases::checks::{self, ChecksCases};
use crate::cases::clones::{self, ClonesCases};
use crate::cases::entries::EntriesCases;
use crate::cases::isolation::IsolationCases;
use crate::cases::orders::{self, OrdersCases};
use crate::cases::reader::ReaderCases;
use crate::cases::redirects::RedirectsCases;
use crate::cases::requests::{self, RequestsCases};
use crate::cases::round_trips::RoundTripsCases;
use crate::cases::shares::SharesCases;
use crate::cases::tables::TablesCases;
use crate::cases::traces::TracesCases;
use crate::cases::writer::WriterCases;
use crate::check::decide;
use crate::cloning::clone;
use crate::handler::handle;
use crate::isolation;
use crate::orders::broken;
use crate::outcome::Outcome;
use crate::reader::read;
use crate::redirect::program;
use crate::round_trips::Model;
use crate::shares;
use crate::trace::codec;
use crate::writer::write;
use std::collections::BTreeSet;

/// The cases of every kind.
struct Cases {
    reader: ReaderCases,
    tables: TablesCases,
    requests: RequestsCases,
    checks: ChecksCases,
    clones: ClonesCases,
    orders: OrdersCases,
    isolation: IsolationCases,
    shares: SharesCases,
    assess: AssessCases,
    writer: WriterCases,
    round_trips: RoundTripsCases,
    redirects: RedirectsCases,
    traces: TracesCases,
    entries: EntriesCases,
}

impl Cases {
    fn new() -> Self {
        Cases {
            reader: ReaderCases::new(1),
            tables: TablesCases::new(1),
            requests: RequestsCases::new(1),
            checks: ChecksCases::new(1),
            clones: ClonesCases::new(1),
            orders: OrdersCases::new(1),
            isolation: IsolationCases::new(1),
            shares: SharesCases::new(1),
            assess: AssessCases::new(1),
            writer: WriterCases::new(1),
            round_trips: RoundTripsCases::new(1),
            redirects: RedirectsCases::new(1),
            traces: TracesCases::new(1),
            entries: EntriesCases::new(1),
        }
    }

    /// Whether anything that is compared of a case differs between these two.
    fn differ(&self, kind: Kind, number: u64, one: &Faulty, other: &Faulty) -> bool {
        match kind {
            Kind::Reader => {
                let case = self.reader.case(number);
                let read = |rules: &Faulty| read(case.first, &case.body, rules.chain());
                Outcome::of(&read(one), &case.body, one)
                    != Outcome::of(&read(other), &case.body, other)
            }
            Kind::Tables => self.calls_differ(number, one, other),
            Kind::Requests => self.requests_differ(number, one, other),
            Kind::Checks => self.checks_differ(number, one, other),
            Kind::Clones => self.clones_differ(number, one, other),
            Kind::Orders => self.broken(number, one) != self.broken(number, other),
            Kind::Isolation => self.noticed(number, one) != self.noticed(number, other),
            Kind::Shares => self.overstepped(number, one) != self.overstepped(number, other),
            Kind::Assess => {
                let assess::Case { sent, first, body } = self.assess.case(number);
                assess(&sent, first, &body, one) != assess(&sent, first, &body, other)
            }
            Kind::Writer => {
                let case = self.writer.case(number);
                write(&case, one.writer()) != write(&case, other.writer())
            }
            Kind::RoundTrips => {
                let case = self.round_trips.case(number);
                case.holds_of(&Model(&Plain), one) != case.holds_of(&Model(&Plain), other)
            }
            Kind::Redirects => {
                let given = self.redirects.case(number);
                let (one, other) = (&program::Model(one), &program::Model(other));
                program::Outcome::of(one, &given) != program::Outcome::of(other, &given)
            }
            Kind::Traces => {
                let case = self.traces.case(number);
                case.printed(one) != case.printed(other)
            }
            Kind::Entries => {
                let case = self.entries.case(number);
                case.outcome(&codec::Model(one)) != case.outcome(&codec::Model(other))
            }
        }
    }

    fn calls_differ(&self, number: u64, one: &Faulty, other: &Faulty) -> bool {
        let case = self.tables.case(number);
        let (mut of_one, mut of_other) = (case.tables.clone(), case.tables);
        case.calls.iter().any(|call| {
            let numbers = [call.make(&mut of_one, one), call.make(&mut of_other, other)];
            numbers[0] != numbers[1] || of_one != of_other
        })
    }

    fn requests_differ(&self, number: u64, one: &Faulty, other: &Faulty) -> bool {
        let requests::Case { tables: mut of_one, request } = self.requests.case(number);
        let mut of_other = of_one.clone();
        let handled = [handle(&request, &mut of_one, one), handle(&request, &mut of_other, other)];
        handled[0] != handled[1] || of_one != of_other
    }

    fn checks_differ(&self, number: u64, one: &Faulty, other: &Faulty) -> bool {
        let checks::Case { tables: mut of_one, response } = self.checks.case(number);
        let mut of_other = of_one.clone();
        let decided =
            [decide(&response, &mut of_one, one), decide(&response, &mut of_other, other)];
        decided[0] != decided[1] || of_one != of_other
    }

    fn clones_differ(&self, number: u64, one: &Faulty, other: &Faulty) -> bool {
        let clones::Case { tables: mut of_one, request } = self.clones.case(number);
        let mut of_other = of_one.clone();
        let cloned = [clone(&request, &mut of_one, one), clone(&request, &mut of_other, other)];
        cloned[0] != cloned[1] || of_one != of_other
    }

    /// What isn't as these rules of demand 3 ask it of this program.
    fn broken(&self, number: u64, rules: &Faulty) -> Vec<String> {
        let orders::Case { tables, list, chance } = self.orders.case(number);
        broken(&tables, &list, &chance, rules, |asked, tables| asked.make(tables, &Plain))
    }

    /// The same of what one operator may notice of the other.
    fn noticed(&self, number: u64, rules: &Faulty) -> Vec<String> {
        let case = self.isolation.case(number);
        isolation::broken(case.runs(), case.operator, rules, |call, on| call.make(on, &Plain))
    }

    /// The same of what each operator may have.
    fn overstepped(&self, number: u64, rules: &Faulty) -> Vec<String> {
        let calls = self.shares.case(number).calls;
        shares::broken(&calls, rules, |call, tables| call.make(tables, &Plain))
    }
}

/// So many cases of a kind are looked through.
const CASES: u64 = 20_000;

/// A run of the gate has at least so many cases of the kind.
fn cases_of_gate(kind: Kind) -> u64 {
    match kind {
        Kind::Isolation | Kind::Shares => 4_000,
        Kind::Orders | Kind::Redirects | Kind::Traces => 8_000,
        Kind::Requests | Kind::Assess | Kind::RoundTrips => 24_000,
        _ => 16_000,
    }
}

#[test]
fn every_fault_changes_some_outcome() {
    let cases = Cases::new();
    let is_hidden = |fault: &Fault| {
        let Fault { kind, program, .. } = fault;
        let shows = |number| cases.differ(*kind, number, &Faulty::NOWHERE, program);
        !(0..cases_of_gate(*kind)).any(shows)
    };
    let hidden: Vec<&str> = Fault::all().filter(is_hidden).map(|fault| fault.name).collect();
    assert_eq!(hidden, Vec::<&str>::new());
}

/// Splits a group of faults by what comes of a case; those that are alone show something of their own.
fn split(cases: &Cases, number: u64, group: Vec<Fault>) -> Vec<Vec<Fault>> {
    let mut parts: Vec<Vec<Fault>> = Vec::new();
    for fault in group {
        let same = |part: &&mut Vec<Fault>| {
            !cases.differ(fault.kind, number, &part[0].program, &fault.program)
        };
        match parts.iter_mut().find(same) {
            Some(part) => part.push(fault),
            None => parts.push(vec![fault]),
        }
    }
    parts.retain(|part| part.len() > 1);
    parts
}

#[test]
fn no_two_faults_of_a_kind_are_the_same() {
    let cases = Cases::new();
    for kind in Kind::ALL {
        let mut groups = vec![Fault::of_kind(kind).collect::<Vec<_>>()];
        for number in 0..CASES {
            if groups.is_empty() {
                break;
            }
            groups = groups.into_iter().flat_map(|group| split(&cases, number, group)).collect();
        }
        let names = |group: &Vec<Fault>| group.iter().map(|fault| fault.name).collect::<Vec<_>>();
        let alike: Vec<_> = groups.iter().map(names).collect();
        assert_eq!(alike, Vec::<Vec<&str>>::new());
    }
}

#[test]
fn names_are_there_once_and_lines_too() {
    let names: BTreeSet<&str> = Fault::all().map(|fault| fault.name).collect();
    let lines: BTreeSet<&str> = Fault::all().map(|fault| fault.wrong).collect();
    assert_eq!(names.len(), of_every_part().len());
    assert!(lines.iter().all(|line| line.ends_with('.')));
    assert_eq!(Fault::named("cookie-65").map(|fault| fault.kind), Some(Kind::Reader));
    assert!(Fault::named("no-such-fault").is_none());
}

/// The rules and the faults of each part, as they are written.
const PARTS: [[&str; 2]; 15] = [
    [include_str!("../rules/chain.rs"), include_str!("chain.rs")],
    [include_str!("../rules/parts.rs"), include_str!("parts.rs")],
    [include_str!("../rules/tables.rs"), include_str!("tables.rs")],
    [include_str!("../rules/policy.rs"), include_str!("policy.rs")],
    [include_str!("../rules/requests.rs"), include_str!("requests.rs")],
    [include_str!("../rules/checks.rs"), include_str!("checks.rs")],
    [include_str!("../rules/clones.rs"), include_str!("clones.rs")],
    [include_str!("../rules/orders.rs"), include_str!("orders.rs")],
    [include_str!("../rules/operators.rs"), include_str!("operators.rs")],
    [include_str!("../rules/responses.rs"), include_str!("responses.rs")],
    [include_str!("../rules/writer.rs"), include_str!("writer.rs")],
    [include_str!("../rules/round_trips.rs"), include_str!("round_trips.rs")],
    [include_str!("../rules/redirects.rs"), include_str!("redirects.rs")],
    [include_str!("../rules/trace.rs"), include_str!("trace.rs")],
    [include_str!("../rules/replay.rs"), include_str!("replay.rs")],
];

/// The methods of a trait or of its implementations, in their order.
fn methods(source: &str) -> Vec<&str> {
    let names = source.lines().filter_map(|line| line.strip_prefix("    fn "));
    names.map(|rest| rest.split(['<', '(']).next().unwrap_or(rest)).collect()
}

#[test]
fn every_rule_has_a_fault_and_every_fault_is_one_override() {
    for [rules, faults] in PARTS {
        let (given, overridden) = (methods(rules), methods(faults));
        assert!(!given.is_empty());
        for rule in given {
            assert!(overridden.contains(&rule), "{rule} has no fault");
        }
        let structs = faults.lines().filter(|line| line.starts_with("struct ")).count();
        assert_eq!(structs, overridden.len());
    }
}
