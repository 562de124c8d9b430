// The comparison: runs both programs on the same cases and tells every difference.
mod arguments;
mod assess;
mod checks;
mod clones;
mod entries;
mod isolation;
mod kinds;
mod orders;
mod ours;
mod reader;
mod redirects;
mod report;
mod requests;
mod round_trips;
mod shares;
mod steps;
mod tables;
mod traces;
mod writer;

use arguments::{Arguments, Mode, USAGE};
use kinds::Cases;
use reference::faults::Fault;
use reference::kind::Kind;
use reference::rules::{Plain, Rules};
use report::Detail;
use std::env;
use std::io::{self, BufWriter, Write};
use std::ops::Range;
use std::process::ExitCode;

fn main() -> ExitCode {
    let arguments = match Arguments::parse(env::args().skip(1)) {
        Ok(arguments) => arguments,
        Err(message) => {
            eprintln!("compare: {message}\n{USAGE}");
            return ExitCode::from(2);
        }
    };
    if let Some(Fault { name, wrong, .. }) = arguments.fault {
        eprintln!("compare: with the fault {name}: {wrong}");
    }
    let mut out = BufWriter::new(io::stdout().lock());
    let run = Run::new(&arguments);
    let passed = match arguments.mode {
        Mode::Compare => run.with_its_fault(0..arguments.cases, Detail::DifferingFields, &mut out),
        Mode::OneCase(number) => {
            run.with_its_fault(number..number + 1, Detail::AllFields, &mut out)
        }
        Mode::EachFault => run.each_fault(&mut out),
    };
    match passed.and_then(|passed| out.flush().map(|()| passed)) {
        Ok(true) => ExitCode::SUCCESS,
        Ok(false) => ExitCode::FAILURE,
        Err(error) => {
            eprintln!("compare: {error}");
            ExitCode::from(2)
        }
    }
}

struct Run<'a> {
    arguments: &'a Arguments,
    cases: Cases,
    /// The kinds in the order in which they take turns.
    turns: Vec<Kind>,
}

impl<'a> Run<'a> {
    fn new(arguments: &'a Arguments) -> Self {
        let only = arguments.only.or(arguments.fault.map(|fault| fault.kind));
        let turns = only.map_or_else(kinds::turns, |kind| vec![kind]);
        Run { arguments, cases: Cases::new(arguments.seed), turns }
    }

    /// The kind of a case of the run, and its number among those of its kind.
    fn kind_and_number(&self, place: u64) -> (Kind, u64) {
        let turns = self.turns.len() as u64;
        let (rounds, turn) = (place / turns, (place % turns) as usize);
        let kind = self.turns[turn];
        let of_kind = |turns: &[Kind]| turns.iter().filter(|&&it| it == kind).count() as u64;
        (kind, rounds * of_kind(&self.turns) + of_kind(&self.turns[..turn]))
    }

    /// Compares with the second program, or with the fault that was asked for.
    fn with_its_fault(
        &self,
        places: Range<u64>,
        detail: Detail,
        out: &mut impl Write,
    ) -> io::Result<bool> {
        match self.arguments.fault {
            None => self.compare(&Plain, places, detail, out),
            Some(fault) => self.compare(&fault.program, places, detail, out),
        }
    }

    /// Runs these cases, prints each difference and the last line; true if there was none.
    fn compare(
        &self,
        rules: &impl Rules,
        places: Range<u64>,
        detail: Detail,
        out: &mut impl Write,
    ) -> io::Result<bool> {
        let fault = self.arguments.fault;
        let fault_option = fault.map_or(String::new(), |fault| format!(" --fault {}", fault.name));
        let compared = places.end - places.start;
        let mut differences = 0;
        for place in places {
            let (kind, number) = self.kind_and_number(place);
            let verdict = self.cases.run(kind, number, rules, detail)?;
            if !verdict.agrees {
                differences += 1;
            }
            if !verdict.shown.is_empty() {
                let (kind, seed) = (kind.name(), self.arguments.seed);
                writeln!(out, "kind {kind}, seed {seed}, case {number}")?;
                writeln!(
                    out,
                    "  replay: ./compare --only {kind} --seed {seed} --case {number}{fault_option}"
                )?;
                writeln!(out, "{}", verdict.shown)?;
            }
        }
        writeln!(out, "compared {compared} cases, {differences} differences")?;
        Ok(differences == 0)
    }

    /// Compares with each deliberate fault of these kinds; true if each makes a difference.
    fn each_fault(&self, out: &mut impl Write) -> io::Result<bool> {
        let (mut tried, mut found) = (0, 0);
        for fault in Fault::all().filter(|fault| self.turns.contains(&fault.kind)) {
            let (name, kind) = (fault.name, fault.kind.name());
            tried += 1;
            match self.first_difference(fault)? {
                Some(number) => {
                    found += 1;
                    writeln!(out, "{name}: found in {kind} case {number}")?;
                }
                None => writeln!(out, "{name}: not found")?,
            }
            out.flush()?;
        }
        writeln!(out, "{tried} faults, {found} found")?;
        Ok(found == tried)
    }

    /// The number of the first case of the fault's kind in which it makes a difference.
    fn first_difference(&self, Fault { kind, program, .. }: Fault) -> io::Result<Option<u64>> {
        let places = (0..self.arguments.cases).map(|place| self.kind_and_number(place));
        let numbers = places.filter(|place| place.0 == kind).map(|place| place.1);
        for number in numbers.filter(|&number| self.cases.may_tell(kind, number, &program)) {
            if !self.cases.run(kind, number, &program, Detail::Nothing)?.agrees {
                return Ok(Some(number));
            }
        }
        Ok(None)
    }
}
