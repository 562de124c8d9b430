// Any call made by both programs on the same tables, which are then as ours left them: a step of a whole run.
use crate::kinds::Verdict;
use crate::ours;
use crate::report::{self, Detail};
use crate::requests;
use crate::tables::changes;
use reference::any_call::{AnyCall, Gave};
use reference::rules::Rules;
use reference::table_fields::of_differing_places;
use reference::tables::Tables;

/// The steps of runs, and those of them that are shown.
pub struct Steps<'r, R> {
    rules: &'r R,
    detail: Detail,
    count: usize,
    differing: usize,
    shown: Vec<String>,
}

impl<'r, R: Rules> Steps<'r, R> {
    pub fn new(rules: &'r R, detail: Detail) -> Self {
        Steps { rules, detail, count: 0, differing: 0, shown: Vec::new() }
    }

    /// Makes the next call; what ours gives back.
    pub fn take<'a>(&mut self, call: &'a AnyCall, tables: &mut Tables) -> Gave<'a> {
        let before = tables.clone();
        let mut reference_tables = tables.clone();
        let (ours, kept_around) = made(call, tables);
        let reference = call.make(&mut reference_tables, self.rules);
        let agrees = ours == reference && *tables == reference_tables && kept_around;
        if self.detail.shows(agrees) {
            self.shown.push(format!("  step {}:", self.count));
            self.shown.extend(report::input(&call.fields()));
            let (ours, reference) = (ours.fields(), reference.fields());
            self.shown.extend(report::compared(&ours, &reference, self.detail));
            if self.detail == Detail::AllFields {
                self.shown.extend(changes(&before, &reference_tables));
            }
            self.shown.extend(report::around(kept_around));
            let [ours, reference] = of_differing_places(tables, &reference_tables);
            self.shown.extend(report::compared(&ours, &reference, Detail::DifferingFields));
        }
        self.count += 1;
        self.differing += usize::from(!agrees);
        ours
    }

    /// With what is asked of the runs and isn't so, and these lines before all steps.
    pub fn verdict(self, broken: &[String], introduction: Vec<String>) -> Verdict {
        let agrees = self.differing == 0 && broken.is_empty();
        Verdict::of(agrees, self.detail, || {
            let broken = broken.iter().map(|broken| format!("* {broken}"));
            introduction.into_iter().chain(broken).chain(self.shown).collect()
        })
    }
}

/// What the library makes of a call; also whether what is around that lent to it is kept.
fn made<'a>(call: &'a AnyCall, tables: &mut Tables) -> (Gave<'a>, bool) {
    match call {
        AnyCall::Table(call) => {
            let (number, kept_around) = ours::tables::make(call, tables);
            (Gave::Number(number), kept_around)
        }
        AnyCall::Asked(asked) => {
            let (given, kept_around) = requests::made(asked, tables);
            (Gave::Given(given), kept_around)
        }
        AnyCall::Clone(request) => {
            let (cloned, kept_around) = ours::clones::clone(request, tables);
            (Gave::Cloned(cloned), kept_around)
        }
    }
}
