// A request or a check response run by both programs on the same tables.
use crate::kinds::Verdict;
use crate::ours;
use crate::report::{self, Detail};
use crate::tables::changes;
use reference::asked::{Asked, Given};
use reference::cases::requests::Case;
use reference::rules::Rules;
use reference::table_fields::of_differing_places;
use reference::tables::Tables;

pub fn run(case: Case, rules: &impl Rules, detail: Detail) -> Verdict {
    one_step(&Asked::Request(case.request), &case.tables, rules, detail)
}

/// One call on these tables.
pub fn one_step(asked: &Asked, tables: &Tables, rules: &impl Rules, detail: Detail) -> Verdict {
    let step = Step::take(asked, tables, rules);
    Verdict::of(step.agrees(), detail, || {
        let mut lines = Vec::new();
        if detail == Detail::AllFields {
            lines.push("  tables at first, where not 0 or none:".to_string());
            lines.extend(changes(&Tables::empty(), tables));
        }
        lines.extend(step.lines(asked, tables, detail));
        lines
    })
}

/// What each program made of a call, and how it left the tables.
pub struct Step<'a> {
    pub ours: Given<'a>,
    pub our_tables: Tables,
    /// Whether what is around that lent to the library is kept.
    kept_around: bool,
    reference: Given<'a>,
    reference_tables: Tables,
}

impl<'a> Step<'a> {
    pub fn take(asked: &'a Asked, tables: &Tables, rules: &impl Rules) -> Self {
        let (mut our_tables, mut reference_tables) = (tables.clone(), tables.clone());
        let (ours, kept_around) = made(asked, &mut our_tables);
        let reference = asked.make(&mut reference_tables, rules);
        Step { ours, our_tables, kept_around, reference, reference_tables }
    }

    pub fn agrees(&self) -> bool {
        let same_tables = self.our_tables == self.reference_tables;
        self.ours == self.reference && same_tables && self.kept_around
    }

    /// The call, and what is to be shown of both answers and of the tables.
    pub fn lines(&self, asked: &Asked, before: &Tables, detail: Detail) -> Vec<String> {
        let mut lines = report::input(&asked.fields());
        let (ours, reference) = (self.ours.fields(), self.reference.fields());
        lines.extend(report::compared(&ours, &reference, detail));
        if detail == Detail::AllFields {
            lines.extend(changes(before, &self.reference_tables));
        }
        lines.extend(report::around(self.kept_around));
        let [ours, reference] = of_differing_places(&self.our_tables, &self.reference_tables);
        lines.extend(report::compared(&ours, &reference, Detail::DifferingFields));
        lines
    }
}

/// What the library makes of a call; also whether what is around that lent to it is kept.
pub fn made<'a>(asked: &'a Asked, tables: &mut Tables) -> (Given<'a>, bool) {
    match asked {
        Asked::Request(request) => {
            let (handled, kept_around) = ours::requests::handle(request, tables);
            (Given::Handled(handled), kept_around)
        }
        Asked::Check(response) => {
            let (assessed, kept_around) = ours::checks::check(response, tables);
            (Given::Assessed(assessed), kept_around)
        }
    }
}
