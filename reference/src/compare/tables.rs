// A case of the tables run by both programs: calls in a row, up to the first that differs.
use crate::kinds::Verdict;
use crate::ours;
use crate::report::{self, Detail};
use reference::calls::Call;
use reference::cases::tables::Case;
use reference::rules::Rules;
use reference::table_fields::{call_line, of_differing_places};
use reference::tables::Tables;

pub fn run(case: Case, rules: &impl Rules, detail: Detail) -> Verdict {
    let mut programs = Programs::new(case.tables.clone());
    let agrees = case.calls.iter().all(|call| programs.make(call, rules).agrees(&programs));
    let shown = if detail.shows(agrees) { show(&case, rules, detail) } else { String::new() };
    Verdict { agrees, shown }
}

/// The tables as each program left them.
struct Programs {
    ours: Tables,
    reference: Tables,
}

/// What each program gave back.
struct Replies {
    ours: u8,
    /// Whether what is around that lent to the library is kept, and rules lent for reading.
    kept_around: bool,
    reference: u8,
}

impl Programs {
    fn new(tables: Tables) -> Self {
        Programs { ours: tables.clone(), reference: tables }
    }

    fn make(&mut self, call: &Call, rules: &impl Rules) -> Replies {
        let (ours, kept_around) = ours::tables::make(call, &mut self.ours);
        Replies { ours, kept_around, reference: call.make(&mut self.reference, rules) }
    }
}

impl Replies {
    fn agrees(&self, programs: &Programs) -> bool {
        let same_number = self.ours == self.reference;
        same_number && self.kept_around && programs.ours == programs.reference
    }

    fn line(&self) -> String {
        let mark = if self.ours == self.reference { ' ' } else { '*' };
        format!("{mark} given back: ours {} | reference {}", self.ours, self.reference)
    }
}

/// The calls up to the first that differs, with its differences; in full, also what each changes.
fn show(case: &Case, rules: &impl Rules, detail: Detail) -> String {
    let mut lines = Vec::new();
    if detail == Detail::AllFields {
        lines.push("  tables at first, where not 0 or none:".to_string());
        lines.extend(changes(&Tables::empty(), &case.tables));
    }
    let mut programs = Programs::new(case.tables.clone());
    for (place, call) in case.calls.iter().enumerate() {
        let before = programs.reference.clone();
        let replies = programs.make(call, rules);
        lines.push(format!("  call {place}: {}", call_line(call)));
        lines.push(replies.line());
        if detail == Detail::AllFields {
            lines.extend(changes(&before, &programs.reference));
        }
        if !replies.agrees(&programs) {
            let [ours, reference] = of_differing_places(&programs.ours, &programs.reference);
            lines.extend(report::around(replies.kept_around));
            lines.extend(report::compared(&ours, &reference, Detail::DifferingFields));
            break;
        }
    }
    lines.join("\n")
}

/// A line for each field that is no longer what it was.
pub fn changes(before: &Tables, after: &Tables) -> Vec<String> {
    let [before, after] = of_differing_places(before, after);
    let changed = before.iter().zip(&after).filter(|(before, after)| before != after);
    changed.map(|(_, (name, value))| format!("    {name}: {value}")).collect()
}
