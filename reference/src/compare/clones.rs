// A request to clone made by both programs on the same tables.
use crate::kinds::Verdict;
use crate::ours;
use crate::report::{self, Detail};
use crate::tables::changes;
use reference::cases::clones::Case;
use reference::cloning;
use reference::rules::Rules;
use reference::table_fields::of_differing_places;
use reference::tables::Tables;

pub fn run(case: Case, rules: &impl Rules, detail: Detail) -> Verdict {
    let Case { tables, request } = case;
    let (mut our_tables, mut reference_tables) = (tables.clone(), tables.clone());
    let (ours, kept_around) = ours::clones::clone(&request, &mut our_tables);
    let reference = cloning::clone(&request, &mut reference_tables, rules);
    let agrees = ours == reference && our_tables == reference_tables && kept_around;
    Verdict::of(agrees, detail, || {
        let mut lines = Vec::new();
        if detail == Detail::AllFields {
            lines.push("  tables at first, where not 0 or none:".to_string());
            lines.extend(changes(&Tables::empty(), &tables));
        }
        lines.extend(report::input(&request.fields()));
        lines.extend(report::compared(&ours.fields(), &reference.fields(), detail));
        if detail == Detail::AllFields {
            lines.extend(changes(&tables, &reference_tables));
        }
        lines.extend(report::around(kept_around));
        let [ours, reference] = of_differing_places(&our_tables, &reference_tables);
        lines.extend(report::compared(&ours, &reference, Detail::DifferingFields));
        lines
    })
}
