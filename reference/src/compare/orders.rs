// A list of requests and check responses run in several orders: each step by both programs, and demand 3 of our steps.
use crate::kinds::Verdict;
use crate::report::Detail;
use crate::requests::Step;
use crate::tables::changes;
use reference::cases::orders::Case;
use reference::orders::{broken, Order, Orders};
use reference::rules::Rules;
use reference::tables::Tables;

pub fn run(case: Case, rules: &impl Rules, detail: Detail) -> Verdict {
    let Case { tables, list, chance } = &case;
    let (mut steps, mut differing) = (0, 0);
    let mut shown_steps = Vec::new();
    let broken = broken(tables, list, chance, rules, |asked, tables| {
        let step = Step::take(asked, tables, rules);
        let agrees = step.agrees();
        if detail.shows(agrees) {
            shown_steps.push((steps, step.lines(asked, tables, detail)));
        }
        steps += 1;
        differing += usize::from(!agrees);
        *tables = step.our_tables;
        step.ours
    });
    let agrees = differing == 0 && broken.is_empty();
    let mut lines = Vec::new();
    if detail.shows(agrees) {
        lines.extend(introduction(&case, &broken, rules, detail));
        for (step, step_lines) in shown_steps {
            lines.push(heading(&case, step, rules));
            lines.extend(step_lines);
        }
    }
    Verdict { agrees, shown: lines.join("\n") }
}

/// The orders, what demand 3 asks and isn't so, and in full also the tables at first.
fn introduction(case: &Case, broken: &[String], rules: &impl Rules, detail: Detail) -> Vec<String> {
    let orders = Orders::new(&case.tables, &case.list, &case.chance, rules);
    let mut lines = vec![
        format!("  kept order: {:?}", orders.kept),
        format!("  freed order: {:?}", orders.freed),
        format!("  freed SAs: {:?}", orders.freed_spis),
    ];
    lines.extend(broken.iter().map(|broken| format!("* {broken}")));
    if detail == Detail::AllFields {
        lines.push("  tables at first, where not 0 or none:".to_string());
        lines.extend(changes(&Tables::empty(), &case.tables));
    }
    lines
}

/// Which call a step makes, in which of the three orders.
fn heading(case: &Case, step: usize, rules: &impl Rules) -> String {
    let orders = Orders::new(&case.tables, &case.list, &case.chance, rules);
    let count = case.list.len();
    let sequence: Order = (0..count).collect();
    let named =
        [("as it is", sequence), ("kept order", orders.kept), ("freed order", orders.freed)];
    let (name, order) = &named[step / count];
    format!("  {name}, call {}:", order[step % count])
}
