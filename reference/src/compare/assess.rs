// A response assessed by both programs.
use crate::kinds::Verdict;
use crate::ours;
use crate::report::{self, Detail};
use reference::assess;
use reference::cases::assess::Case;
use reference::rules::Rules;
use reference::show::hex;

pub fn run(case: Case, rules: &impl Rules, detail: Detail) -> Verdict {
    let Case { sent, first, body } = case;
    let ours = ours::assess::assess(&sent, first, &body);
    let reference = assess::assess(&sent, first, &body, rules);
    Verdict::of(ours == reference, detail, || {
        let mut lines = vec![format!("  cookie sent: {}", hex(&sent))];
        lines.extend(report::chain(first, &body));
        lines.extend(report::compared(&ours.fields(), &reference.fields(), detail));
        lines
    })
}
