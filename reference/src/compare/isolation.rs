// Two runs with one operator's same calls: each step by both programs, and of our steps what the operator may notice.
use crate::kinds::Verdict;
use crate::report::Detail;
use crate::steps::Steps;
use reference::cases::isolation::Case;
use reference::isolation::broken;
use reference::rules::Rules;

pub fn run(case: Case, rules: &impl Rules, detail: Detail) -> Verdict {
    let mut steps = Steps::new(rules, detail);
    let broken = broken(case.runs(), case.operator, rules, |call, tables| steps.take(call, tables));
    let [one, other] = case.runs().map(<[_]>::len);
    let introduction = vec![format!(
        "  runs of {one} and {other} calls, one behind the other; operator {}",
        case.operator
    )];
    steps.verdict(&broken, introduction)
}
