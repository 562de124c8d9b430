// A run of two operators: each step by both programs, and of our steps what each operator may have and be refused.
use crate::kinds::Verdict;
use crate::report::Detail;
use crate::steps::Steps;
use reference::cases::shares::Case;
use reference::rules::Rules;
use reference::shares::broken;

pub fn run(case: Case, rules: &impl Rules, detail: Detail) -> Verdict {
    let mut steps = Steps::new(rules, detail);
    let broken = broken(&case.calls, rules, |call, tables| steps.take(call, tables));
    steps.verdict(&broken, vec![format!("  a run of {} calls", case.calls.len())])
}
