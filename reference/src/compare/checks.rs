// A check response decided by both programs on the same tables.
use crate::kinds::Verdict;
use crate::report::Detail;
use crate::requests::one_step;
use reference::asked::Asked;
use reference::cases::checks::Case;
use reference::rules::Rules;

pub fn run(case: Case, rules: &impl Rules, detail: Detail) -> Verdict {
    one_step(&Asked::Check(case.response), &case.tables, rules, detail)
}
