// A request written by both programs.
use crate::kinds::Verdict;
use crate::ours;
use crate::report::{self, Detail};
use reference::asking::Arguments;
use reference::asking_fields;
use reference::rules::Rules;
use reference::writer;

pub fn run(arguments: Arguments, rules: &impl Rules, detail: Detail) -> Verdict {
    let ours = ours::writer::write(&arguments);
    let reference = writer::write(&arguments, rules.writer());
    Verdict::of(ours == reference, detail, || {
        let mut lines = report::input(&asking_fields::of(&arguments));
        lines.extend(report::compared(&ours.fields(), &reference.fields(), detail));
        lines
    })
}
