//! Document 01's cases, whose answers know nothing of any code here.

#[path = "../../notebook/tests/shared/frames.rs"]
mod frames;

use super::{canonical, check, cut, index, join};
use crate::library::Told;
use frames::{cases, Calls};

#[test]
fn every_call_on_every_case() {
    let calls = Calls {
        check: |file| check(file).reply(),
        index: |file, out| index(file, out).reply(),
        canonical: |file, out| canonical(file, out).reply(),
        cut: |file, capacity, id, used, out| cut(file, capacity, id, used, out).reply(),
        join: |pieces, out| join(pieces, out).reply(),
    };
    let cases = cases(b"vickj");
    assert!(cases.len() >= 5_145 + 3_588);
    let differences: Vec<String> = cases
        .iter()
        .map(|case| (case.told_by(&calls), &case.answer))
        .filter(|(told, answer)| told != *answer)
        .map(|(told, answer)| format!("told     {told}\nexpected {answer}\n"))
        .collect();
    let shown = differences.iter().take(5).map(String::as_str).collect::<String>();
    assert!(differences.is_empty(), "{} of {} cases differ, the first of them:\n{shown}", differences.len(), cases.len());
}
