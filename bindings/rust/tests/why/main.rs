//! Explanations of edits: their texts, and all they say against the model.

mod model;
mod texts;

use wave_plan::{Bank, Kind, LastEdit, Plan};

/// The plan after an edit, and the edit.
fn edited(before: &Plan, kind: Kind, a: Bank, b: Bank) -> (Plan, LastEdit) {
    let mut after = before.clone();
    let answer = match kind {
        Kind::Adding => after.add(a, b),
        Kind::Striking => after.strike(a, b),
    };
    let last = LastEdit::new(kind, a, b, before, &after, answer.expect("accepted"));
    (after, last)
}
