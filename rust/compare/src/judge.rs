//! One case on two subjects.

use crate::cases::{text, Answer, Case};
use crate::subject::Subject;

/// The answers of both, and the difference for a reader, if they are not the same to the last number.
pub struct Judged {
    pub expected: Vec<Answer>,
    pub found: Vec<Answer>,
    pub difference: Option<String>,
}

pub fn judge(case: &Case, right: &dyn Subject, other: &dyn Subject) -> Judged {
    let (expected, found) = (case.answered(right), case.answered(other));
    let shown = || format!("{}\n{}", case.shown(), difference(&expected, &found, &right.name(), &other.name()));
    let difference = (expected != found).then(shown);
    Judged { expected, found, difference }
}

fn difference(expected: &[Answer], found: &[Answer], right: &str, other: &str) -> String {
    for (call, (a, b)) in expected.iter().zip(found).enumerate() {
        if a != b {
            return format!("call {}: {}", call + 1, answer_difference(a, b, right, other));
        }
    }
    format!("{right} answers {} calls, {other} {}\n", expected.len(), found.len())
}

fn answer_difference(a: &Answer, b: &Answer, right: &str, other: &str) -> String {
    if a.number != b.number {
        return format!("{right} answers {}, {other} {}\n", a.number, b.number);
    }
    let stores = [
        ("row store", &a.stores.rows, &b.stores.rows),
        ("relation store", &a.stores.relations, &b.stores.relations),
        ("result", &a.stores.result, &b.stores.result),
        ("state, log or work stores", &a.state, &b.state),
    ];
    for (name, a, b) in stores {
        if let Some(at) = a.iter().zip(b).position(|(a, b)| a != b) {
            return format!("{name} at {at}: {right} has {}, {other} {}\n", a[at], b[at]);
        }
    }
    format!("{right} writes\n{}{other} writes\n{}", text(&a.bytes), text(&b.bytes))
}
