//! `wurgalm check`: line, column, token and reason of a sheet's first fault, and what would be right there.

use crate::command::{bytes_of, is_differential, last, named, Arguments, End, Outcome};
use crate::places::{line_and_column, Fault, Judge, What};
use crate::roles::role;
use wurgalm::Refusal;

/// Numbers that are tried at a place: past every count, block and column in both directions.
const TRIED: std::ops::RangeInclusive<i64> = -70..=70;
/// The largest number that may stand anywhere, and one past the largest factor of a differential sheet.
const LARGE: [i64; 2] = [268_435_455, 1_048_576];
/// Bytes of a token that are shown.
const SHOWN: usize = 24;

pub fn check(mut arguments: Arguments) -> Outcome {
    let is_differential = is_differential(&mut arguments, last);
    let file = arguments.files(1, 1)?.remove(0);
    let sheet = bytes_of(&file)?;
    match Judge::new(is_differential).fault(&sheet) {
        None => Ok(format!("{}: no fault\n", named(&file)).into_bytes()),
        Some(fault) => Err(End::Refused(told(&file, &sheet, fault, is_differential))),
    }
}

/// The refusal of a sheet with its place, where it has one.
pub fn with_place(refusal: Refusal, file: &str, sheet: &[u8], is_differential: bool) -> End {
    match Judge::new(is_differential).fault(sheet) {
        Some(fault) => End::Refused(told(file, sheet, fault, is_differential)),
        None => refusal.into(),
    }
}

/// What to do where the bytes are a sheet of the other kind; no bytes are one of both.
fn other_kind(sheet: &[u8], is_differential: bool) -> &'static str {
    match (Judge::new(!is_differential).read(sheet), is_differential) {
        (Err(_), _) => "",
        (Ok(_), false) => "; this is a differential sheet, which --differential reads as one",
        (Ok(_), true) => {
            "; this is the sheet of a recurrence, which is read as one without --differential and under a name that \
             does not end in .differential, or as standard input"
        }
    }
}

/// The numbers that may stand behind a beginning, with either separator, in words.
fn allowed(judge: &mut Judge, beginning: &[u8]) -> String {
    let mut fits = |number: i64| {
        [" ", "\n"].iter().any(|end| judge.could_begin(&[beginning, format!("{number}{end}").as_bytes()].concat()))
    };
    let bound = LARGE.into_iter().find(|&large| fits(large) && fits(-large));
    let numbers: Vec<i64> = TRIED.filter(|&number| fits(number)).collect();
    match (bound, &numbers[..]) {
        (Some(bound), _) if fits(0) => format!("a number within ±{bound}"),
        (Some(bound), _) => format!("a number within ±{bound} other than 0"),
        (None, []) => "no number".into(),
        (None, [one]) => one.to_string(),
        (None, [first, .., last]) if last - first + 1 == numbers.len() as i64 => {
            format!("a number from {first} to {last}")
        }
        (None, _) => numbers.iter().map(i64::to_string).collect::<Vec<_>>().join(" or "),
    }
}

/// A token as it can be printed.
fn printed(token: &[u8]) -> String {
    let shown = token[..token.len().min(SHOWN)].escape_ascii();
    let rest = if token.len() > SHOWN { ".." } else { "" };
    format!("`{shown}{rest}`")
}

/// A fault in words: the file, line and column, the token, the refusal, what stands there and what would be right.
pub fn told(file: &str, sheet: &[u8], fault: Fault, is_differential: bool) -> String {
    let mut judge = Judge::new(is_differential);
    let Fault { refusal, what, token, end } = fault;
    let at = if what == What::Separator { end } else { token };
    let (line, column) = line_and_column(sheet, at);
    let (beginning, text) = (&sheet[..token], printed(&sheet[token..end]));
    let stands = role(beginning, is_differential);
    let reason = match what {
        What::Token if token == end => format!("a number is missing: {stands}, {}", allowed(&mut judge, beginning)),
        What::Token => format!("{text} for {stands}: right would be {}", allowed(&mut judge, beginning)),
        What::Separator if sheet[end] == b' ' => {
            format!("a space behind {text}, {stands}: right would be the end of the line")
        }
        What::Separator => format!("the line ends behind {text}, {stands}: right would be a space and a number"),
        What::EndsEarly if token == end => {
            format!("the bytes end early: {stands} is missing, {}", allowed(&mut judge, beginning))
        }
        What::EndsEarly => {
            format!("the bytes end early behind {text}, {stands}: a space or the end of the line is missing")
        }
        What::GoesOn => format!("{text} behind the end of the sheet: right would be nothing"),
    };
    let other = other_kind(sheet, is_differential);
    format!("{}: line {line}, column {column}: {reason} (refusal {}){other}", named(file), refusal.0)
}
