//! `wurgalm run`: a whole run, its answer as equations, as a sheet or as JSON.

use crate::check::with_place;
use crate::command::{bytes_of, is_differential, last, named, Arguments, End, FileName, Outcome};
use crate::writing::index;
use crate::{differentials, json, writing};
use wurgalm::{Refusal, Report, System};

/// The system of a file: a sheet, or the recurrence of a differential sheet.
pub fn system_of(file: &FileName, is_differential: bool) -> Result<System, End> {
    let sheet = bytes_of(file)?;
    let read = if is_differential { System::from_differential } else { System::from_sheet };
    read(&sheet).map_err(|refusal| with_place(refusal, file, &sheet, is_differential))
}

/// The names of the unknowns for a system that was read from such a file.
pub fn names_for(option: Option<String>, is_differential: bool) -> Result<Vec<String>, End> {
    let usual = if is_differential { differentials::UNKNOWNS } else { writing::UNKNOWNS };
    writing::names(option, usual).map_err(End::Misused)
}

/// A refusal of a run, with what to do about it.
pub fn refused(refusal: Refusal, file: &str) -> End {
    End::Refused(format!("{}: {refusal} (docs/REFUSALS.md has what to do)", named(file)))
}

/// The form of an answer.
#[derive(Clone, Copy)]
pub enum Form {
    Text,
    Sheet,
    Json,
}

/// The form that the options name.
pub fn form_of(arguments: &mut Arguments) -> Result<Form, End> {
    match (arguments.flag("--sheet"), arguments.flag("--json")) {
        (true, true) => Err(End::Misused("either --sheet or --json".into())),
        (true, false) => Ok(Form::Sheet),
        (false, true) => Ok(Form::Json),
        (false, false) => Ok(Form::Text),
    }
}

pub fn run(mut arguments: Arguments) -> Outcome {
    let is_trailing = arguments.flag("--trailing");
    let form = form_of(&mut arguments)?;
    let names = arguments.value("--names")?;
    let is_differential = is_differential(&mut arguments, last);
    let names = names_for(names, is_differential)?;
    let file = arguments.files(1, 1)?.remove(0);
    let mut system = system_of(&file, is_differential)?;
    let report = if is_trailing { system.run_trailing() } else { system.run_leading() };
    let report = report.map_err(|refusal| refused(refusal, &file))?;
    written(&system, &report, is_trailing, &names, form)
}

/// An accepted run in its form.
pub fn written(system: &System, report: &Report, is_trailing: bool, names: &[String], form: Form) -> Outcome {
    let side = if is_trailing { "trailing" } else { "leading" };
    match form {
        Form::Text => Ok(answer(system, report, is_trailing, names).into_bytes()),
        Form::Sheet => Ok(system.to_sheet()?),
        Form::Json => Ok(json::answer(system, report, side).into_bytes()),
    }
}

pub(crate) fn counted(count: usize, one: &str) -> String {
    if count == 1 {
        format!("1 {one}")
    } else {
        format!("{count} {one}s")
    }
}

fn times(count: usize) -> String {
    match count {
        1 => "once".into(),
        2 => "twice".into(),
        _ => format!("{count} times"),
    }
}

/// What the root of a run says of the vectors (SCOPE 2.116, 2.117).
pub(crate) fn consequence(system: &System, report: &Report, is_trailing: bool, names: &[String]) -> String {
    let sizes = system.sizes();
    let free: Vec<&str> =
        (1..=sizes.m).filter(|&c| !report.order.contains(&(c as i64))).map(|c| &names[c - 1][..]).collect();
    if !free.is_empty() {
        return format!("no row gives {}: the vectors do not follow from one another", free.join(", "));
    }
    let (sign, later) = if is_trailing { ("<", "earlier") } else { (">", "later") };
    let (low, high) = if is_trailing { (sizes.t + 1, sizes.l) } else { (sizes.t, sizes.l - 1) };
    let settled = match (sizes.l - sizes.t, is_trailing) {
        (0, false) => format!("every vector from {} on is settled", index(low)),
        (0, true) => format!("every vector from {} down is settled", index(high)),
        (1, _) => format!("the vector at {} settles all {later} ones", index(low)),
        _ => format!("the vectors at {} to {} settle all {later} ones", index(low), index(high)),
    };
    match report.root {
        Some(root) => format!("for n {sign} {root} {settled}"),
        None => format!("at every n {settled}"),
    }
}

/// The answer as text: what the run comes to, and the system that it leaves.
pub fn answer(system: &System, report: &Report, is_trailing: bool, names: &[String]) -> String {
    let which = if is_trailing { "first" } else { "last" };
    let root = match report.root {
        Some(root) => format!("{which} integer root of the diagonal: {root}, {}", times(report.multiplicity)),
        None => "the diagonal has no integer root".into(),
    };
    let (relations, shifts) = (counted(report.relations, "relation"), counted(report.shifts, "shift"));
    format!(
        "accepted: rank {}, {relations}, {shifts}\n{root}\n{}\n\n{}",
        report.rank,
        consequence(system, report, is_trailing, names),
        writing::system(system, names)
    )
}
