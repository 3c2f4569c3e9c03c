//! `wurgalm replay`: the steps of a log made on a system, and what they lead to.

use crate::command::{bytes_up_to, first, is_differential, named, Arguments, End, Outcome};
use crate::log_places::{place, LogPlace};
use crate::output::shown;
use crate::run::{form_of, names_for, system_of, written};
use wurgalm::{Log, LogStep, Refusal, System, LOG_STEPS};

/// What may stand in a line of a log.
const STEPS: &str = "`exchange I J`, `combine I J INTEGER` with two multipliers, `up I`, `down I` or `drop I`";
/// Bytes that no log has: 1,000 steps of at most 750 bytes, and its last line.
const LOG: usize = 1_048_576;

/// A log, or the first line of it that is not as it is written.
fn log_of(text: &str) -> Result<Log, String> {
    let lines: Vec<&str> = text.split_inclusive('\n').collect();
    if lines.len() > LOG_STEPS + 1 {
        return Err(format!("line {}: a log has at most {LOG_STEPS} steps and its last line", LOG_STEPS + 2));
    }
    let is_step = |line: &str| line.strip_suffix('\n').is_some_and(|line| line.parse::<LogStep>().is_ok());
    text.parse().map_err(|_| {
        let steps = &lines[..lines.len().saturating_sub(1)];
        match (steps.iter().position(|line| !is_step(line)), lines.last()) {
            (Some(at), _) => {
                let line = shown(lines[at].trim_end_matches('\n'));
                format!("line {}: `{line}` is no step: right would be {STEPS}, a space before each number", at + 1)
            }
            (None, Some(last)) if !last.ends_with('\n') => {
                format!("line {}: the line does not end, so that something is missing", lines.len())
            }
            _ => {
                let right = "the last line has to be `order` and at most four columns, a space before each";
                format!("line {}: {right}", lines.len().max(1))
            }
        }
    })
}

/// The refusal of a log, with the line at which it is refused. A log has a line for each step and one for its end.
fn refused(system: &System, log: &Log, refusal: Refusal, file: &str) -> End {
    let text = log.to_string();
    let at = place(system, log, refusal).map(|place| match place {
        LogPlace::Step(number) => number,
        LogPlace::End => log.steps.len() + 1,
    });
    let line = |number| Some(format!("line {number}: `{}` is ", shown(text.lines().nth(number - 1)?)));
    let place = at.and_then(line).unwrap_or_default();
    End::Refused(format!("{}: {place}{refusal} (docs/REFUSALS.md has what to do)", named(file)))
}

pub fn replay(mut arguments: Arguments) -> Outcome {
    let form = form_of(&mut arguments)?;
    let names = arguments.value("--names")?;
    let is_differential = is_differential(&mut arguments, first);
    let names = names_for(names, is_differential)?;
    let files = arguments.files(2, 2)?;
    let [sheet, log] = &files[..] else { return Err(End::Misused("SHEET and LOG".into())) };
    let mut system = system_of(sheet, is_differential)?;
    let bytes = bytes_up_to(LOG, "a log of 1,000 steps, the most, has fewer", log)?;
    let steps = log_of(&String::from_utf8_lossy(&bytes));
    let steps = steps.map_err(|reason| End::Refused(format!("{}: {reason}", named(log))))?;
    let before = system.clone();
    let report = system.replay(&steps).map_err(|refusal| refused(&before, &steps, refusal, log))?;
    written(&system, &report, false, &names, form)
}
