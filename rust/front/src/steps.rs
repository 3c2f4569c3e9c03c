//! `wurgalm steps`: the leading run by steps, with a progress line on standard error. It can be kept between two steps and gone on with.

use crate::check::with_place;
use crate::command::{bytes_of, is_differential, last, named, Arguments, End, FileName, Outcome};
use crate::output::say;
use crate::run::{answer, names_for, refused, system_of};
use std::io::{self, IsTerminal};
use wurgalm::{prepare, write_sheet, Heading, Progress, Run, State, System};

/// Bytes that are enough for any sheet.
const KEPT: usize = 131_072;

/// How far a run has come.
fn line(taken: usize, progress: &Progress) -> String {
    let state = &progress.state;
    let (settled, rows) = (state.settled, state.sizes.equations);
    format!("steps {taken}, settled {settled} of {rows}, shifts {}, relations {}", state.shifts, state.relations)
}

/// How a run is taken.
struct Options {
    /// The steps of one call.
    budget: usize,
    /// One call, and the run as it stands then.
    is_kept: bool,
    names: Vec<String>,
}

/// A run as it was kept: the sheet of its rows and relations, whose order line has the columns of the settled rows,
/// behind it the line with the shifts, and a line that shows that nothing is missing. The state of a run has no other
/// numbers (SCOPE 11.11).
fn kept(system: &mut System, state: &State) -> Outcome {
    let heading = Heading { sizes: state.sizes, relations: state.relations, order: state.order };
    let (rows, relations, _) = system.stores();
    let mut bytes = vec![0; KEPT];
    let length = write_sheet(rows, relations, &heading, &mut bytes)?;
    bytes.truncate(length);
    bytes.extend(format!("shifts {}\nend\n", state.shifts).bytes());
    Ok(bytes)
}

/// The sheet and the shifts of a run that was kept, if it is written as it was and all of it is there.
fn parted(bytes: &[u8]) -> Option<(&[u8], usize)> {
    let lines = bytes.strip_suffix(b"\nend\n")?;
    let (sheet, last) = lines.split_at(lines.iter().rposition(|&byte| byte == b'\n')? + 1);
    let number = std::str::from_utf8(last.strip_prefix(b"shifts ")?).ok()?;
    let shifts: usize = number.parse().ok()?;
    (shifts.to_string() == number).then_some((sheet, shifts))
}

/// The system and the state of a run that was kept. What is wrong with the state is for the call that goes on with it.
fn resumed(file: &FileName) -> Result<(System, State), End> {
    let bytes = bytes_of(file)?;
    let Some((sheet, shifts)) = parted(&bytes) else {
        let right = "right at its end would be a line `shifts` with their number and a line `end`";
        return Err(End::Refused(format!("{}: no run that was kept, or not all of one: {right}", named(file))));
    };
    let mut system = System::from_sheet(sheet).map_err(|refusal| with_place(refusal, file, sheet, false))?;
    let settled = system.order().len();
    let (.., Heading { sizes, relations, order }) = system.stores();
    Ok((system, State { sizes, relations, settled, order, shifts }))
}

/// The system of a sheet, and the state before the first step.
fn begun(file: &FileName, is_differential: bool) -> Result<(System, State), End> {
    let mut system = system_of(file, is_differential)?;
    let (rows, relations, heading) = system.stores();
    let state = prepare(rows, relations, heading.sizes, heading.relations)?;
    Ok((system, state))
}

pub fn steps(mut arguments: Arguments) -> Outcome {
    let budget = match arguments.value("--budget")?.map(|budget| budget.parse()) {
        None => 1,
        Some(Ok(budget)) if budget > 0 => budget,
        Some(_) => return Err(End::Misused("--budget wants a number from 1 on".into())),
    };
    let (is_kept, is_resumed) = (arguments.flag("--keep"), arguments.flag("--resume"));
    let names = arguments.value("--names")?;
    let is_differential = is_differential(&mut arguments, last);
    if is_resumed && is_differential {
        return Err(End::Misused("--resume goes on with a run that was kept, which is no differential sheet".into()));
    }
    let names = names_for(names, is_differential)?;
    let file = arguments.files(1, 1)?.remove(0);
    let (system, state) = if is_resumed { resumed(&file)? } else { begun(&file, is_differential)? };
    taken(system, state, &file, Options { budget, is_kept, names })
}

/// Takes a run from a state, one call or all.
fn taken(mut system: System, state: State, file: &str, options: Options) -> Outcome {
    let (rows, relations, _) = system.stores();
    let mut run = Run::resume(rows, relations, state);
    let (mut report, mut taken) = (None, 0);
    for progress in run.steps(options.budget).take(if options.is_kept { 1 } else { usize::MAX }) {
        let progress = progress.map_err(|refused_at| {
            line_ended();
            refused(refused_at.refusal, file)
        })?;
        taken += progress.steps;
        shown(&line(taken, &progress));
        report = progress.report;
    }
    line_ended();
    let state = run.state();
    if options.is_kept {
        return kept(&mut system, &state);
    }
    let Some(report) = report else { return Err(End::Refused(format!("{file}: the run did not finish"))) };
    system.settle(&report).map_err(|refusal| refused(refusal, file))?;
    Ok(answer(&system, &report, false, &options.names).into_bytes())
}

/// The last line stays on a terminal.
fn line_ended() {
    if io::stderr().is_terminal() {
        say("\n");
    }
}

/// On a terminal one line overwrites the other.
fn shown(line: &str) {
    if io::stderr().is_terminal() {
        say(&format!("\r{line}\x1b[K"));
    } else {
        say(&format!("{line}\n"));
    }
}
