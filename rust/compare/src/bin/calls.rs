//! Files of cases that were made elsewhere, compared through the exported functions: `calls [outside | fast] FILE ..`. A `run.txt` has sheets
//! with what their runs leave, a `differential*.txt` has differential sheets with their recurrences, a `records*.txt` has sheets with
//! records and their answers, a `steps*.txt` has sheets with budgets and what they lead to, a `states*.txt` has states with the answers
//! to them, a `logs*.txt` has sheets with elimination logs and what their replays leave, a `solutions*.txt` has sheets with their
//! polynomial solutions, a `NAME.in` is a batch, whose output is in `NAME.out` beside it. Every store is judged before and after: of the
//! needed length, longer and too short. With `outside` the outside implementation is judged in place of the library, with `fast` the version that the benchmark divides by. The exit code is 1
//! if there is a difference, 2 if there is nothing to compare.

use compare::log_files::logs_of;
use compare::runs::{induced_of, records_of, runs_of, Judge, Judgement};
use compare::solution_files::solutions_of;
use compare::step_files::{states_of, steps_of};
use compare::subject::{Fast, Library, Outside, Subject};
use std::path::{Path, PathBuf};
use std::{env, fs, process};

/// Differences of a file that are printed whole.
const SHOWN: usize = 3;

/// A message, and the end of the program.
fn nothing(message: String) -> ! {
    eprintln!("{message}");
    process::exit(2)
}

fn contents(path: &Path) -> Vec<u8> {
    fs::read(path).unwrap_or_else(|error| nothing(format!("{}: {error}", path.display())))
}

/// Whether each case of a file is as it says.
fn judged(path: &Path, judge: &mut Judge, subject: &dyn Subject) -> Vec<Judgement> {
    if path.extension().is_some_and(|extension| extension == "in") {
        return vec![judge.batch(&contents(path), &contents(&path.with_extension("out")), subject)];
    }
    let begins = |word: &[u8]| path.file_name().is_some_and(|name| name.as_encoded_bytes().starts_with(word));
    if begins(b"records") {
        let cases = some_cases(path, records_of(&contents(path)));
        return cases.iter().map(|case| judge.record(case, subject)).collect();
    }
    if begins(b"steps") {
        let cases = some_cases(path, steps_of(&contents(path)));
        return cases.iter().map(|case| judge.stepped(case, subject)).collect();
    }
    if begins(b"states") {
        let cases = some_cases(path, states_of(&contents(path)));
        return cases.iter().map(|case| judge.stated(case, subject)).collect();
    }
    if begins(b"logs") {
        let cases = some_cases(path, logs_of(&contents(path)));
        return cases.iter().map(|case| judge.replayed(case, subject)).collect();
    }
    if begins(b"solutions") {
        let cases = some_cases(path, solutions_of(&contents(path)));
        return cases.iter().map(|case| judge.listed(case, subject)).collect();
    }
    if begins(b"differential") {
        let cases = some_cases(path, induced_of(&contents(path)));
        return cases.iter().map(|case| judge.induced(case, subject)).collect();
    }
    let cases = some_cases(path, runs_of(&contents(path)));
    cases.iter().map(|case| judge.runs(case, subject)).collect()
}

/// The cases of a file, or a message that it has none.
fn some_cases<T>(path: &Path, cases: Result<Vec<T>, String>) -> Vec<T> {
    match cases {
        Ok(cases) if !cases.is_empty() => cases,
        Ok(_) => nothing(format!("{}: no cases", path.display())),
        Err(message) => nothing(format!("{}: {message}", path.display())),
    }
}

fn main() {
    let mut arguments: Vec<PathBuf> = env::args_os().skip(1).map(PathBuf::from).collect();
    let named = |name: &str| arguments.first().is_some_and(|first| first.as_os_str() == name);
    let (with_outside, with_fast) = (named("outside"), named("fast"));
    if with_outside || with_fast {
        arguments.remove(0);
    }
    if arguments.is_empty() {
        nothing("calls [outside | fast] FILE ..".into());
    }
    let subject: Box<dyn Subject> = match (with_outside, with_fast) {
        (true, _) => Box::new(Outside(None)),
        (_, true) => Box::new(Fast),
        _ => Box::new(Library::needed()),
    };
    let mut all = 0;
    for path in arguments {
        let mut judge = Judge::default();
        let results = judged(&path, &mut judge, subject.as_ref());
        let differences: Vec<&String> = results.iter().filter_map(|result| result.as_ref().err()).collect();
        differences
            .iter()
            .take(SHOWN)
            .for_each(|difference| println!("DIFFERENCE in {}: {difference}", path.display()));
        let (cases, calls) = (results.len(), judge.calls);
        println!(
            "{}, {}: {cases} cases, {calls} calls, {} differences",
            path.display(),
            subject.name(),
            differences.len()
        );
        all += differences.len();
    }
    process::exit((all > 0) as i32);
}
