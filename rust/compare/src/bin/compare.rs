//! The proved library and its programs against the outside implementation: every answer, every number of every store, every byte. A
//! difference is printed with its sheet, and the exit code is then 1.

use compare::cases::{text, Kind};
use compare::clients::{unwritten, waiting};
use compare::first_index::{Lost, Tested};
use compare::judge::judge;
use compare::logs::OwnLogs;
use compare::pieces;
use compare::series;
use compare::solutions::Listed;
use compare::steps::Divided;
use compare::subject::{Library, Outside, Subject};
use compare::tally::{print_refusals, Tally};
use outside::fault::Fault;
use std::process::Command;
use std::time::Instant;

/// How many cases of each kind.
const CASES: [(Kind, usize); 15] = [
    (Kind::Leading, 20_000),
    (Kind::Trailing, 20_000),
    (Kind::Read, 20_000),
    (Kind::Write, 5_000),
    (Kind::Batch, 500),
    (Kind::BatchCall, 500),
    (Kind::Differential, 20_000),
    (Kind::Recurrence, 5_000),
    (Kind::Induce, 1_000),
    (Kind::Record, 20_000),
    (Kind::Steps, 10_000),
    (Kind::State, 20_000),
    (Kind::Logged, 10_000),
    (Kind::Replay, 20_000),
    (Kind::Solutions, 20_000),
];
/// Differences that are printed whole.
const SHOWN: usize = 3;

/// The cases of one kind; the answers of both sides are counted. Returns the number of differences.
fn compared(kind: Kind, count: usize, right: &dyn Subject, other: &dyn Subject, tallies: &mut [Tally; 2]) -> usize {
    let mut differences = 0;
    for k in 0..count {
        let judged = judge(&kind.case(k), right, other);
        tallies[0].count(kind, &judged.expected);
        tallies[1].count(kind, &judged.found);
        if let Some(difference) = judged.difference {
            differences += 1;
            if differences <= SHOWN {
                println!("DIFFERENCE in {kind:?} case {k}: {difference}");
            }
        }
    }
    differences
}

/// As much of an input as is printed.
const PRINTED: usize = 2_000;

/// A program on inputs in pieces; a difference is `Err`.
fn fed_in_pieces(
    inputs: Vec<pieces::Fed>,
    right: fn(&[u8], Option<Fault>) -> Vec<u8>,
    start: &dyn Fn() -> Command,
) -> Vec<Result<(), String>> {
    let compared = |fed: pieces::Fed| {
        let (expected, found) = (right(&fed.input(), None), fed.output(start()));
        let pieces: Vec<String> = fed.pieces.iter().map(|piece| text(&piece[..piece.len().min(PRINTED)])).collect();
        let shown = || {
            format!("{:?} {pieces:?}\noutside writes\n{}the program\n{}", fed.between, text(&expected), text(&found))
        };
        if expected == found {
            Ok(())
        } else {
            Err(shown())
        }
    };
    inputs.into_iter().map(compared).collect()
}

/// Equal inputs give equal bytes (SCOPE 2.33): the program twice on an input that comes whole, and once on it in pieces.
fn same_bytes(start: &dyn Fn() -> Command) -> Vec<Result<(), String>> {
    let compared = |fed: pieces::Fed| {
        let whole = pieces::Fed { pieces: vec![fed.input()], between: pieces::Between::Taken };
        let (once, again, cut) = (whole.output(start()), whole.output(start()), fed.output(start()));
        if once == again && once == cut {
            Ok(())
        } else {
            Err(format!("{}once\n{}again\n{}in pieces\n{}", text(&fed.input()), text(&once), text(&again), text(&cut)))
        }
    };
    pieces::all().into_iter().filter(|fed| !fed.input().is_empty()).map(compared).collect()
}

/// Prints how many cases of a name there are, and the differences among them, which are then counted.
fn reported(name: &str, check: impl FnOnce() -> Vec<Result<(), String>>) -> usize {
    let start = Instant::now();
    let results = check();
    let differences: Vec<&String> = results.iter().filter_map(|result| result.as_ref().err()).collect();
    differences.iter().take(SHOWN).for_each(|difference| println!("DIFFERENCE in {name}: {difference}"));
    let time = start.elapsed().as_secs_f64();
    println!("{name}: {} cases, {} differences, {time:.1} s", results.len(), differences.len());
    differences.len()
}

/// What the program does with its input and output as streams: it answers each sheet before it reads on, and tells on standard error of
/// output that it could not write.
fn streams(start: &dyn Fn() -> Command) -> usize {
    reported("Pieces", || fed_in_pieces(pieces::all(), outside::batch::output, start))
        + reported("Same bytes", || same_bytes(start))
        + reported("Waiting clients", || waiting(start))
        + reported("Unwritten output", || unwritten(start))
}

/// Systems whose leading runs are looked at by sequences with a first index.
const FIRST_INDEX: usize = 20_000;

/// Both sentences about sequences with a first index, of the library's runs.
fn first_index(subject: &dyn Subject) -> usize {
    let start = Instant::now();
    let mut tested = Tested::default();
    (0..FIRST_INDEX).for_each(|k| tested.test(k, Lost::Shifts, subject));
    let differences = &tested.differences;
    differences.iter().take(SHOWN).for_each(|difference| println!("DIFFERENCE in First index: {difference}"));
    let time = start.elapsed().as_secs_f64();
    println!("First index: {FIRST_INDEX} cases, {} differences, {time:.1} s", differences.len());
    tested.print();
    differences.len()
}

/// Systems whose budgets are divided.
const DIVIDED: usize = 10_000;

/// What is said of divided budgets, of the library's runs.
fn divided(subject: &dyn Subject) -> usize {
    let start = Instant::now();
    let mut divided = Divided::default();
    (0..DIVIDED).for_each(|k| divided.test(k, subject));
    let differences = &divided.differences;
    differences.iter().take(SHOWN).for_each(|difference| println!("DIFFERENCE in Divided budgets: {difference}"));
    let time = start.elapsed().as_secs_f64();
    println!("Divided budgets: {DIVIDED} cases, {} differences, {time:.1} s", differences.len());
    divided.print();
    differences.len()
}

/// Systems whose runs are taken with their log.
const OWN_LOGS: usize = 10_000;

/// What is said of a run with its log, of the library's runs.
fn own_logs(subject: &dyn Subject) -> usize {
    let start = Instant::now();
    let mut own = OwnLogs::default();
    (0..OWN_LOGS).for_each(|k| own.test(k, subject));
    let differences = &own.differences;
    differences.iter().take(SHOWN).for_each(|difference| println!("DIFFERENCE in Own logs: {difference}"));
    let time = start.elapsed().as_secs_f64();
    println!("Own logs: {OWN_LOGS} cases, {} differences, {time:.1} s", differences.len());
    own.print();
    differences.len()
}

/// Systems whose lists are held against what is promised of them.
const LISTED: usize = 5_000;

/// What is said of a list, that it is complete among the rest, of the library's lists.
fn listed(subject: &dyn Subject) -> usize {
    let start = Instant::now();
    let mut listed = Listed::default();
    (0..LISTED).for_each(|k| listed.test(k, subject));
    let differences = &listed.differences;
    differences.iter().take(SHOWN).for_each(|difference| println!("DIFFERENCE in Complete lists: {difference}"));
    let time = start.elapsed().as_secs_f64();
    println!("Complete lists: {LISTED} cases, {} differences, {time:.1} s", differences.len());
    listed.print();
    differences.len()
}

/// Systems with an answer of `wurgalm series`.
const SERIES: usize = 1_000;

/// The terms and verdicts of `wurgalm series`, by the input's equations alone.
fn terms() -> usize {
    let start = Instant::now();
    let mut tested = series::Tested::default();
    tested.test(SERIES, &series::command);
    let differences = &tested.differences;
    differences.iter().take(SHOWN).for_each(|difference| println!("DIFFERENCE in Series: {difference}"));
    let time = start.elapsed().as_secs_f64();
    println!("Series: {SERIES} cases, {} differences, {time:.1} s", differences.len());
    tested.print();
    differences.len()
}

/// A line of the table for each kind and side.
fn lines<'a>(tallies: &'a [(Kind, [Tally; 2])], names: &[String; 2]) -> Vec<(String, &'a Tally)> {
    let mut lines = Vec::new();
    for (kind, pair) in tallies {
        for (tally, name) in pair.iter().zip(names) {
            lines.push((format!("{kind:?}, {name}"), tally));
        }
    }
    lines
}

fn main() {
    let (right, other) = (Outside(None), Library::needed());
    let mut differences = 0;
    let mut tallies = Vec::new();
    for (kind, count) in CASES {
        let start = Instant::now();
        let mut pair = [Tally::default(), Tally::default()];
        let different = compared(kind, count, &right, &other, &mut pair);
        println!("{kind:?}: {count} cases, {different} differences, {:.1} s", start.elapsed().as_secs_f64());
        differences += different;
        tallies.push((kind, pair));
    }
    differences += streams(&|| Command::new(other.program()));
    let induce = || Command::new(other.induce_program());
    differences +=
        reported("Induce", || fed_in_pieces(pieces::differentials(), outside::differential::output, &induce));
    differences += first_index(&other);
    differences += divided(&other);
    differences += own_logs(&other);
    differences += listed(&other);
    differences += terms();
    println!();
    let names = [right.name(), other.name()];
    print_refusals(&lines(&tallies, &names));
    for (kind, pair) in &tallies[..2] {
        println!();
        pair.iter().zip(&names).for_each(|(tally, name)| tally.print_runs(&format!("{kind:?}, {name}")));
    }
    println!();
    let records = tallies.iter().filter(|(kind, _)| *kind == Kind::Record);
    for (kind, pair) in records {
        pair.iter().zip(&names).for_each(|(tally, name)| tally.print_kinds(&format!("{kind:?}, {name}")));
    }
    let solutions = tallies.iter().filter(|(kind, _)| *kind == Kind::Solutions);
    for (kind, pair) in solutions {
        pair.iter().zip(&names).for_each(|(tally, name)| tally.print_lists(&format!("{kind:?}, {name}")));
    }
    std::process::exit((differences > 0) as i32);
}
