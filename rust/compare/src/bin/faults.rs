//! Plants each fault in the outside implementation and says after how many cases the comparison finds it. The other side is the
//! library where it is built, and otherwise the outside implementation without the fault.

use compare::cases::{Case, Kind};
use compare::first_index::{Lost, Tested};
use compare::judge::judge;
use compare::subject::{Library, Outside, Subject};
use outside::fault::Fault;

/// A fault that is not found in so many cases of each kind is missed. Batches and programs take longer, so there are fewer.
const MOST: usize = 20_000;
const SLOW_EVERY: usize = 40;

/// The cases in the order in which a fault meets them.
fn cases(round: usize) -> Vec<Case> {
    let mut cases: Vec<Case> = Kind::CALLS.iter().map(|kind| kind.case(round)).collect();
    if round.is_multiple_of(SLOW_EVERY) {
        cases.extend(Kind::SLOW.map(|kind| kind.case(round / SLOW_EVERY)));
    }
    cases
}

/// How many cases it takes to find the fault, and what the case was.
fn found(fault: Fault, right: &dyn Subject) -> Option<(usize, &'static str)> {
    let wrong = Outside(Some(fault));
    let mut tried = 0;
    for round in 0..MOST {
        for case in cases(round) {
            tried += 1;
            if judge(&case, right, &wrong).difference.is_some() {
                return Some((tried, kind_of(&case)));
            }
        }
    }
    None
}

fn kind_of(case: &Case) -> &'static str {
    match case {
        Case::Run { .. } => "run",
        Case::Read { .. } => "read",
        Case::Write { .. } => "write",
        Case::Batch { .. } => "batch",
        Case::BatchCall { .. } => "batch by a call",
        Case::Differential { .. } => "differential",
        Case::Recurrence { .. } => "recurrence",
        Case::Induce { .. } => "induce",
        Case::Record { .. } => "record",
        Case::Steps { .. } => "steps",
        Case::State { .. } => "state",
        Case::Logged { .. } => "run with its log",
        Case::Replay { .. } => "replay",
        Case::Solutions { .. } => "solutions",
    }
}

/// After how many systems a sequence is found that satisfies the output from k on and the input not from k + S - 1 on (SCOPE 2.124).
fn one_shift_less_found(right: &dyn Subject) -> Option<usize> {
    let mut tested = Tested::default();
    (0..MOST).find(|&k| {
        tested.test(k, Lost::OneLess, right);
        !tested.differences.is_empty()
    })
}

fn main() {
    let right: Box<dyn Subject> = match Library::found() {
        Some(library) => Box::new(library),
        None => Box::new(Outside(None)),
    };
    println!("faults against {}", right.name());
    println!("| fault | what it does | found after | by |");
    println!("|---|---|---:|---|");
    let mut missed = 0;
    for &fault in Fault::ALL {
        let (after, by) = match found(fault, right.as_ref()) {
            Some((after, by)) => (after.to_string(), by),
            None => ("NOT FOUND".into(), ""),
        };
        missed += by.is_empty() as i32;
        println!("| {fault:?} | {} | {after} | {by} |", fault.says());
    }
    let less = one_shift_less_found(right.as_ref());
    missed += less.is_none() as i32;
    let after = less.map_or("NOT FOUND".into(), |k| (k + 1).to_string());
    println!(
        "| OneLess | sequences from k on are said to satisfy the input from k + S - 1 on | {after} | first index |"
    );
    println!("{} faults, {missed} missed", Fault::ALL.len() + 1);
    std::process::exit((missed > 0) as i32);
}
