//! Refused logs: the place that is found with the proved replay is the one that the second replay comes to.

use compare::logs::elsewhere;
use compare::random::Random;
use front::log_places::{place, LogPlace};
use outside::logs::{Replay, Step};
use outside::sheet::{write, Sheet};
use outside::system::System as Second;
use wurgalm::{Log, LogStep, Refusal, System};

const LOGS: usize = 10_000;

fn system_of(system: &Second) -> System {
    System::from_sheet(&write(&Sheet { system: system.clone(), order: Vec::new() })).unwrap()
}

/// Where the second replay refuses a log, the first step that it does not take or the end; and whether one row was left alone by then.
fn second(system: &Second, log: &Log) -> (LogPlace, bool) {
    let mut replay = Replay::new(system, None);
    for (at, step) in log.steps.iter().enumerate() {
        let taken = Step::of(&step.numbers(), None).and_then(|step| replay.take(&step));
        if taken.is_err() {
            return (LogPlace::Step(at + 1), replay.system().rows.len() == 1);
        }
    }
    (LogPlace::End, replay.system().rows.len() == 1)
}

#[test]
fn the_second_replay_agrees() {
    let mut random = Random::new(40);
    let (mut steps, mut ends, mut limits, mut untold) = (0, 0, 0, 0);
    for _ in 0..LOGS {
        let (system, made) = elsewhere(&mut random);
        // What is malformed cannot be written as text, and is told by its line before any replay.
        let Ok(log) = Log::of_numbers(made.steps, &made.numbers) else { continue };
        let first = system_of(&system);
        let Err(refusal) = first.clone().replay(&log) else { continue };
        let found = place(&first, &log, refusal);
        let (agreed, is_alone) = second(&system, &log);
        assert!(found == Some(agreed) || found.is_none() && is_alone, "{found:?}, {agreed:?}: {refusal}\n{log}");
        match found {
            Some(LogPlace::Step(_)) if refusal == Refusal(13) => steps += 1,
            Some(LogPlace::Step(_)) => limits += 1,
            Some(LogPlace::End) => ends += 1,
            None => untold += 1,
        }
    }
    assert!(steps > LOGS / 20 && ends > LOGS / 20 && limits > LOGS / 100, "{steps} {ends} {limits} {untold}");
    assert!(untold < LOGS / 100, "{steps} {ends} {limits} {untold}");
}

/// x(n) = 0 or another single row: every step that it allows, and one that it does not.
#[test]
fn one_row_alone() {
    let system = |sheet: &[u8]| System::from_sheet(sheet).unwrap();
    let log = |text: &str| -> Log { text.parse().unwrap() };
    let wrong = Refusal(13);
    let alone = system(b"3 1 1 0\n1\n1 0 1 1 1\n0\n0\n"); // x(n) = 0, with l = 1
    assert_eq!(place(&alone, &log("up 1\nup 1\norder 1\n"), wrong), Some(LogPlace::Step(2)));
    assert_eq!(place(&alone, &log("drop 1\norder\n"), wrong), Some(LogPlace::Step(1)));
    assert_eq!(place(&alone, &log("order 1\n"), wrong), Some(LogPlace::End));
    assert_eq!(place(&alone, &log("exchange 1 1\norder 1\n"), wrong), Some(LogPlace::Step(1)));
    let zero = system(b"3 1 1 0\n1\n0\n0\n0\n"); // 0 = 0
    assert_eq!(place(&zero, &log("down 1\ndrop 1\nup 1\norder\n"), wrong), Some(LogPlace::Step(3)));
    assert_eq!(place(&zero, &log("down 1\ndrop 1\norder 1\n"), wrong), Some(LogPlace::End));
    let contradiction = system(b"3 1 1 0\n1\n0\n0\n0\n1\n1 5\n"); // 0 = 5: no log leads to an end
    assert_eq!(place(&contradiction, &log("up 1\ndrop 1\norder\n"), wrong), None);
    let two = system(b"3 1 1 0\n2\n0\n0\n0\n0\n2\n1 5\n0\n"); // 0 = 5 and 0 = 0
    assert_eq!(place(&two, &log("drop 1\norder\n"), wrong), Some(LogPlace::Step(1)));
    assert_eq!(place(&two, &log("drop 2\ndrop 1\norder\n"), wrong), None);
    let long = Log { steps: vec![LogStep::Up { i: 1 }; 999], order: [1, 0, 0, 0] };
    assert_eq!(place(&alone, &long, wrong), None);
}
