//! Elimination logs (02, U12) through the library.

use std::fs;
use std::path::Path;
use wurgalm::{read_sheet, replay, row_store, run_leading, run_logged, stores};
use wurgalm::{Heading, Log, LogStep, Malformed, Refusal, Report, EQUATIONS, LOG_STEP, LOG_STEPS, RELATION_STORE, ROW};

/// n x(n+1) = y(n), x(n+1) = x(n)
const K2: &str = "3 2 1 0\n2\n2 1 1 2 0 1 0 2 1 -1\n2 1 1 1 1 0 1 1 -1\n0\n0\n";
/// The second equation first, so that no relation is lost.
const OTHER: &str = "exchange 1 2\ncombine 2 1 1 1 -1 2 0 1\nup 2\ncombine 2 1 1 1 1 2 1 1\norder 1 2\n";

/// A system in stores that are long enough for any.
#[derive(Clone, Debug, PartialEq, Eq)]
struct Held {
    rows: Vec<i64>,
    relations: Vec<i64>,
    heading: Heading,
}

impl Held {
    fn of(sheet: &[u8]) -> Held {
        let (mut rows, mut relations) = (vec![0; row_store(EQUATIONS)], vec![0; RELATION_STORE]);
        let heading = read_sheet(sheet, &mut rows, &mut relations).unwrap();
        Held { rows, relations, heading }
    }

    fn replay(&mut self, log: &Log) -> Result<Report, Refusal> {
        replay(&mut self.rows, &mut self.relations, self.heading.sizes, self.heading.relations, log)
    }
}

/// Every sheet of the examples: the run with its log is the run, and the log's replay leaves the same.
#[test]
fn examples() {
    let folder = Path::new(env!("CARGO_MANIFEST_DIR")).join("../../examples");
    let (mut accepted, mut refused) = (0, 0);
    for entry in fs::read_dir(folder).unwrap() {
        let path = entry.unwrap().path();
        if path.extension().is_none_or(|extension| extension != "sheet") {
            continue;
        }
        let sheet = fs::read(&path).unwrap();
        let (mut run, mut logged, mut again) = (Held::of(&sheet), Held::of(&sheet), Held::of(&sheet));
        let Heading { sizes, relations: count, .. } = run.heading;
        let expected = run_leading(&mut run.rows, &mut run.relations, sizes, count);
        let found = run_logged(&mut logged.rows, &mut logged.relations, sizes, count);
        assert_eq!(logged, run, "{}", path.display());
        match found {
            Ok((report, log)) => {
                assert_eq!(Ok(report), expected, "{}", path.display());
                assert_eq!(again.replay(&log), expected, "{}", path.display());
                assert_eq!(again, run, "{}", path.display());
                assert_eq!(log.to_string().parse(), Ok(log));
                accepted += 1;
            }
            Err(refusal) => {
                assert_eq!(Err(refusal), expected, "{}", path.display());
                refused += 1;
            }
        }
    }
    assert!(accepted > 8 && refused > 0);
}

#[test]
fn other_pivots() {
    let (mut held, log) = (Held::of(K2.as_bytes()), OTHER.parse::<Log>().unwrap());
    let order = [1, 2, 0, 0];
    let report = Report { relations: 0, shifts: 1, order, root: None, rank: 2, multiplicity: 0 };
    assert_eq!(held.replay(&log), Ok(report));
    // x(n+1) = x(n), y(n+1) = (n + 1) x(n)
    let left = Held::of(b"3 2 1 0\n2\n2 1 1 1 1 0 1 1 -1\n2 1 2 1 1 0 1 2 -1 -1\n0\n2 1 2\n");
    assert_eq!((held.rows, held.relations), (left.rows, left.relations));
}

/// Steps that are wrong, in the log above at its beginning; and wrong ends.
#[test]
fn refused() {
    let zeros = |step: LogStep, number: u8| {
        let (mut held, mut log) = (Held::of(K2.as_bytes()), OTHER.parse::<Log>().unwrap());
        log.steps.insert(0, step);
        assert_eq!(held.replay(&log), Err(Refusal(number)), "{step}");
        assert!(held.rows.iter().chain(&held.relations).all(|&a| a == 0), "{step}");
    };
    let combine = |i, j, integer, g: &[i64], h: &[i64]| LogStep::combine(i, j, integer, g, h).unwrap();
    for step in [LogStep::Up { i: 1 }, LogStep::Down { i: 1 }, LogStep::Drop { i: 2 }, LogStep::Drop { i: 3 }] {
        zeros(step, 13);
    }
    for (i, j) in [(1, 1), (0, 1), (1, 0), (3, 1), (2, usize::MAX)] {
        zeros(LogStep::Exchange { i, j }, 13);
        zeros(combine(i, j, 1, &[1], &[]), 13);
    }
    for integer in [0, -1, 2, i64::MIN, i64::MAX] {
        zeros(combine(1, 2, integer, &[1], &[]), 13);
    }
    zeros(combine(1, 2, 1, &[], &[1]), 13);
    zeros(combine(1, 2, 1, &[268_435_456], &[]), 13);
    zeros(combine(1, 2, 1, &[268_435_455, 268_435_455], &[268_435_455, 1]), 8);
    zeros(combine(1, 2, 1, &[0, 0, 0, 0, 0, 0, 0, 0, 0, 0, 0, 0, 0, 0, 0, 1], &[]), 7);
    for order in [[2, 1, 0, 0], [1, 0, 0, 0], [1, 2, 1, 0], [1, 1, 0, 0], [1, 2, 0, i64::MAX]] {
        let mut log: Log = OTHER.parse().unwrap();
        log.order = order;
        assert_eq!(Held::of(K2.as_bytes()).replay(&log), Err(Refusal(13)));
    }
    // Steps past the most that a log can have are refused before the work, and nothing is changed.
    let (mut held, before) = (Held::of(K2.as_bytes()), Held::of(K2.as_bytes()));
    let exchanges = |count| Log { steps: vec![LogStep::Exchange { i: 1, j: 2 }; count], order: [0; 4] };
    assert_eq!(held.replay(&exchanges(LOG_STEPS + 1)), Err(Refusal(2)));
    assert_eq!(held, before);
    assert_eq!(held.replay(&exchanges(LOG_STEPS)), Err(Refusal(13)));
}

#[test]
fn numbers_and_text() {
    let log: Log = OTHER.parse().unwrap();
    assert_eq!(log.to_string(), OTHER);
    let numbers = log.numbers();
    assert_eq!(numbers.len(), 4 * LOG_STEP + 4);
    assert_eq!(numbers[LOG_STEP..LOG_STEP + 6], [2, 2, 1, 1, -1, 0]);
    assert_eq!(numbers[LOG_STEP + 20..LOG_STEP + 23], [0, 1, 0]);
    assert_eq!(Log::of_numbers(4, &numbers).as_ref(), Ok(&log));
    assert_eq!(Log::of_numbers(4, &[&numbers[..], &[7; 40]].concat()).as_ref(), Ok(&log));
    assert_eq!(Log::of_numbers(4, &numbers[..numbers.len() - 1]), Err(Malformed));
    assert_eq!(Log::of_numbers(usize::MAX, &numbers), Err(Malformed));
    for (place, number) in [(0, 0), (0, 6), (1, -1), (3, 1), (4, 1), (35, 1), (2 * LOG_STEP + 2, 1)] {
        let mut wrong = numbers.clone();
        wrong[place] = number;
        assert_eq!(Log::of_numbers(4, &wrong), Err(Malformed), "{number} at {place}");
    }
    let wrong =
        ["", "up 1\n", "up\norder\n", "up 1 2\norder\n", "up -1\norder\n", "left 1\norder\n", "order 1 2 3 4 5\n"];
    let combinations =
        ["combine 1 2 1 1 1 1\norder\n", "combine 1 2 1 1 1 0 0\norder\n", "combine 1 2 1 -1 0\norder\n"];
    for text in wrong.into_iter().chain(combinations) {
        assert_eq!(text.parse::<Log>(), Err(Malformed), "{text:?}");
    }
    assert_eq!("order\n".parse(), Ok(Log::default()));
    assert!(
        LogStep::combine(1, 2, 1, &[1; 16], &[1; 16]).is_some() && LogStep::combine(1, 2, 1, &[1; 17], &[]).is_none()
    );
}

/// Stores too short, each of them, and what is past their needs.
#[test]
fn short_stores() {
    const LOG: usize = LOG_STEP * LOG_STEPS + 4;
    let given = Held::of(K2.as_bytes());
    let numbers = OTHER.parse::<Log>().unwrap().numbers();
    let logged = |rows: usize, relations: usize, log: usize, result: usize| {
        let mut stores =
            [given.rows[..rows].to_vec(), given.relations[..relations].to_vec(), vec![7; log], vec![7; result]];
        let before = stores.clone();
        let [rows, relations, log, result] = &mut stores;
        let number = stores::run_logged(rows, relations, 2, 2, 1, 0, 0, log, result);
        (number, stores == before)
    };
    assert_eq!(logged(2 * ROW, RELATION_STORE, LOG, 11), (0, false));
    assert_eq!(logged(2 * ROW - 1, RELATION_STORE, LOG, 11), (1, true));
    assert_eq!(logged(2 * ROW, RELATION_STORE - 1, LOG, 11), (1, true));
    assert_eq!(logged(2 * ROW, RELATION_STORE, LOG - 1, 11), (1, true));
    assert_eq!(logged(2 * ROW, RELATION_STORE, LOG, 10), (1, true));
    let replayed = |rows: usize, relations: usize, log: usize, result: usize| {
        let mut stores = [given.rows[..rows].to_vec(), given.relations[..relations].to_vec(), vec![7; result]];
        let before = stores.clone();
        let [rows, relations, result] = &mut stores;
        let number = stores::replay(rows, relations, 2, 2, 1, 0, 0, 4, &numbers[..log], result);
        (number, stores == before)
    };
    assert_eq!(replayed(2 * ROW, RELATION_STORE, numbers.len(), 10), (0, false));
    assert_eq!(replayed(2 * ROW - 1, RELATION_STORE, numbers.len(), 10), (1, true));
    assert_eq!(replayed(2 * ROW, RELATION_STORE - 1, numbers.len(), 10), (1, true));
    assert_eq!(replayed(2 * ROW, RELATION_STORE, numbers.len() - 1, 10), (1, true));
    assert_eq!(replayed(2 * ROW, RELATION_STORE, numbers.len(), 9), (1, true));
}
