//! The leading run by steps (02, U9) through the library.

use std::fs;
use std::path::Path;
use wurgalm::{prepare, read_sheet, row_store, run_leading, run_steps, stores};
use wurgalm::{Heading, Progress, Refusal, Refused, Report, Run, Sizes, State, EQUATIONS, RELATION_STORE, ROW};

/// n x(n+1) = y(n), x(n+1) = x(n)
const K2: &str = "3 2 1 0\n2\n2 1 1 2 0 1 0 2 1 -1\n2 1 1 1 1 0 1 1 -1\n0\n0\n";
/// x = 1 and x = 2
const CONTRADICTION: &str = "3 1 0 0\n2\n1 0 1 1 1\n1 0 1 1 1\n0\n0\n2\n1 1\n1 2\n";

/// A system in stores that are long enough for any.
#[derive(Clone, Debug, PartialEq, Eq)]
struct Held {
    rows: Vec<i64>,
    relations: Vec<i64>,
    heading: Heading,
}

impl Held {
    fn of(sheet: &[u8]) -> Held {
        let (mut rows, mut relations) = (vec![0; row_store(EQUATIONS)], vec![0; RELATION_STORE]);
        let heading = read_sheet(sheet, &mut rows, &mut relations).unwrap();
        Held { rows, relations, heading }
    }

    fn run(&mut self) -> Run<'_> {
        Run::prepare(&mut self.rows, &mut self.relations, self.heading.sizes, self.heading.relations).unwrap()
    }

    fn whole(&mut self) -> Result<Report, Refusal> {
        run_leading(&mut self.rows, &mut self.relations, self.heading.sizes, self.heading.relations)
    }
}

/// Every sheet of the examples: with every budget the run ends as the whole run, and takes the same steps in all.
#[test]
fn examples() {
    let folder = Path::new(env!("CARGO_MANIFEST_DIR")).join("../../examples");
    let mut sheets = 0;
    for entry in fs::read_dir(folder).unwrap() {
        let path = entry.unwrap().path();
        if path.extension().is_none_or(|extension| extension != "sheet") {
            continue;
        }
        let sheet = fs::read(&path).unwrap();
        let mut whole = Held::of(&sheet);
        let expected = whole.whole();
        let mut all = None;
        for budget in [1, 2, 3, 5, 252, usize::MAX] {
            let mut parts = Held::of(&sheet);
            let mut run = parts.run();
            let last = run.steps(budget).last().unwrap();
            let taken = run.taken();
            assert_eq!(*all.get_or_insert(taken), taken, "{}", path.display());
            let report = last.map(|progress| progress.report.unwrap()).map_err(|refused| refused.refusal);
            assert_eq!(report, expected, "{}", path.display());
            assert!(parts.rows == whole.rows && parts.relations == whole.relations, "{}", path.display());
        }
        sheets += 1;
    }
    assert_eq!(sheets, 10);
}

/// The steps of K2, one by one.
#[test]
fn states() {
    let mut held = Held::of(K2.as_bytes());
    let sizes = held.heading.sizes;
    let state = |relations, settled, order, shifts| State { sizes, relations, settled, order, shifts };
    let mut run = held.run();
    assert_eq!(run.state(), state(0, 0, [0; 4], 0));
    let states: Vec<State> = run.steps(1).map(|progress| progress.unwrap().state).collect();
    let (one, both) = ([1, 0, 0, 0], [1, 2, 0, 0]);
    let expected =
        [state(0, 1, one, 0), state(1, 1, one, 0), state(1, 1, one, 1), state(2, 1, one, 1), state(2, 2, both, 1)];
    assert_eq!(states, expected);
    assert_eq!((run.taken(), run.state()), (5, expected[4]));
    // A finished run takes no step more, and tells its report again.
    let again: Vec<_> = run.steps(9).collect();
    let report = Report { relations: 2, shifts: 1, order: both, root: Some(0), rank: 2, multiplicity: 1 };
    assert_eq!(again, [Ok(Progress { steps: 0, state: expected[4], report: Some(report) })]);
}

/// With budget 0 nothing moves.
#[test]
fn budget_none() {
    let mut held = Held::of(K2.as_bytes());
    let before = held.clone();
    let mut run = held.run();
    let looks: Vec<_> = run.steps(0).collect();
    let state = run.state();
    assert_eq!(looks, [Ok(Progress { steps: 0, state, report: None })]);
    assert_eq!(held, before);
}

/// A step that is refused is not counted; stores and state are zero, and the iterator has ended.
#[test]
fn refused_by_a_step() {
    for (budget, items, steps) in [(1, 2, 0), (2, 1, 1), (usize::MAX, 1, 1)] {
        let mut held = Held::of(CONTRADICTION.as_bytes());
        let mut run = held.run();
        let answers: Vec<_> = run.steps(budget).collect();
        assert_eq!(answers.len(), items);
        assert_eq!(answers[items - 1], Err(Refused { refusal: Refusal(10), steps }));
        assert_eq!((run.taken(), run.steps(1).next()), (1, None));
        let zeros = Sizes { m: 0, equations: 0, l: 0, t: 0 };
        assert_eq!(run.state(), State { sizes: zeros, relations: 0, settled: 0, order: [0; 4], shifts: 0 });
        assert!(held.rows.iter().chain(&held.relations).all(|&number| number == 0));
    }
    assert_eq!(Refused { refusal: Refusal(10), steps: 1 }.to_string(), "refused with 10, steps before it: 1");
}

/// States that are handed in and are not right: 11, and nothing changes.
#[test]
fn refused_by_the_checks() {
    let mut held = Held::of(K2.as_bytes());
    let mut run = held.run();
    run.advance(2).unwrap();
    let good = run.state();
    let before = held.clone();
    let mut sizes = [good.sizes; 8];
    (sizes[0].m, sizes[1].m, sizes[2].equations, sizes[3].equations) = (0, usize::MAX, 7, 1 << 63);
    (sizes[4].l, sizes[5].l, sizes[6].t, sizes[7].t) = (65, i64::MAX, 2, i64::MIN);
    let mut states: Vec<State> = sizes.into_iter().map(|sizes| State { sizes, ..good }).collect();
    for count in [17, 1 << 63, usize::MAX] {
        states.push(State { settled: count, ..good });
        states.push(State { relations: count, ..good });
        states.push(State { shifts: count, ..good });
    }
    states.extend([State { settled: 3, ..good }, State { shifts: 7, ..good }]);
    for order in [[0; 4], [2, 0, 0, 0], [3, 0, 0, 0], [-1, 0, 0, 0], [1, 1, 0, 0], [1, 0, 0, i64::MIN]] {
        states.push(State { order, ..good });
    }
    // Of the relations that the store holds, one less: there is a number at an unused place.
    states.push(State { relations: 0, ..good });
    for wrong in states {
        let mut state = wrong;
        let refused = run_steps(&mut held.rows, &mut held.relations, &mut state, 5);
        assert_eq!(refused, Err(Refused { refusal: Refusal(11), steps: 0 }), "{wrong:?}");
        assert!(held == before && state == wrong);
    }
    let mut state = good;
    let short = run_steps(&mut held.rows[..2 * ROW - 1], &mut held.relations, &mut state, 5);
    assert_eq!((short, state), (Err(Refused { refusal: Refusal(1), steps: 0 }), good));
    // A settled column is not the lowest one by itself: with an entry there it is right.
    held.rows[16] = 1;
    let mut state = State { order: [2, 0, 0, 0], ..good };
    assert_eq!(run_steps(&mut held.rows, &mut held.relations, &mut state, 0).unwrap().steps, 0);
    let mut resumed = Run::resume(&mut held.rows, &mut held.relations, state);
    assert!(resumed.steps(1).all(|answer| answer.is_ok()));
}

/// What `prepare` checks, and the exported calls in stores that are too short.
#[test]
fn stores_too_short() {
    let Held { mut rows, mut relations, heading } = Held::of(K2.as_bytes());
    let Sizes { m, equations, l, t } = heading.sizes;
    assert_eq!(prepare(&rows, &relations, Sizes { m: 5, ..heading.sizes }, 0), Err(Refusal(2)));
    assert_eq!(prepare(&rows[..2 * ROW - 1], &relations, heading.sizes, 0), Err(Refusal(1)));
    let mut state = [7; 12];
    assert_eq!(stores::prepare(&rows, &relations, m, equations, l, t, 0, &mut state[..10]), 1);
    assert_eq!(stores::prepare(&rows, &relations, 5, equations, l, t, 0, &mut []), 2);
    assert_eq!(state, [7; 12]);
    assert_eq!(stores::prepare(&rows, &relations, m, equations, l, t, 0, &mut state), 0);
    assert_eq!(state, [2, 2, 1, 0, 0, 0, 0, 0, 0, 0, 0, 7]);
    let (kept, mut result) = ((rows.clone(), relations.clone(), state), [7; 12]);
    // A state of ten numbers comes before all else; a result of eleven comes after the sizes and before the numbers.
    assert_eq!(stores::run_steps(&mut [], &mut [], &mut state[..10], 1, &mut []), 1);
    assert_eq!(stores::run_steps(&mut rows, &mut relations, &mut state, 1, &mut result[..11]), 1);
    rows[0] = i64::MAX;
    assert_eq!(stores::run_steps(&mut rows, &mut relations, &mut state, 1, &mut result[..11]), 1);
    assert_eq!(stores::run_steps(&mut rows, &mut relations, &mut state, 1, &mut result), 11);
    state[0] = -1;
    assert_eq!(stores::run_steps(&mut [], &mut [], &mut state, 1, &mut []), 11);
    (rows[0], state[0]) = (0, 2);
    assert!((rows, relations, state) == kept && result == [7; 12]);
}
