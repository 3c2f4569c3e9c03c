//! Elimination logs: by hand, and against a folder of vectors where one is named, as in `vectors.rs` (02, U12).

use outside::elimination::Side;
use outside::logs::*;
use outside::polynomial::Polynomial;
use outside::sheet::{read, write, Sheet};
use outside::stores::*;
use outside::system::{Sizes, System};
use std::path::PathBuf;
use std::{env, fs};

/// A system in stores with 9 past what a call needs, and what the calls on them answer.
#[derive(Clone, Debug, PartialEq, Eq)]
struct Lent {
    asked: Asked,
    rows: Vec<i64>,
    relations: Vec<i64>,
    result: Vec<i64>,
}

impl Lent {
    fn of(system: &System, result: usize) -> Lent {
        let (Sizes { m, l, t }, equations) = (system.sizes, system.rows.len());
        let with_nines = |length: usize| [vec![0; length], vec![9; 2]].concat();
        let (mut rows, mut relations) = (with_nines(row_store(equations)), with_nines(RELATION_STORE));
        store(system, &mut rows, &mut relations);
        let asked = Asked { m, equations, l, t, count: system.relations.len() };
        Lent { asked, rows, relations, result: vec![9; result + 2] }
    }

    fn sheet(bytes: &[u8], result: usize) -> Lent {
        Lent::of(&read(bytes, None).expect("a whole sheet").system, result)
    }

    fn run(&mut self) -> u8 {
        run_on_stores(Side::Leading, &mut self.rows, &mut self.relations, self.asked, &mut self.result, None)
    }

    fn replay(&mut self, steps: usize, log: &[i64]) -> u8 {
        let Lent { asked, rows, relations, result } = self;
        replay_on_stores(rows, relations, *asked, steps, log, result, None)
    }

    fn run_logged(&mut self, log: &mut [i64]) -> u8 {
        let Lent { asked, rows, relations, result } = self;
        run_logged_on_stores(rows, relations, *asked, log, result, None)
    }

    /// Nothing but zeros in the needed parts, and nothing changed behind them.
    fn cleared(&self, result: usize) -> bool {
        let needs = [row_store(self.asked.equations), RELATION_STORE, result];
        let stores = [&self.rows, &self.relations, &self.result];
        stores
            .iter()
            .zip(needs)
            .all(|(numbers, need)| numbers[..need].iter().all(|&a| a == 0) && numbers[need..].iter().all(|&a| a == 9))
    }

    /// The sheet of what an accepted call left, by its result.
    fn text(&self) -> String {
        let [count, rank] = [0, 8].map(|k| self.result[k] as usize);
        let asked = Asked { equations: rank, count, ..self.asked };
        let (mut bytes, mut length) = (vec![0; 1 << 17], [0]);
        let (rows, order) = (&self.rows, &self.result[2..6]);
        assert_eq!(write_on_stores(rows, &self.relations, asked, order, &mut bytes, &mut length, None), 0);
        String::from_utf8(bytes[..length[0] as usize].to_vec()).unwrap()
    }
}

/// The numbers of steps, and an order.
fn log(steps: &[Step], order: [i64; 4]) -> Vec<i64> {
    steps.iter().flat_map(Step::numbers).chain(order).collect()
}

fn of(coefficients: &[i128]) -> Polynomial {
    Polynomial::new(coefficients.to_vec())
}

fn combine(i: usize, j: usize, integer: i128, g: &[i128], h: &[i128]) -> Step {
    Step::Combine { i, j, integer, g: of(g), h: of(h) }
}

/// The answer of a replay: the refusal, or what it leaves. A refusal during the work clears the stores.
fn replayed(sheet: &str, steps: &[Step], order: [i64; 4]) -> Result<String, u8> {
    let mut lent = Lent::sheet(sheet.as_bytes(), RESULT);
    match lent.replay(steps.len(), &log(steps, order)) {
        0 => Ok(lent.text()),
        refusal => {
            assert!(lent.cleared(RESULT));
            Err(refusal)
        }
    }
}

/// n x(n+1) - y(n), x(n+1) - x(n), which is K2.
const K2: &str = "3 2 1 0\n2\n2 1 1 2 0 1 0 2 1 -1\n2 1 1 1 1 0 1 1 -1\n0\n0\n";

/// A leading run begins with n × row 2 - row 1, and lists row 2 at 0.
#[test]
fn own_log_of_k2() {
    let mut run = Lent::sheet(K2.as_bytes(), RESULT);
    let mut logged = Lent::sheet(K2.as_bytes(), LOGGED_RESULT);
    let mut written = vec![9; LOG_STORE + 2];
    assert_eq!((run.run(), logged.run_logged(&mut written)), (0, 0));
    assert_eq!((&run.rows, &run.relations), (&logged.rows, &logged.relations));
    assert_eq!(run.result[..RESULT], logged.result[..RESULT]);
    let steps = logged.result[RESULT] as usize;
    assert_eq!(logged.result[LOGGED_RESULT..], [9, 9]);
    assert_eq!(Step::of(&written[..STEP], None), Ok(combine(2, 1, 1, &[0, 1], &[-1])));
    assert_eq!(written[STEP * steps..log_need(steps)], logged.result[2..6]);
    assert!(written[log_need(steps)..LOG_STORE].iter().all(|&a| a == 0));
    assert_eq!(written[LOG_STORE..], [9, 9]);
    let mut again = Lent::sheet(K2.as_bytes(), RESULT);
    assert_eq!(again.replay(steps, &written), 0);
    assert_eq!(again, run);
}

/// Other pivots than a run's: the second row first, so that g is -1 and no relation is listed. What is left is x(n+1) - x(n) and
/// n x(n) - y(n), turned, which goes up and is freed of x(n+1).
#[test]
fn other_pivots() {
    let steps = [Step::Exchange(1, 2), combine(2, 1, 1, &[-1], &[0, 1]), Step::Up(2), combine(2, 1, 1, &[1], &[1, 1])];
    let left = "3 2 1 0\n2\n2 1 1 1 1 0 1 1 -1\n2 1 2 1 1 0 1 2 -1 -1\n0\n2 1 2\n";
    assert_eq!(replayed(K2, &steps, [1, 2, 0, 0]).as_deref(), Ok(left));
    assert_eq!(replayed(K2, &steps, [2, 1, 0, 0]), Err(13));
    // Before the last step row 2 has both unknowns in block 1, so that it has to be the first, with y.
    assert_eq!(replayed(K2, &steps[..3], [1, 2, 0, 0]), Err(13));
    assert_eq!(replayed(K2, &steps[..3], [2, 1, 0, 0]), Err(13));
    let turned = [&steps[..3], &[Step::Exchange(2, 1)]].concat();
    let left = "3 2 1 0\n2\n2 1 1 2 -1 -1 1 2 1 1\n2 1 1 1 1 0 1 1 -1\n0\n2 2 1\n";
    assert_eq!(replayed(K2, &turned, [2, 1, 0, 0]).as_deref(), Ok(left));
    assert_eq!(replayed(K2, &turned, [1, 2, 0, 0]), Err(13));
}

/// Forms and conditions.
#[test]
fn wrong_steps() {
    let one = "3 1 1 0\n1\n1 1 1 2 -3 1\n0\n0\n";
    assert!(replayed(one, &[], [1, 0, 0, 0]).is_ok());
    for order in [[0; 4], [2, 0, 0, 0], [-1, 0, 0, 0], [1, 1, 0, 0], [0, 1, 0, 0], [1, 0, 0, 1], [i64::MIN, 0, 0, 0]] {
        assert_eq!(replayed(one, &[], order), Err(13));
    }
    for step in [Step::Exchange(1, 1), Step::Exchange(1, 2), Step::Up(1), Step::Up(2), Step::Down(2), Step::Drop(1)] {
        assert_eq!(replayed(one, &[step], [1, 0, 0, 0]), Err(13));
    }
    // Each field that is not used, in each kind, and rows and kinds out of their range.
    let right = [Step::Exchange(1, 2), combine(1, 2, 1, &[1], &[]), Step::Up(1), Step::Down(1), Step::Drop(1)];
    for step in &right {
        let numbers = step.numbers();
        assert_eq!(Step::of(&numbers, None).as_ref(), Ok(step));
        for k in 0..STEP {
            let used = match step {
                Step::Exchange(..) => k < 3,
                Step::Combine { .. } => true,
                _ => k < 2,
            };
            for number in [1, -1, i64::MAX, i64::MIN] {
                let mut other = numbers;
                other[k] = number;
                assert!(used || Step::of(&other, None) == Err(13), "{step:?} with {number} at {k}");
            }
        }
        for (k, number) in [(0, 0), (0, 6), (0, -1), (1, 0), (1, -1)] {
            let mut other = numbers;
            other[k] = number;
            assert_eq!(Step::of(&other, None), Err(13));
        }
    }
    let wrong = |k: usize, number: i64| {
        let mut numbers = right[1].numbers();
        numbers[k] = number;
        Step::of(&numbers, None).is_err()
    };
    assert!(wrong(2, 0) && wrong(3, 0) && wrong(3, -1) && !wrong(3, i64::MAX));
    for k in [4, 19, 20, 35] {
        assert!(!wrong(k, 268_435_455) && wrong(k, 268_435_456) && !wrong(k, -268_435_455) && wrong(k, -268_435_456));
    }
}

/// (n - 3) x(n) with 6 on the right, and the same doubled.
#[test]
fn combinations() {
    let two = "3 1 1 0\n2\n1 0 1 2 -3 1\n1 0 1 2 -6 2\n0\n0\n2\n1 6\n1 12\n";
    // 2 × row 1 - row 2 is zero, so any integer divides it, and it may be dropped. The other one goes up.
    let end = [Step::Drop(1), Step::Up(1)];
    for integer in [1, 7, i64::MAX as i128] {
        let steps = [&[combine(1, 2, integer, &[2], &[-1])], &end[..]].concat();
        let left = "3 1 1 0\n1\n1 1 1 2 -4 2\n0\n1 1\n1\n1 12\n";
        assert_eq!(replayed(two, &steps, [1, 0, 0, 0]).as_deref(), Ok(left));
    }
    // Two rows are more than m.
    assert_eq!(replayed(two, &[Step::Up(1), Step::Up(2)], [1, 0, 0, 0]), Err(13));
    assert_eq!(replayed(two, &[Step::Up(1), Step::Up(2)], [1, 2, 0, 0]), Err(13));
    // h may be zero, g may not; 2 divides 2 × row 1, and 4 does not.
    let half = |integer| {
        let steps = [combine(1, 2, integer, &[2], &[]), combine(2, 1, 1, &[1], &[-2]), Step::Drop(2), Step::Up(1)];
        replayed(two, &steps, [1, 0, 0, 0])
    };
    assert!(half(1) == Err(13) && half(2).is_ok() && half(4) == Err(13));
    assert_eq!(replayed(two, &[combine(1, 2, 1, &[], &[1])], [1, 0, 0, 0]), Err(13));
    assert_eq!(replayed(two, &[combine(1, 1, 1, &[1], &[1])], [1, 0, 0, 0]), Err(13));
    // The side has to be divided too: 3 divides the left part of row 1 + row 2 alone.
    let side = "3 1 0 0\n2\n1 0 1 1 3\n1 0 1 1 3\n0\n0\n2\n1 3\n1 1\n";
    assert_eq!(replayed(side, &[combine(1, 2, 3, &[1], &[1])], [1, 0, 0, 0]), Err(13));
    // A row that is zero on the left alone is no row to drop, and not refused with 10.
    assert_eq!(replayed(side, &[combine(1, 2, 2, &[1], &[-1]), Step::Drop(1)], [1, 0, 0, 0]), Err(13));
    assert_eq!(replayed(side, &[combine(1, 2, 2, &[1], &[-1])], [1, 0, 0, 0]), Err(13));
}

/// Down takes n - 1 on both sides; up gives the row back, and only up is counted.
#[test]
fn down_and_up() {
    let sheet = "3 1 1 0\n1\n1 1 1 3 0 0 1\n0\n0\n1\n2 0 5\n";
    let mut lent = Lent::sheet(sheet.as_bytes(), RESULT);
    let steps = [Step::Down(1), Step::Up(1), Step::Down(1), Step::Up(1)];
    assert_eq!(lent.replay(4, &log(&steps, [1, 0, 0, 0])), 0);
    assert_eq!(lent.result, [0, 2, 1, 0, 0, 0, 1, 0, 1, 2, 9, 9]);
    assert_eq!(lent.text(), sheet.replace("\n0\n0\n1\n", "\n0\n1 1\n1\n"));
    assert_eq!(replayed(sheet, &steps[..1], [1, 0, 0, 0]), Err(13));
    assert_eq!(replayed(sheet, &[Step::Down(1), Step::Down(1)], [1, 0, 0, 0]), Err(13));
    // n^2 x(n) = 5 n goes down to (n - 1)^2 x(n-1) = 5 n - 5, is added to y(n) = 0, and goes up again.
    let two = "3 2 0 -1\n2\n1 0 2 1 1\n1 0 1 3 0 0 1\n0\n0\n2\n0\n2 0 5\n";
    let left = "3 2 0 -1\n2\n2 0 2 1 1 -1 1 3 1 -2 1\n1 0 1 3 0 0 1\n0\n2 2 1\n2\n2 -5 5\n2 0 5\n";
    let added = [Step::Down(2), combine(1, 2, 1, &[1], &[1]), Step::Up(2)];
    assert_eq!(replayed(two, &added, [2, 1, 0, 0]).as_deref(), Ok(left));
    // C n^2 down has 2 C.
    let large = format!("3 1 1 0\n1\n1 1 1 3 0 0 {}\n0\n0\n", outside::C);
    assert_eq!(replayed(&large, &steps, [1, 0, 0, 0]), Err(8));
}

/// The limits, 9 before 7 before 8, and all of them behind the condition.
#[test]
fn limits() {
    let system = |relations: usize, p: &str| {
        let relation = "5 1 0 1 1 1\n".repeat(relations);
        format!("3 1 0 0\n2\n1 0 1 {p}\n0\n{relations}\n{relation}0\n")
    };
    let (top, large) = ("16 0 0 0 0 0 0 0 0 0 0 0 0 0 0 0 268435455", "1 268435455");
    let after = |sheet: &str, integer, g: &[i128]| {
        replayed(sheet, &[combine(1, 2, integer, g, &[]), Step::Drop(2)], [1, 0, 0, 0])
    };
    assert!(after(&system(15, "1 1"), 1, &[0, 1]).is_ok());
    assert_eq!(after(&system(16, "1 1"), 1, &[0, 1]), Err(9));
    assert_eq!(after(&system(15, "1 1"), 1, &[0, -1, 1]), Err(9));
    assert!(after(&system(16, "1 1"), 1, &[2, 0, 1]).is_ok());
    assert_eq!(after(&system(16, top), 1, &[0, 2]), Err(9));
    assert_eq!(after(&system(15, top), 1, &[0, 2]), Err(7));
    assert_eq!(after(&system(16, large), 1, &[2]), Err(8));
    assert!(after(&system(16, large), 2, &[2]).is_ok());
    assert_eq!(after(&system(16, top), 4, &[0, 2]), Err(13));
    // The relation is the row before the step, by rising n0.
    let left = "3 1 0 0\n1\n1 0 1 4 0 -7 0 7\n3\n-1 1 0 1 1 7\n0 1 0 1 1 7\n1 1 0 1 1 7\n1 1\n";
    assert_eq!(after(&system(0, "1 7"), 1, &[0, -1, 0, 1]).as_deref(), Ok(left));
}

/// Sizes, lengths, numbers, in this order, and nothing is changed.
#[test]
fn refused_before_the_work() {
    let refusal = |steps: usize, length: usize, change: fn(&mut Lent)| {
        let mut lent = Lent::sheet(K2.as_bytes(), LOGGED_RESULT);
        change(&mut lent);
        let (before, mut written) = (lent.clone(), vec![9; length]);
        let answers = [lent.replay(steps, &written), lent.run_logged(&mut written)];
        assert_eq!(lent, before);
        assert!(written.iter().all(|&a| a == 9));
        answers
    };
    assert_eq!(refusal(1_001, 0, |_| ()), [2, 1]);
    assert_eq!(refusal(usize::MAX, 0, |lent| lent.asked.m = 5), [2, 2]);
    assert_eq!(refusal(0, 3, |lent| lent.asked.count = 17), [2, 2]);
    assert_eq!(refusal(0, 3, |lent| lent.rows[0] = i64::MAX), [1, 1]);
    assert_eq!(refusal(1_000, LOG_STORE - 1, |_| ()), [1, 1]);
    assert_eq!(refusal(0, LOG_STORE, |lent| lent.result.truncate(9)), [1, 1]);
    assert_eq!(refusal(0, LOG_STORE, |lent| lent.relations.truncate(RELATION_STORE - 1)), [1, 1]);
    assert_eq!(refusal(0, LOG_STORE, |lent| lent.rows.truncate(2 * ROW - 1)), [1, 1]);
    assert_eq!(refusal(0, LOG_STORE, |lent| lent.rows[0] = 268_435_456), [5, 5]);
    assert_eq!(refusal(0, LOG_STORE, |lent| lent.relations[0] = 1), [5, 5]);
    // The run's answer takes eleven numbers, the replay's ten.
    let mut lent = Lent::sheet(K2.as_bytes(), RESULT);
    lent.result.truncate(RESULT);
    assert_eq!(lent.run_logged(&mut vec![0; LOG_STORE]), 1);
    assert_eq!(lent.replay(0, &[0; 4]), 13);
}

#[test]
fn refused_runs_leave_zeros() {
    for (sheet, number) in [
        ("3 1 0 0\n1\n0\n0\n0\n1\n1 4\n", 10),
        ("3 1 1 0\n1\n1 0 1 3 0 0 268435455\n0\n0\n", 8),
        ("3 2 0 0\n2\n2 0 1 1 20000 0 2 1 1\n2 0 1 1 1 0 2 2 1 20000\n0\n0\n", 8),
    ] {
        let mut lent = Lent::sheet(sheet.as_bytes(), LOGGED_RESULT);
        let mut written = vec![9; LOG_STORE + 1];
        assert_eq!(lent.run_logged(&mut written), number);
        assert!(lent.cleared(LOGGED_RESULT));
        assert!(written[..LOG_STORE].iter().all(|&a| a == 0) && written[LOG_STORE] == 9);
    }
}

// ---- vectors ----

fn folder() -> PathBuf {
    env::var_os("WURGALM_VECTORS").expect("WURGALM_VECTORS names a folder").into()
}

/// The run with its log is a run, and the log's replay leaves the same (SCOPE 13.53). Returns the log up to its order, with the steps.
fn own_log(sheet: &[u8]) -> Option<(usize, Vec<i64>)> {
    let (mut run, mut again) = (Lent::sheet(sheet, RESULT), Lent::sheet(sheet, RESULT));
    let mut logged = Lent::sheet(sheet, LOGGED_RESULT);
    let mut written = vec![9; LOG_STORE];
    let number = run.run();
    assert_eq!(logged.run_logged(&mut written), number);
    assert_eq!((&run.rows, &run.relations), (&logged.rows, &logged.relations));
    assert_eq!(run.result[..RESULT], logged.result[..RESULT]);
    let steps = logged.result[RESULT] as usize;
    if number != 0 {
        assert!(logged.cleared(LOGGED_RESULT) && written.iter().all(|&a| a == 0));
        return None;
    }
    assert_eq!(again.replay(steps, &written), 0);
    assert_eq!(again, run);
    assert!(written[log_need(steps)..].iter().all(|&a| a == 0));
    written.truncate(log_need(steps));
    Some((steps, written))
}

/// The next line, and what is left behind it.
fn line(bytes: &[u8]) -> (&str, &[u8]) {
    let end = bytes.iter().position(|&b| b == b'\n').expect("a line");
    (std::str::from_utf8(&bytes[..end]).unwrap(), &bytes[end + 1..])
}

/// Sheets, each followed by a log and what its replay answers and leaves.
#[test]
#[ignore = "needs a folder of vectors"]
fn logs() {
    let file = fs::read(folder().join("../calls/logs.txt")).expect("the folder has one of calls beside it");
    let (mut rest, mut count, mut own) = (&file[..], 0, 0);
    while !rest.is_empty() {
        let (heading, after) = line(rest);
        let (sheet, after) = after.split_at(heading.strip_prefix("sheet ").unwrap().parse().unwrap());
        let (kind, after) = line(after);
        let (numbers, after) = line(after);
        let (kind, steps) = kind.split_once(' ').unwrap();
        let steps: usize = steps.parse().unwrap();
        let numbers: Vec<i64> = numbers.split_ascii_whitespace().map(|word| word.parse().unwrap()).collect();
        if kind == "own" {
            assert_eq!(own_log(sheet), Some((steps, numbers.clone())), "case {count}");
            own += 1;
        } else {
            assert_eq!(kind, "log");
        }
        let mut lent = Lent::sheet(sheet, RESULT);
        let before = lent.clone();
        let number = lent.replay(steps, &numbers);
        let expected = if number == 0 {
            let [shifts, any, root, rank, times] = [1, 6, 7, 8, 9].map(|k| lent.result[k]);
            let root = if any == 1 { root.to_string() } else { "none".into() };
            format!("answer 0 shifts {shifts} root {root} rank {rank} mult {times}\n{}", lent.text())
        } else {
            assert!(if number < 7 { lent == before } else { lent.cleared(RESULT) });
            format!("answer {number} shifts 0 root none rank 0 mult 0\n")
        };
        let end = after.len().min(expected.len());
        assert_eq!(String::from_utf8_lossy(&after[..end]), expected, "case {count}");
        // The same with numbers behind the log.
        let mut longer = before.clone();
        if numbers.len() == log_need(steps) {
            assert_eq!(longer.replay(steps, &[numbers, vec![i64::MIN; 40]].concat()), number);
            assert_eq!(longer, lent);
        }
        rest = &after[expected.len()..];
        count += 1;
    }
    println!("logs: {count} cases, {own} of them our own");
    assert!(count > 0 && own > 0);
}

/// Our own log of every sheet of `run.txt`; what the run leaves is settled, and has a log of no steps.
#[test]
#[ignore = "needs a folder of vectors"]
fn own_logs() {
    let file = fs::read(folder().join("run.txt")).expect("the folder has a file of runs");
    let (mut rest, mut count, mut longest) = (&file[..], 0, 0);
    while !rest.is_empty() {
        let (heading, after) = line(rest);
        rest = after;
        let Some(length) = heading.strip_prefix("sheet ") else { continue };
        let (sheet, after) = after.split_at(length.parse().unwrap());
        rest = after;
        if let Some((steps, _)) = own_log(sheet) {
            longest = longest.max(steps);
            let system = read(sheet, None).unwrap().system;
            let (run, _) = run_logged(&system, None).unwrap();
            let left = write(&Sheet { system: run.system.clone(), order: run.order.clone() });
            let replayed = replay(&read(&left, None).unwrap().system, 0, &log(&[], orders(&run.order)), None).unwrap();
            assert_eq!((replayed.system, replayed.order), (run.system, run.order));
        }
        count += 1;
    }
    println!("own logs: {count} sheets, at most {longest} steps");
    assert!(count > 0);
}

fn orders(order: &[usize]) -> [i64; 4] {
    std::array::from_fn(|k| order.get(k).map_or(0, |&c| c as i64))
}
