//! Elimination logs (02, U12): logs of our own runs, logs with other pivots, logs that meet a limit or have a step that is wrong, and
//! what is said of a run with its log.

use crate::cases::{asked_of, lent, Answer, Stores};
use crate::random::Random;
use crate::subject::Subject;
use crate::systems::system;
use outside::elimination::Side;
use outside::logs::{log_need, run_logged, Replay, Step, LOGGED_RESULT, LOG_STORE, STEP};
use outside::polynomial::{greatest_divisor, Polynomial};
use outside::row::Row;
use outside::stores::{Asked, COLUMNS, RESULT};
use outside::system::{Relation, Sizes, System};
use outside::{C, DEGREE};

/// A log as it is lent: its steps, and its store.
#[derive(Clone, Debug, PartialEq, Eq)]
pub struct Log {
    pub steps: usize,
    pub numbers: Vec<i64>,
}

impl Log {
    pub fn of(steps: &[Step], order: &[usize]) -> Log {
        let mut numbers: Vec<i64> = steps.iter().flat_map(Step::numbers).collect();
        numbers.extend((0..COLUMNS).map(|k| order.get(k).map_or(0, |&column| column as i64)));
        Log { steps: steps.len(), numbers }
    }
}

// ---- calls ----

/// A run with its log, and, where it is accepted, the replay of that log on the system as it was.
pub fn logged_and_replayed(subject: &dyn Subject, stores: &Stores, asked: Asked, log: &[i64]) -> Vec<Answer> {
    let (mut left, mut log) = (stores.clone(), log.to_vec());
    let number = subject.run_logged(&mut left.rows, &mut left.relations, asked, &mut log, &mut left.result);
    let steps = left.result.get(RESULT).copied();
    let mut answers = vec![Answer { number, stores: left, bytes: Vec::new(), state: log.clone() }];
    if let (0, Some(steps)) = (number, steps) {
        answers.push(replayed(subject, stores, asked, &Log { steps: steps as usize, numbers: log }));
    }
    answers
}

pub fn replayed(subject: &dyn Subject, stores: &Stores, asked: Asked, log: &Log) -> Answer {
    let mut stores = stores.clone();
    let Stores { rows, relations, result } = &mut stores;
    let number = subject.replay(rows, relations, asked, log.steps, &log.numbers, result);
    Answer { number, stores, bytes: Vec::new(), state: Vec::new() }
}

// ---- cases ----

/// A store for our own log, of the needed length or longer, with junk in it; of every eighth one that is too short.
pub fn log_store(random: &mut Random) -> Vec<i64> {
    let short = random.pick(&[0, COLUMNS, LOG_STORE / 2, LOG_STORE - 1, LOG_STORE - 1]);
    let length = if random.one_in(8) { short } else { LOG_STORE + random.pick(&[0, 0, 1, 40]) };
    (0..length).map(|_| random.junk()).collect()
}

/// A system with a log: our own, one with other pivots, or one about the limits. Half of them are then damaged.
pub fn elsewhere(random: &mut Random) -> (System, Log) {
    let (system, mut log) = match random.below(8) {
        0 => own(random),
        1 => limited(random),
        2 => high_powers(random),
        _ => other_pivots(random),
    };
    if random.one_in(2) {
        for _ in 0..random.pick(&[1, 1, 1, 2]) {
            damage(random, &system, &mut log);
        }
    }
    log.numbers.extend((0..random.pick(&[0, 0, 1, STEP])).map(|_| random.junk()));
    (system, log)
}

/// Our own log of a system; where its run is refused, a log of no steps.
fn own(random: &mut Random) -> (System, Log) {
    let system = system(random);
    let log = match run_logged(&system, None) {
        Ok((run, steps)) => Log::of(&steps, &run.order),
        Err(_) => Log::of(&[], &[]),
    };
    (system, log)
}

fn other_pivots(random: &mut Random) -> (System, Log) {
    let system = system(random);
    let replay = Replay::new(&system, None);
    let maker = Maker { random, replay, steps: Vec::new(), columns: Vec::new(), is_going: true };
    let log = maker.log();
    (system, log)
}

/// The most steps of a log that is made here.
const MOST: usize = 40;

/// A log that is being made: rows in any order, any column of a row as its pivot, multipliers with more in them than they need.
struct Maker<'a> {
    random: &'a mut Random,
    replay: Replay,
    steps: Vec<Step>,
    columns: Vec<usize>,
    is_going: bool,
}

impl Maker<'_> {
    fn log(mut self) -> Log {
        while self.is_going && self.columns.len() < self.rows().len() {
            self.turn();
        }
        let columns = &self.columns[..self.columns.len().min(COLUMNS)];
        let mut log = Log::of(&self.steps, columns);
        if !self.is_going && self.random.one_in(3) {
            wrong_step_behind(self.random, &mut log);
        }
        log
    }

    fn rows(&self) -> &[Row] {
        &self.replay.system().rows
    }

    fn sizes(&self) -> Sizes {
        self.replay.system().sizes
    }

    /// A step of the log; the log ends with one that is refused.
    fn step(&mut self, step: Step) -> bool {
        let taken = Step::of(&step.numbers(), None).and_then(|step| self.replay.take(&step));
        self.steps.push(step);
        self.is_going = taken.is_ok() && self.steps.len() < MOST;
        self.is_going
    }

    /// One of the rows that are left comes next, and is reduced by the settled ones.
    fn turn(&mut self) {
        let k = self.columns.len();
        let pick = k + self.random.below(self.rows().len() - k);
        let turned =
            if self.random.one_in(2) { Step::Exchange(k + 1, pick + 1) } else { Step::Exchange(pick + 1, k + 1) };
        if pick != k && !self.step(turned) {
            return;
        }
        loop {
            if self.random.one_in(6) && !self.idle(k) {
                return;
            }
            let (row, l) = (&self.rows()[k], self.sizes().l);
            if row.is_left_zero() {
                // With a right side it cannot be dropped.
                self.step(Step::Drop(k + 1));
                return;
            }
            let columns: Vec<usize> = row.columns(l).collect();
            let met = (0..k).find(|&j| columns.contains(&self.columns[j]));
            let going = match met {
                Some(j) => self.meet(k, j),
                None if columns.is_empty() => self.step(Step::Up(k + 1)),
                None => {
                    let column = self.random.pick(&columns);
                    self.columns.push(column);
                    return;
                }
            };
            if !going {
                return;
            }
        }
    }

    /// The combination of row k with the settled row j, often after an exchange where that one is the wider.
    fn meet(&mut self, k: usize, j: usize) -> bool {
        let l = self.sizes().l;
        let wider = self.rows()[j].width(l) > self.rows()[k].width(l);
        if wider && !self.random.one_in(4) && !self.step(Step::Exchange(j + 1, k + 1)) {
            return false;
        }
        let column = self.columns[j];
        let (a, b) = (self.rows()[j].entry(l, column), self.rows()[k].entry(l, column));
        let d = greatest_divisor(a.content(), b.content());
        let d = if self.random.one_in(2) { d } else { 1 };
        let factor = multiple(self.random);
        let (g, h) = (a.over(d).times(&factor), b.over(-d).times(&factor));
        let (g, h) = if g.degree().max(h.degree()) > DEGREE { (a.over(d), b.over(-d)) } else { (g, h) };
        let sum = self.rows()[k].combined(&g, &self.rows()[j], &h);
        let integer = integer(self.random, &sum);
        self.step(Step::Combine { i: k + 1, j: j + 1, integer, g, h })
    }

    /// A step that leads nowhere: a row that is not settled is multiplied, or goes down.
    fn idle(&mut self, k: usize) -> bool {
        let (rows, t) = (self.rows().len(), self.sizes().t);
        let i = k + self.random.below(rows - k);
        if self.random.one_in(2) && self.rows()[i].columns(t).next().is_none() {
            return self.step(Step::Down(i + 1));
        }
        if rows == 1 {
            return true;
        }
        let j = (i + 1 + self.random.below(rows - 1)) % rows;
        let (g, h) = (multiple(self.random), Polynomial::default());
        let sum = self.rows()[i].combined(&g, &self.rows()[j], &h);
        let integer = integer(self.random, &sum);
        self.step(Step::Combine { i: i + 1, j: j + 1, integer, g, h })
    }
}

/// A factor of both multipliers, mostly 1.
fn multiple(random: &mut Random) -> Polynomial {
    let r = random.between(-4, 4);
    match random.below(10) {
        0 => Polynomial::new(vec![-1]),
        1 => Polynomial::new(vec![random.pick(&[2, 3, -6, 1000])]),
        2 | 3 => Polynomial::linear(r),
        4 => Polynomial::linear(r).times(&Polynomial::new(vec![1, 0, 2])),
        _ => Polynomial::new(vec![1]),
    }
}

/// An integer for a combination: mostly one that divides it, with what divides a part of it among them.
fn integer(random: &mut Random, sum: &Row) -> i128 {
    let content = sum.content();
    if content == 0 {
        return random.pick(&[1, 7, i64::MAX as i128]);
    }
    match random.below(10) {
        0 | 1 => 1,
        2 => sum.left().content().max(1),
        3 => random.pick(&[2 * content, content + 1, 2, 3]),
        _ => content,
    }
}

// ---- logs about the limits ----

/// p x = q and 0 = 0, with relations.
fn one_row(relations: usize, p: Polynomial, q: Polynomial) -> System {
    let mut row = Row::default();
    row.set(0, 1, p);
    row.set_right(q);
    let mut other = Row::default();
    other.set(0, 1, Polynomial::new(vec![1]));
    let relations = vec![Relation { n0: 5, row: other }; relations];
    System { sizes: Sizes { m: 1, l: 0, t: 0 }, rows: vec![row, Row::default()], relations }
}

fn power(coefficient: i128, degree: usize) -> Polynomial {
    Polynomial::new([vec![0; degree], vec![coefficient]].concat())
}

/// One combination, which meets none, one or several of the limits, and whose integer divides it or not.
fn limited(random: &mut Random) -> (System, Log) {
    let relations = random.pick(&[0, 14, 15, 15, 16, 16]);
    let p = random.pick(&[power(1, 0), power(7, 0), power(C, 0), power(C, DEGREE), power(2, DEGREE), power(3, 8)]);
    let sides = [power(0, 0), power(0, 0), power(1, 0), power(C, 0), power(2, DEGREE)];
    let system = one_row(relations, p, random.pick(&sides));
    let multipliers = [
        vec![0, 1],
        vec![0, -1, 1],
        vec![0, -1, 0, 1],
        vec![2],
        vec![0, 2],
        vec![2, 0, 1],
        vec![C],
        vec![0, C],
        vec![-1, 0, 4],
    ];
    let g = Polynomial::new(random.pick(&multipliers));
    let integer = random.pick(&[1, 1, 2, 3, 4, C]);
    let h = random.pick(&[power(0, 0), power(0, 0), power(1, 0), power(1, 1)]);
    let mut log = Log::of(&[Step::Combine { i: 1, j: 2, integer, g, h }, Step::Drop(2)], &[1]);
    if random.one_in(3) {
        wrong_step_behind(random, &mut log);
    }
    (system, log)
}

/// A combination whose integer divides it up to power 15, and mostly not past that.
fn high_powers(random: &mut Random) -> (System, Log) {
    let (v, d) = (1 + random.below(8), random.pick(&[2, 3, 7]));
    let system = one_row(0, power(1, v), power(random.pick(&[0, 0, 5]), v));
    let low: Vec<i128> = (0..DEGREE).map(|_| d * random.between(-2, 2)).collect();
    let g = Polynomial::new([low, vec![random.pick(&[0, 1, d])]].concat());
    let steps = [Step::Combine { i: 1, j: 2, integer: d, g, h: Polynomial::default() }, Step::Drop(2)];
    (system, Log::of(&steps, &[1]))
}

// ---- damage ----

/// A step that no log may have, as the last of a log's steps: one that is refused before it comes is not to be told by it.
fn wrong_step_behind(random: &mut Random, log: &mut Log) {
    let at = log.numbers.len() - COLUMNS;
    let mut numbers = [0; STEP];
    numbers[0] = random.pick(&[0, 6, -1, 1, i64::MAX]);
    log.numbers.splice(at..at, numbers);
    log.steps += 1;
}

fn damage(random: &mut Random, system: &System, log: &mut Log) {
    let order = (log.numbers.len().saturating_sub(COLUMNS)) / STEP * STEP;
    if log.steps * STEP != order || log.numbers.len() < COLUMNS {
        return;
    }
    let step = random.below(log.steps.max(1));
    let begin = STEP * step;
    match random.below(12) {
        // The order.
        0 | 1 => {
            let column = random.below(system.sizes.m + 2) as i64;
            log.numbers[order + random.below(COLUMNS)] = random.pick(&[0, column, column, 5, -1, i64::MIN]);
        }
        2 => log.numbers[order..].rotate_left(1),
        // Steps left out, made twice, exchanged.
        3 if log.steps > 0 => {
            log.numbers.drain(begin..begin + STEP);
            log.steps -= 1;
        }
        4 if log.steps > 1 => {
            let other = STEP * random.below(log.steps);
            (0..STEP).for_each(|k| log.numbers.swap(begin + k, other + k));
        }
        // A number of a step, of those in front more often.
        5 | 6 if log.steps > 0 => {
            let any = random.below(STEP);
            let place = begin + random.pick(&[any, 0, 1, 2, 3, 4, 20]);
            let old = log.numbers[place];
            let (more, less) = (old.wrapping_add(1), old.wrapping_sub(1));
            let past = C as i64 + 1;
            log.numbers[place] =
                random.pick(&[more, less, more, less, 0, 1, -1, old.wrapping_neg(), past, i64::MIN, i64::MAX]);
        }
        // Another number of steps, or a store too short.
        7 => {
            let (more, less) = (log.steps + 1, log.steps.saturating_sub(1));
            log.steps = random.pick(&[more, less, 1_000, 1_001, 1_001, usize::MAX, usize::MAX / STEP + 1]);
        }
        8 => {
            let length = log.numbers.len();
            log.numbers.truncate(random.pick(&[0, length - 1, length - 1, length / 2]));
        }
        // A step put in.
        _ => {
            let numbers = some_step(random, system);
            let at = STEP * random.below(log.steps + 1);
            log.numbers.splice(at..at, numbers);
            log.steps += 1;
        }
    }
}

/// A step of any kind, right or wrong where it is put in. Many of them leave the rows as they are, if they are let through.
fn some_step(random: &mut Random, system: &System) -> [i64; STEP] {
    let rows = system.rows.len() + 1;
    let (i, j) = (1 + random.below(rows), 1 + random.below(rows));
    let number = |number| Polynomial::new(vec![number]);
    let combine = |j, integer, g, h| Step::Combine { i, j, integer, g, h };
    let step = match random.below(14) {
        0 => Step::Exchange(i, j),
        1 => Step::Exchange(i, i),
        2 => Step::Up(i),
        3 | 4 => Step::Down(i),
        5 | 6 => Step::Drop(i),
        7 => combine(i, 1, number(1), number(0)),
        8 => combine(j, 1, number(0), number(random.pick(&[0, 1]))),
        9 => combine(j, random.pick(&[1, 1, 2]), number(1), number(0)),
        10 => combine(j, random.pick(&[-1, 0, i64::MIN as i128]), number(1), number(0)),
        11 => combine(j, C + 1, number(C + 1), number(0)),
        12 => combine(j, 1, number(1), Polynomial::linear(random.between(-3, 3))),
        _ => combine(j, 1, Polynomial::linear(random.between(-3, 3)), number(0)),
    };
    let mut numbers = step.numbers();
    if random.one_in(8) {
        numbers[random.pick(&[2, 3, 4, 19, 20, 35])] = random.pick(&[1, -1, i64::MAX]);
    }
    numbers
}

// ---- our own logs ----

/// How runs with their log ended.
#[derive(Default)]
pub struct OwnLogs {
    pub differences: Vec<String>,
    accepted: usize,
    refused: usize,
    /// The most steps of a log.
    longest: usize,
}

impl OwnLogs {
    /// Of the subject alone: a run with its log answers and leaves what the run does; the replay of the log does so too; behind the log
    /// are zeros; it has fewer than 1,000 steps (SCOPE 13.51 to 13.54).
    pub fn test(&mut self, k: usize, subject: &dyn Subject) {
        let mut random = Random::new((41 << 40) + k as u64);
        let system = system(&mut random);
        let stores = lent(&mut random, &system, LOGGED_RESULT);
        if let Err(difference) = self.tested(subject, &stores, asked_of(&system)) {
            self.differences.push(format!("case {k}: {difference}"));
        }
    }

    fn tested(&mut self, subject: &dyn Subject, stores: &Stores, asked: Asked) -> Result<(), String> {
        let (mut run, mut logged, mut log) = (stores.clone(), stores.clone(), vec![7; LOG_STORE + 2]);
        let number = subject.run(Side::Leading, &mut run.rows, &mut run.relations, asked, &mut run.result);
        let other = subject.run_logged(&mut logged.rows, &mut logged.relations, asked, &mut log, &mut logged.result);
        let steps = logged.result[RESULT];
        logged.result[RESULT] = run.result[RESULT];
        holds(number == other, &format!("a run answers {number}, with its log {other}"))?;
        holds(logged == run, "a run leaves something else with its log")?;
        holds(log[LOG_STORE..] == [7, 7], "something behind the needed part of a log is changed")?;
        if number != 0 {
            self.refused += 1;
            return holds(steps == 0 && log[..LOG_STORE].iter().all(|&a| a == 0), "a refused run leaves a log");
        }
        self.accepted += 1;
        let steps = usize::try_from(steps).map_err(|_| format!("{steps} steps"))?;
        self.longest = self.longest.max(steps);
        holds(steps < 1_000, &format!("{steps} steps"))?;
        holds(log[log_need(steps)..LOG_STORE].iter().all(|&a| a == 0), "no zeros behind a log")?;
        let again = replayed(subject, stores, asked, &Log { steps, numbers: log[..log_need(steps)].to_vec() });
        holds(again.number == 0, &format!("the replay answers {}", again.number))?;
        holds(again.stores == run, "the replay leaves something else than the run")
    }

    pub fn print(&self) {
        let OwnLogs { accepted, refused, longest, .. } = self;
        println!("Own logs: {accepted} accepted, {refused} refused; at most {longest} steps");
    }
}

fn holds(fact: bool, what: &str) -> Result<(), String> {
    fact.then_some(()).ok_or(what.to_string())
}

#[cfg(test)]
mod tests {
    use super::*;
    use crate::subject::Outside;
    use outside::fault::Fault;

    fn tested(subject: &dyn Subject, cases: usize) -> OwnLogs {
        let mut own = OwnLogs::default();
        (0..cases).for_each(|k| own.test(k, subject));
        own
    }

    #[test]
    fn own_logs() {
        let own = tested(&Outside(None), 600);
        assert_eq!(own.differences, Vec::<String>::new());
        assert!(own.accepted > 100 && own.refused > 30 && own.longest > 20);
        use Fault::*;
        let log = [LoggedExchangeLeft, LoggedDropLeft, LoggedIntegerOne, LoggedNoOrder, LoggedTailKept];
        for fault in log.into_iter().chain([LoggedStepsOfRun, LoggedRefusedKept, LogLowestColumns, LogUpSide]) {
            assert!(!tested(&Outside(Some(fault)), 600).differences.is_empty(), "{fault:?}");
        }
    }

    /// Logs with other pivots are often accepted, and often with rows that our own run does not leave.
    #[test]
    fn other_pivots_accepted() {
        let (mut accepted, mut others) = (0, 0);
        for k in 0..600 {
            let mut random = Random::new(k);
            let (system, log) = other_pivots(&mut random);
            let stores = lent(&mut random, &system, RESULT);
            let answer = replayed(&Outside(None), &stores, asked_of(&system), &log);
            if answer.number == 0 {
                accepted += 1;
                let mut run = stores.clone();
                let asked = asked_of(&system);
                Outside(None).run(Side::Leading, &mut run.rows, &mut run.relations, asked, &mut run.result);
                others += (run != answer.stores) as usize;
            }
        }
        assert!(accepted > 150 && others > 75, "{accepted} accepted, {others} with other rows");
    }
}
