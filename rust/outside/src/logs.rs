//! Elimination logs (02, U12): the replay of one that was made elsewhere, and the log of our own leading run.
//!
//! Our own run is not that of [`crate::elimination`]: from the rows as they stand alone the next step is chosen, again and again, and each
//! one is made by the replay.

use crate::common_roots::reduced;
use crate::elimination::Run;
use crate::fault::{is, Fault};
use crate::polynomial::{greatest_divisor, Polynomial};
use crate::refusal::Refusal;
use crate::roots::{integer_roots, occurrences};
use crate::row::Row;
use crate::stores::{checked, order_numbers, row_store, store, zero_needed};
use crate::stores::{Asked, COEFFICIENTS, COLUMNS, RELATION_STORE, RESULT};
use crate::system::{Relation, System};
use crate::{C, DEGREE, RELATIONS};

/// Numbers of a step: the kind, i, j, the integer, and the coefficients of g and h (SCOPE 13.11).
pub const STEP: usize = 4 + 2 * COEFFICIENTS;
/// The most steps of a log (SCOPE 13.1).
pub const STEPS: usize = 1_000;
/// Numbers that the store for our own log needs (SCOPE 13.52).
pub const LOG_STORE: usize = log_need(STEPS);
/// Numbers that the answer of a run with its log takes: those of a run, and the steps.
pub const LOGGED_RESULT: usize = RESULT + 1;
/// The refusal of a log: a step that is malformed or whose condition fails, a wrong order, a matrix that is not triangular (02, U12).
pub const WRONG_LOG: u8 = 13;

/// The numbers of a log of so many steps: theirs, and the column order behind them (SCOPE 13.1).
pub const fn log_need(steps: usize) -> usize {
    STEP * steps + COLUMNS
}

// ---- steps ----

/// A step; rows are counted from 1 among those present (SCOPE 13.2).
#[derive(Clone, Debug, PartialEq, Eq)]
pub enum Step {
    Exchange(usize, usize),
    Combine { i: usize, j: usize, integer: i128, g: Polynomial, h: Polynomial },
    Up(usize),
    Down(usize),
    Drop(usize),
}

impl Step {
    /// The step of 36 numbers. That a field which the kind does not use is 0 shows when it is written again: the numbers are the same
    /// (SCOPE 13.12).
    pub fn of(numbers: &[i64], fault: Option<Fault>) -> Result<Step, u8> {
        let (i, j) = (number_of_row(numbers[1]), number_of_row(numbers[2]));
        let step = match numbers[0] {
            1 => Step::Exchange(i?, j?),
            2 => {
                let (integer, g, h) = (numbers[3] as i128, multiplier(&numbers[4..20]), multiplier(&numbers[20..36]));
                let most = if is(fault, Fault::LogMultipliersUnlimited) { 2 * C } else { C };
                right(integer > 0 || integer < 0 && is(fault, Fault::LogIntegerNegative))?;
                right(g.size() <= most && h.size() <= most)?;
                Step::Combine { i: i?, j: j?, integer, g, h }
            }
            3 => Step::Up(i?),
            4 => Step::Down(i?),
            5 => Step::Drop(i?),
            _ => return Err(WRONG_LOG),
        };
        right(step.numbers()[..] == *numbers || is(fault, Fault::LogUnusedFields))?;
        Ok(step)
    }

    /// The 36 numbers of a step.
    pub fn numbers(&self) -> [i64; STEP] {
        let mut numbers = [0; STEP];
        let heading = match *self {
            Step::Exchange(i, j) => [1, i, j],
            Step::Combine { i, j, .. } => [2, i, j],
            Step::Up(i) => [3, i, 0],
            Step::Down(i) => [4, i, 0],
            Step::Drop(i) => [5, i, 0],
        };
        numbers.iter_mut().zip(heading).for_each(|(place, number)| *place = number as i64);
        if let Step::Combine { integer, g, h, .. } = self {
            numbers[3] = *integer as i64;
            for (p, at) in [(g, 4), (h, 4 + COEFFICIENTS)] {
                numbers[at..].iter_mut().zip(p.coefficients()).for_each(|(place, &a)| *place = a as i64);
            }
        }
        numbers
    }
}

/// 13 where something is not as it has to be.
fn right(holds: bool) -> Result<(), u8> {
    if holds {
        Ok(())
    } else {
        Err(WRONG_LOG)
    }
}

fn number_of_row(number: i64) -> Result<usize, u8> {
    usize::try_from(number).ok().filter(|&i| i > 0).ok_or(WRONG_LOG)
}

fn multiplier(numbers: &[i64]) -> Polynomial {
    Polynomial::new(numbers.iter().map(|&a| a as i128).collect())
}

// ---- the replay ----

/// A replay under way.
pub struct Replay {
    system: System,
    ups: usize,
    exchanges: usize,
    fault: Option<Fault>,
}

impl Replay {
    pub fn new(system: &System, fault: Option<Fault>) -> Replay {
        Replay { system: system.clone(), ups: 0, exchanges: 0, fault }
    }

    /// The rows and relations that the steps so far have led to.
    pub fn system(&self) -> &System {
        &self.system
    }

    fn wrong(&self, fault: Fault) -> bool {
        is(self.fault, fault)
    }

    /// Where row i is, if it is present.
    fn present(&self, i: usize) -> Result<usize, u8> {
        right((1..=self.system.rows.len()).contains(&i))?;
        Ok(i - 1)
    }

    fn two_rows(&self, i: usize, j: usize, same: Fault) -> Result<(usize, usize), u8> {
        right(i != j || self.wrong(same))?;
        Ok((self.present(i)?, self.present(j)?))
    }

    /// One step: its condition (13), then its limits (SCOPE 13.26).
    pub fn take(&mut self, step: &Step) -> Result<(), u8> {
        match *step {
            Step::Exchange(i, j) => {
                let (i, j) = self.two_rows(i, j, Fault::LogExchangeSame)?;
                self.system.rows.swap(i, j);
                self.exchanges += 1;
                Ok(())
            }
            Step::Combine { i, j, integer, ref g, ref h } => {
                let rows = self.two_rows(i, j, Fault::LogCombineSame)?;
                self.combine(rows, integer, g, h)
            }
            Step::Up(i) => {
                let (i, lost) = (self.present(i)?, self.system.sizes.l);
                right(self.is_block_zero(i, lost) || self.wrong(Fault::LogUpLoses))?;
                let row = self.system.rows[i].shifted();
                self.put_shifted(i, row, Fault::LogUpSide)?;
                self.ups += 1;
                Ok(())
            }
            Step::Down(i) => {
                let (i, lost) = (self.present(i)?, self.system.sizes.t);
                right(self.is_block_zero(i, lost) || self.wrong(Fault::LogDownLoses))?;
                let change =
                    if self.wrong(Fault::LogDownPlain) { Polynomial::clone } else { Polynomial::after_decrement };
                let row = self.system.rows[i].mapped(|s| s - 1, change);
                self.put_shifted(i, row, Fault::LogDownSide)?;
                self.ups += self.wrong(Fault::LogDownCounted) as usize;
                Ok(())
            }
            Step::Drop(i) => {
                let i = self.present(i)?;
                let row = &self.system.rows[i];
                let left_alone = row.is_left_zero() && self.wrong(Fault::LogDropLeftZero);
                right(row.is_zero() || left_alone || self.wrong(Fault::LogDropAny))?;
                self.system.rows.remove(i);
                Ok(())
            }
        }
    }

    /// Row i becomes (g × row i + h × row j) / integer, which has to come out even, on both sides and in every power (SCOPE 13.22). Row i
    /// as it was is listed at g's roots (SCOPE 13.27). The limits are 9, 7, 8, the last two on what the division leaves (SCOPE 13.26).
    fn combine(&mut self, (i, j): (usize, usize), integer: i128, g: &Polynomial, h: &Polynomial) -> Result<(), u8> {
        right(!g.is_zero() || self.wrong(Fault::LogGZero))?;
        right(!h.is_zero() || !self.wrong(Fault::LogHNonzero))?;
        let before = self.system.rows[i].clone();
        let sum = before.combined(g, &self.system.rows[j], h);
        let divided = match self.fault {
            Some(Fault::LogNotDivided) => sum.clone(),
            _ => sum.mapped(|s| s, |p| quotient(p, integer)),
        };
        let divides = right(self.judged_part(&sum).content() % integer == 0);
        if !self.wrong(Fault::LogLimitsFirst) {
            divides?;
        }
        let listed = match self.fault {
            Some(Fault::LogRowAfterStep) => divided.clone(),
            Some(Fault::LogRowOther) => self.system.rows[j].clone(),
            Some(Fault::LogRelationLeft) => before.left(),
            _ => before,
        };
        let relations = self.list(if self.wrong(Fault::LogRootsOfH) { h } else { g }, listed);
        if !self.wrong(Fault::LogRelationsLast) {
            relations?;
        }
        let limited = if self.wrong(Fault::LogLimitUndivided) { &sum } else { &divided };
        if self.wrong(Fault::LogCoefficientFirst) {
            within_limit(limited)?;
        }
        if sum.degree() > DEGREE {
            return Err(Refusal::Degree.number());
        }
        within_limit(limited)?;
        relations?;
        divides?;
        if self.wrong(Fault::LogInconsistent) && divided.is_left_zero() && !divided.is_zero() {
            return Err(Refusal::Inconsistent.number());
        }
        self.put(i, divided)
    }

    /// What the integer of a combination has to divide: all of it.
    fn judged_part(&self, sum: &Row) -> Row {
        let low = |p: &Polynomial| Polynomial::new(p.coefficients().iter().copied().take(COEFFICIENTS).collect());
        match self.fault {
            Some(Fault::LogLeftDivided) => sum.left(),
            Some(Fault::LogLowDivided) => sum.mapped(|s| s, low),
            _ => sum.clone(),
        }
    }

    /// 9 for a seventeenth relation.
    fn list(&mut self, p: &Polynomial, row: Row) -> Result<(), u8> {
        let mut roots = if p.is_zero() { Vec::new() } else { integer_roots(p) };
        if self.wrong(Fault::LogRootsDescending) {
            roots.reverse();
        }
        self.system.relations.extend(roots.into_iter().map(|n0| Relation { n0, row: row.clone() }));
        if self.system.relations.len() > RELATIONS {
            return Err(Refusal::Relations.number());
        }
        Ok(())
    }

    /// Whether a block of row i, the one that a shift loses, is zero (SCOPE 13.23, 13.24).
    fn is_block_zero(&self, i: usize, block: i64) -> bool {
        self.system.rows[i].columns(block).next().is_none()
    }

    /// A shifted row; with the fault its right side stays. Blocks outside are only there with other faults, and are lost.
    fn put_shifted(&mut self, i: usize, mut row: Row, side: Fault) -> Result<(), u8> {
        if self.wrong(side) {
            row.set_right(self.system.rows[i].right().clone());
        }
        let sizes = self.system.sizes;
        let outside: Vec<(i64, usize)> = row.entries().map(|(s, c, _)| (s, c)).collect();
        outside.into_iter().filter(|(s, _)| !(sizes.t..=sizes.l).contains(s)).for_each(|(s, c)| {
            row.set(s, c, Polynomial::default());
        });
        self.put(i, row)
    }

    /// 8 for a coefficient past ±C.
    fn put(&mut self, i: usize, row: Row) -> Result<(), u8> {
        within_limit(&row)?;
        self.system.rows[i] = row;
        Ok(())
    }

    /// The entry of a row, counted from 0, in the leading block.
    fn leading(&self, row: usize, column: usize) -> Polynomial {
        self.system.rows[row].entry(self.system.sizes.l, column)
    }

    /// Whether the leading matrix is triangular in an order of as many columns as there are rows, its diagonal nonzero: what is nonzero
    /// in the column of a row is in no later one, and in that row (SCOPE 13.32).
    fn triangular(&self, order: &[usize]) -> bool {
        let rows = 0..self.system.rows.len();
        let last = |&column: &usize| rows.clone().rev().find(|&row| !self.leading(row, column).is_zero());
        let own = |row: usize| !self.leading(row, order[row]).is_zero();
        let later_zero = |row: usize| rows.clone().all(|k| k <= row || self.leading(k, order[row]).is_zero());
        match self.fault {
            Some(Fault::LogDiagonalZero) => rows.clone().all(later_zero),
            Some(Fault::LogEarlierEntries) => rows.clone().all(own),
            Some(Fault::LogLowestColumns) => {
                let lowest = |row: usize| self.system.rows[row].columns(self.system.sizes.l).next();
                rows.clone().all(|row| lowest(row) == Some(order[row]) && later_zero(row))
            }
            _ => order.iter().map(last).eq(rows.clone().map(Some)),
        }
    }

    /// The end: the column order (SCOPE 13.31), the leading matrix (SCOPE 13.32), and the report as a run has it.
    fn finished(self, order: Vec<usize>) -> Result<Run, u8> {
        right(self.triangular(&order))?;
        let entries = order.iter().enumerate().map(|(j, &c)| self.leading(j, c));
        let diagonal: Vec<Polynomial> = entries.filter(|p| !p.is_zero()).collect();
        let root = diagonal.iter().flat_map(integer_roots).max();
        let times = |r| diagonal.iter().map(|p| occurrences(p, r)).sum();
        let multiplicity = root.map_or(0, times);
        let Replay { system, ups, exchanges, .. } = self;
        Ok(Run { system, order, shifts: ups, root, multiplicity, exchanges })
    }
}

/// Divided coefficient by coefficient, toward zero where it does not come out even, which is refused.
fn quotient(p: &Polynomial, integer: i128) -> Polynomial {
    Polynomial::new(p.coefficients().iter().map(|a| a / integer).collect())
}

/// 8 for a coefficient past ±C.
fn within_limit(row: &Row) -> Result<(), u8> {
    if row.size() > C {
        return Err(Refusal::Coefficient.number());
    }
    Ok(())
}

/// The columns of the four numbers at a log's end, for w rows: w different ones of 1..m, and zeros behind them (SCOPE 13.31).
fn order_of(numbers: &[i64], w: usize, m: usize, fault: Option<Fault>) -> Result<Vec<usize>, u8> {
    right(w <= m)?;
    let (columns, behind) = numbers.split_at(w);
    right(behind.iter().all(|&c| c == 0) || is(fault, Fault::LogOrderBehind))?;
    right(columns.iter().all(|c| (1..=m as i64).contains(c)))?;
    right((1..=m as i64).all(|c| columns.iter().filter(|&&other| other == c).count() <= 1))?;
    Ok(columns.iter().map(|&c| c as usize).collect())
}

/// The replay of a log of so many steps, whose store is long enough (SCOPE 13.3); the refusal where there is one. A step is looked at
/// when its turn comes.
pub fn replay(system: &System, steps: usize, log: &[i64], fault: Option<Fault>) -> Result<Run, u8> {
    let (all, behind) = log.split_at(STEP * steps);
    let mut replay = Replay::new(system, fault);
    if is(fault, Fault::LogFormsFirst) {
        all.chunks(STEP).try_for_each(|numbers| Step::of(numbers, fault).map(drop))?;
    }
    all.chunks(STEP).try_for_each(|numbers| replay.take(&Step::of(numbers, fault)?))?;
    let order = order_of(&behind[..COLUMNS], replay.system.rows.len(), system.sizes.m, fault)?;
    replay.finished(order)
}

// ---- our own log ----

/// What a run does next with the row in turn, behind the settled ones.
enum Next {
    Step(Step),
    Settle(usize),
}

/// The next step, from the rows and the settled columns alone. A settled row that the row in turn has met does not come again: the entry
/// in its column is zero from then on. After an exchange the row in turn is the wider, and the combination follows (SCOPE 2.2, 13.51).
fn next(replay: &Replay, columns: &[usize]) -> Result<Next, u8> {
    let (i, l) = (columns.len(), replay.system.sizes.l);
    let rows = &replay.system.rows;
    if rows[i].is_left_zero() {
        return if rows[i].is_zero() { Ok(Next::Step(Step::Drop(i + 1))) } else { Err(Refusal::Inconsistent.number()) };
    }
    if let Some(j) = (0..i).find(|&j| !replay.leading(i, columns[j]).is_zero()) {
        if rows[j].width(l) > rows[i].width(l) {
            return Ok(Next::Step(Step::Exchange(i + 1, j + 1)));
        }
        let (a, b) = reduced((replay.leading(j, columns[j]), replay.leading(i, columns[j])));
        let d = greatest_divisor(a.content(), b.content()) * a.highest().signum();
        let (g, h) = (a.over(d), b.over(-d));
        let integer = rows[i].combined(&g, &rows[j], &h).content().max(1);
        return Ok(Next::Step(Step::Combine { i: i + 1, j: j + 1, integer, g, h }));
    }
    let column = rows[i].columns(l).next();
    Ok(column.map_or(Next::Step(Step::Up(i + 1)), Next::Settle))
}

/// The leading run, and its log (SCOPE 13.5); the refusal where there is one.
pub fn run_logged(system: &System, fault: Option<Fault>) -> Result<(Run, Vec<Step>), u8> {
    let mut replay = Replay::new(system, None);
    let (mut columns, mut steps) = (Vec::new(), Vec::new());
    while columns.len() < replay.system.rows.len() {
        match next(&replay, &columns)? {
            Next::Settle(column) => columns.push(column),
            Next::Step(step) => {
                replay.take(&step)?;
                steps.extend(written(step, fault));
            }
        }
    }
    Ok((replay.finished(columns)?, steps))
}

/// What the log has for a step that was made: the step.
fn written(mut step: Step, fault: Option<Fault>) -> Option<Step> {
    if let (Step::Combine { integer, .. }, Some(Fault::LoggedIntegerOne)) = (&mut step, fault) {
        *integer = 1;
    }
    let left_out = match step {
        Step::Exchange(..) => is(fault, Fault::LoggedExchangeLeft),
        Step::Drop(_) => is(fault, Fault::LoggedDropLeft),
        _ => false,
    };
    (!left_out).then_some(step)
}

// ---- the calls on stores ----

/// What a run or a replay leaves in the needed parts: its output, places that were freed zero; all zeros on a refusal (SCOPE 13.42).
fn leave(
    outcome: Result<Run, u8>,
    rows: &mut [i64],
    relations: &mut [i64],
    asked: Asked,
    result: &mut [i64],
    fault: Option<Fault>,
) -> u8 {
    let told = RESULT.min(result.len());
    let run = match outcome {
        Ok(run) => run,
        Err(WRONG_LOG) if is(fault, Fault::LogStoresKept) => return WRONG_LOG,
        Err(refusal) => {
            zero_needed(rows, row_store(asked.equations), fault);
            zero_needed(relations, RELATION_STORE, fault);
            zero_needed(&mut result[..told], told, fault);
            return refusal;
        }
    };
    store(&run.system, rows, relations);
    if !is(fault, Fault::FreedKept) {
        rows[row_store(run.rank())..row_store(asked.equations)].fill(0);
    }
    let (c, count, shifts) = (order_numbers(&run.order), run.system.relations.len() as i64, run.shifts as i64);
    let (any, root) = (run.root.is_some() as i64, run.root.unwrap_or(0) as i64);
    let (rank, times) = (run.rank() as i64, run.multiplicity as i64);
    let numbers = [count, shifts, c[0], c[1], c[2], c[3], any, root, rank, times];
    result.iter_mut().zip(numbers).for_each(|(place, number)| *place = number);
    0
}

/// The replay of a log on stores (SCOPE 13.4). The number of steps is one of the sizes (2), the log's length one of the lengths (1); its
/// numbers are looked at during the work (SCOPE 13.41). The answer is that of a run, the steps up in the place of the shifts.
pub fn replay_on_stores(
    rows: &mut [i64],
    relations: &mut [i64],
    asked: Asked,
    steps: usize,
    log: &[i64],
    result: &mut [i64],
    fault: Option<Fault>,
) -> u8 {
    let most = if is(fault, Fault::LogStepsMore) { STEPS + 1 } else { STEPS };
    if steps > most {
        return Refusal::Range.number();
    }
    let short = log.len() < log_need(steps);
    if short && is(fault, Fault::LogShortFirst) {
        return Refusal::Short.number();
    }
    let result_need = if is(fault, Fault::ReplayResultNine) { RESULT - 1 } else { RESULT };
    let log_last = is(fault, Fault::LogShortLast);
    let log_length = (log.len(), if log_last { 0 } else { log_need(steps) });
    match checked(rows, relations, asked, &[log_length, (result.len(), result_need)], fault) {
        Ok(_) if short => Refusal::Short.number(),
        Ok(system) => leave(replay(&system, steps, log, fault), rows, relations, asked, result, fault),
        Err(refusal) => refusal.number(),
    }
}

/// The leading run on stores, with its log (SCOPE 13.5, 13.52). The answer is that of a run, and behind it the number of steps.
pub fn run_logged_on_stores(
    rows: &mut [i64],
    relations: &mut [i64],
    asked: Asked,
    log: &mut [i64],
    result: &mut [i64],
    fault: Option<Fault>,
) -> u8 {
    let need = if is(fault, Fault::LoggedStoreShorter) { LOG_STORE - 1 } else { LOG_STORE };
    let result_need = if is(fault, Fault::LoggedResultTen) { RESULT } else { LOGGED_RESULT };
    let system = match checked(rows, relations, asked, &[(log.len(), need), (result.len(), result_need)], fault) {
        Ok(system) => system,
        Err(refusal) => return refusal.number(),
    };
    let (needed, mut told) = (LOG_STORE.min(log.len()), 0);
    let log = &mut log[..needed];
    let outcome = run_logged(&system, fault).map(|(run, steps)| {
        let (numbers, behind) = log.split_at_mut(STEP * steps.len());
        numbers.chunks_mut(STEP).zip(&steps).for_each(|(places, step)| places.copy_from_slice(&step.numbers()));
        let (order, tail) = behind.split_at_mut(COLUMNS);
        order.copy_from_slice(&order_numbers(if is(fault, Fault::LoggedNoOrder) { &[] } else { &run.order }));
        if !is(fault, Fault::LoggedTailKept) {
            tail.fill(0);
        }
        told = match fault {
            // The steps of a run by steps: an exchange belongs to the combination behind it.
            Some(Fault::LoggedStepsOfRun) => steps.len() - run.exchanges,
            _ => steps.len(),
        };
        run
    });
    if outcome.is_err() && !is(fault, Fault::LoggedRefusedKept) {
        zero_needed(log, needed, fault);
    }
    if result.len() > RESULT && !(outcome.is_err() && is(fault, Fault::StoresKept)) {
        result[RESULT] = told as i64;
    }
    leave(outcome, rows, relations, asked, result, fault)
}
