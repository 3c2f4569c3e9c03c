//! The elimination on the leading side (SCOPE 2), and the trailing side by mirroring.

use crate::common_roots::{reduced, reduced_wrongly};
use crate::fault::{is, Fault};
use crate::polynomial::{greatest_divisor, Polynomial};
use crate::refusal::Refusal;
use crate::roots::{integer_roots, occurrences};
use crate::row::Row;
use crate::system::{Relation, Sizes, System};
use crate::{C, DEGREE, RELATIONS};

#[derive(Clone, Copy, Debug, PartialEq, Eq)]
pub enum Side {
    Leading,
    Trailing,
}

/// What an accepted run leaves.
#[derive(Clone, Debug, PartialEq, Eq)]
pub struct Run {
    pub system: System,
    /// c(1)..c(w)
    pub order: Vec<usize>,
    pub shifts: usize,
    /// The root of the report, `None` if there is none.
    pub root: Option<i128>,
    /// How often it occurs in the product of the diagonal polynomials (02, U8); 0 where there is none.
    pub multiplicity: usize,
    /// How often rows were exchanged: for tables only.
    pub exchanges: usize,
}

impl Run {
    /// w, the number of settled rows (02, U6).
    pub fn rank(&self) -> usize {
        self.order.len()
    }
}

pub fn run(system: &System, side: Side, fault: Option<Fault>) -> Result<Run, Refusal> {
    match side {
        Side::Leading => run_leading(system, Order::Ascending, fault),
        Side::Trailing => run_trailing(system, fault),
    }
}

/// The trailing side: the mirrored system is run and mirrored back (SCOPE 2.91). Its report is the least integer root
/// of the diagonal polynomials, which stand in block t (SCOPE 2.93). The roots of one g are listed such that n0 as
/// given back ascends (SCOPE 2.33).
fn run_trailing(system: &System, fault: Option<Fault>) -> Result<Run, Refusal> {
    let order = if is(fault, Fault::TrailingDescending) { Order::Ascending } else { Order::Descending };
    let mut run = run_leading(&mirrored(system, fault), order, fault)?;
    run.system = mirrored(&run.system, fault);
    if is(fault, Fault::RelationsNotMirrored) {
        run.system.relations.iter_mut().for_each(|r| r.n0 = -r.n0);
    }
    let roots = diagonal_roots(&run, system.sizes.t, fault);
    run.root = if is(fault, Fault::LargestRootReported) { roots.max() } else { roots.min() };
    let mirrored_back = is(fault, Fault::TrailingTimesMirrored);
    let counted = if mirrored_back { run.root.map(|r| -r) } else { run.root };
    run.multiplicity = reported_times(&run, system.sizes.t, counted, fault);
    Ok(run)
}

fn mirrored(system: &System, fault: Option<Fault>) -> System {
    let mut mirrored = system.mirrored();
    if is(fault, Fault::SideNotMirrored) {
        for (row, before) in mirrored.all_rows_mut().zip(system.all_rows()) {
            row.set_right(before.right().clone());
        }
    }
    mirrored
}

fn run_leading(system: &System, order: Order, fault: Option<Fault>) -> Result<Run, Refusal> {
    // A relation is no row whose turn comes: one that says 0 = q is not refused.
    if is(fault, Fault::RelationsInconsistent) {
        system.relations.iter().try_for_each(|r| inconsistent(&r.row))?;
    }
    let mut work = Work::new(system, order, fault);
    while work.columns.len() < work.rows.len() {
        work.settle_or_drop()?;
    }
    let mut run = work.finished();
    // The greatest integer root of all (SCOPE 2.81).
    let roots = diagonal_roots(&run, system.sizes.l, fault);
    run.root = if is(fault, Fault::SmallestRootReported) { roots.min() } else { roots.max() };
    run.multiplicity = reported_times(&run, system.sizes.l, run.root, fault);
    Ok(run)
}

/// The integer roots of all diagonal polynomials of the output, for the report (SCOPE 2.81). They stand in block l, or
/// in block t on the trailing side (SCOPE 2.93).
fn diagonal_roots(run: &Run, block: i64, fault: Option<Fault>) -> impl Iterator<Item = i128> + '_ {
    let looked_at = if is(fault, Fault::FirstDiagonalOnly) { 1 } else { run.order.len() };
    diagonal(run, block).take(looked_at).flat_map(|p| integer_roots(&p))
}

fn diagonal(run: &Run, block: i64) -> impl Iterator<Item = Polynomial> + '_ {
    run.system.rows.iter().zip(&run.order).map(move |(row, &column)| row.entry(block, column))
}

/// How often the root of the report occurs in the product of the diagonal polynomials, so in all of them together (SCOPE 2.83).
fn reported_times(run: &Run, block: i64, root: Option<i128>, fault: Option<Fault>) -> usize {
    let Some(r) = root else { return is(fault, Fault::TimesBesideNo) as usize };
    let times = diagonal(run, block).map(|p| occurrences(&p, r));
    match fault {
        None => times.sum(),
        Some(Fault::TimesOnce) => 1,
        Some(Fault::TimesOnceEach) => times.map(|k| k.min(1)).sum(),
        Some(Fault::TimesOneDiagonal) => times.into_iter().find(|&k| k > 0).unwrap_or(0),
        Some(Fault::TimesMost) => times.max().unwrap_or(0),
        Some(Fault::TimesLastRow) => times.last().unwrap_or(0),
        Some(Fault::TimesOfAllRoots) => {
            diagonal(run, block).flat_map(|p| integer_roots(&p).into_iter().map(move |r| occurrences(&p, r))).sum()
        }
        Some(Fault::TimesLimited) => diagonal(run, block).map(|p| limited_divisions(p, r)).sum(),
        Some(Fault::TimesNotZero) if r == 0 => times.map(|k| k.min(1)).sum(),
        Some(_) => times.sum(),
    }
}

/// 10 for a row whose left part is zero and whose right side is not (02, U1).
fn inconsistent(row: &Row) -> Result<(), Refusal> {
    if row.is_left_zero() && !row.is_zero() {
        Err(Refusal::Inconsistent)
    } else {
        Ok(())
    }
}

/// The order in which the roots of one g are listed.
#[derive(Clone, Copy)]
enum Order {
    Ascending,
    Descending,
}

/// A run under way. Rows are counted from 0 here.
struct Work {
    sizes: Sizes,
    rows: Vec<Row>,
    relations: Vec<Relation>,
    /// How many relations are the input's.
    given: usize,
    /// c(1)..c(w), so w is its length.
    columns: Vec<usize>,
    /// How many rows there were.
    equations: usize,
    /// Where rows were dropped: for a wrong version.
    gaps: Vec<usize>,
    shifts: usize,
    exchanges: usize,
    order: Order,
    fault: Option<Fault>,
}

impl Work {
    /// The input's relations come first (SCOPE 2.3), and no row is settled (SCOPE 2.2).
    fn new(system: &System, order: Order, fault: Option<Fault>) -> Work {
        Work {
            sizes: system.sizes,
            rows: system.rows.clone(),
            relations: system.relations.clone(),
            given: system.relations.len(),
            columns: Vec::new(),
            equations: system.rows.len(),
            gaps: Vec::new(),
            shifts: 0,
            exchanges: 0,
            order,
            fault,
        }
    }

    fn finished(mut self) -> Run {
        if is(self.fault, Fault::InputRelationsLast) {
            self.relations.rotate_left(self.given);
        }
        if self.wrong(Fault::LaterRowsStay) {
            self.gaps.iter().rev().for_each(|&gap| self.rows.insert(gap, Row::default()));
        }
        Run {
            system: System { sizes: self.sizes, rows: self.rows, relations: self.relations },
            order: self.columns,
            shifts: self.shifts,
            root: None,
            multiplicity: 0,
            exchanges: self.exchanges,
        }
    }

    fn wrong(&self, fault: Fault) -> bool {
        is(self.fault, fault)
    }

    /// The row in turn, behind the settled ones (SCOPE 2.2): rules 1 to 6. It is settled, or dropped.
    fn settle_or_drop(&mut self) -> Result<(), Refusal> {
        let i = self.columns.len();
        // Rule 1 (SCOPE 2.11).
        if self.row_done(i)? {
            return Ok(());
        }
        loop {
            // Rule 2: the row meets the settled rows one after the other (SCOPE 2.21).
            for j in 0..i {
                // A row that a combination has made zero is dropped too (SCOPE 2.45).
                if self.meet(i, j)? {
                    return Ok(());
                }
            }
            // Rule 5: with a nonzero leading block it is settled at the lowest column that has an entry (SCOPE 2.51).
            if let Some(column) = self.settling_column(i) {
                self.columns.push(column);
                return Ok(());
            }
            // Rule 6: otherwise it is shifted, and starts anew with rule 2 (SCOPE 2.61, 2.64).
            self.shift(i)?;
        }
    }

    /// A row that is zero on both sides is dropped, and its turn is over (02, U6); one that is zero on the left alone is 10 (02, U1).
    fn row_done(&mut self, i: usize) -> Result<bool, Refusal> {
        let left_alone = self.wrong(Fault::LeftZeroDropped) && self.rows[i].is_left_zero();
        if self.rows[i].is_zero() || left_alone {
            if self.wrong(Fault::ZeroRowInconsistent) {
                return Err(Refusal::Inconsistent);
            }
            self.drop_row(i);
            return Ok(true);
        }
        inconsistent(&self.rows[i]).map(|()| false)
    }

    /// The rows behind a dropped one move up (02, U6).
    fn drop_row(&mut self, i: usize) {
        self.gaps.push(i);
        if self.wrong(Fault::LastRowMovesUp) {
            self.rows.swap_remove(i);
        } else {
            self.rows.remove(i);
        }
    }

    fn settling_column(&self, i: usize) -> Option<usize> {
        let mut columns = self.rows[i].columns(self.sizes.l);
        if self.wrong(Fault::LastColumn) {
            columns.next_back()
        } else {
            columns.next()
        }
    }

    /// Rules 2 to 4 for row i and one settled row j. Whether row i is dropped.
    fn meet(&mut self, i: usize, j: usize) -> Result<bool, Refusal> {
        // A settled row is passed over where the leading entry in its column is zero (SCOPE 2.21).
        if self.leading_entry(i, j).is_zero() {
            return Ok(false);
        }
        let before = self.rows[i].clone();
        let (g_before, _) = self.multipliers(i, j);
        // If settled row j is the wider, the two change places (SCOPE 2.22).
        if self.exchange_due(i, j) {
            self.rows.swap(i, j);
            self.exchanges += 1;
        }
        let (g, h) = self.multipliers(i, j);
        // Rule 4: the combination (SCOPE 2.41).
        let mut combined = self.rows[i].combined(&g, &self.rows[j], &h);
        if self.wrong(Fault::SideNotCombined) {
            combined.set_right(self.rows[i].right().times(&g));
        }
        // Rule 3: row i, in the form that it has after the exchange, at each root of g (SCOPE 2.31).
        let searched = match self.fault {
            Some(Fault::RootsBeforeExchange) => g_before,
            Some(Fault::CommonListed) => self.leading_entry(j, j),
            _ => g,
        };
        let listed = if self.wrong(Fault::RowBeforeExchange) {
            before
        } else if self.wrong(Fault::RowAfterCombination) {
            combined.clone()
        } else if self.wrong(Fault::RelationWithoutSide) {
            self.rows[i].left()
        } else {
            self.rows[i].clone()
        };
        let relations = self.list(&searched, &listed);
        if self.wrong(Fault::InconsistentBeforeRelations) && relations.is_err() {
            inconsistent(&combined)?;
        }
        if !self.wrong(Fault::RelationsTestedLast) {
            relations?;
        }
        self.rows[i] = self.judged(combined)?;
        relations?;
        // A row without a left part is dropped or refused; otherwise the next settled row follows (SCOPE 2.45, 2.46).
        self.row_done(i)
    }

    /// The entry of row i in block l at the column of the settled row j.
    fn leading_entry(&self, i: usize, j: usize) -> Polynomial {
        self.rows[i].entry(self.sizes.l, self.columns[j])
    }

    fn exchange_due(&self, i: usize, j: usize) -> bool {
        let width = |k: usize| match self.rows[k].right().is_zero() {
            false if self.wrong(Fault::SideInWidth) => self.sizes.d() + 1,
            _ => self.rows[k].width(self.sizes.l),
        };
        match self.fault {
            Some(Fault::WiderRow) => false,
            Some(Fault::EqualWidthsExchanged) => width(j) >= width(i),
            _ => width(j) > width(i),
        }
    }

    /// g = a/d and h = -b/d, a of row j and b of row i, both after the division by their common roots (SCOPE 2.27), d the largest integer
    /// that divides all coefficients of both (SCOPE 2.23, 2.24). If g would have a negative highest coefficient, both signs change
    /// (SCOPE 2.25).
    fn multipliers(&self, i: usize, j: usize) -> (Polynomial, Polynomial) {
        let entries = (self.leading_entry(j, j), self.leading_entry(i, j));
        let (a, b) = match self.fault {
            None => reduced(entries),
            Some(Fault::TrailingCommonDescending) if matches!(self.order, Order::Descending) => {
                reduced_wrongly(entries, Fault::CommonDescending)
            }
            Some(fault) => reduced_wrongly(entries, fault),
        };
        let d = greatest_divisor(a.content(), b.content());
        let turned = a.highest() < 0 && !self.wrong(Fault::SignKept);
        let d = if turned { -d } else { d };
        (a.over(d), b.over(-d))
    }

    /// Rule 3 for the roots of g and the row to list; a seventeenth relation is refused (SCOPE 2.34).
    fn list(&mut self, g: &Polynomial, row: &Row) -> Result<(), Refusal> {
        let most = if self.wrong(Fault::RelationSeventeen) { RELATIONS + 1 } else { RELATIONS };
        for n0 in self.roots_to_list(g) {
            if self.relations.len() == most {
                return Err(Refusal::Relations);
            }
            self.relations.push(Relation { n0, row: row.clone() });
        }
        Ok(())
    }

    fn roots_to_list(&self, g: &Polynomial) -> Vec<i128> {
        let mut roots = integer_roots(g);
        match self.fault {
            Some(Fault::NoNegativeRoots) => roots.retain(|&r| r >= 0),
            Some(Fault::NoPositiveRoots) => roots.retain(|&r| r <= 0),
            Some(Fault::NoRootZero) => roots.retain(|&r| r != 0),
            Some(Fault::RootsRepeated) => roots = repeated(g, &roots),
            _ => {}
        }
        if let Order::Descending = self.order {
            roots.reverse();
        }
        roots
    }

    /// The row divided by the largest integer that divides all of its coefficients, those of the right side too, if it is
    /// not zero (SCOPE 2.42); then refusal 7 for the degree (SCOPE 2.43), and 8 for the coefficients (SCOPE 2.44), of
    /// either side.
    fn judged(&self, row: Row) -> Result<Row, Refusal> {
        let too_large = |row: &Row| self.limited(row, Fault::SideOutOfLimit).size() > C;
        let divided = self.divided(&row);
        let limited = if self.wrong(Fault::LimitBeforeDivision) { &row } else { &divided };
        if self.wrong(Fault::CoefficientBeforeDegree) && too_large(limited) {
            return Err(Refusal::Coefficient);
        }
        if self.limited(&divided, Fault::SideOutOfDegree).degree() > DEGREE {
            if self.wrong(Fault::InconsistentBeforeDegree) {
                inconsistent(&divided)?;
            }
            return Err(Refusal::Degree);
        }
        if too_large(limited) {
            if self.wrong(Fault::InconsistentBeforeCoefficient) {
                inconsistent(&divided)?;
            }
            return Err(Refusal::Coefficient);
        }
        Ok(divided)
    }

    /// What a limit is put on: both sides of the row, the left one alone with the fault.
    fn limited(&self, row: &Row, fault: Fault) -> Row {
        if self.wrong(fault) {
            row.left()
        } else {
            row.clone()
        }
    }

    fn divided(&self, row: &Row) -> Row {
        let row = if self.wrong(Fault::PolynomialFactor) { without_common_factors(row) } else { row.clone() };
        if row.is_zero() || self.wrong(Fault::ContentKept) {
            return row;
        }
        match self.fault {
            Some(Fault::SideOutOfContent) => divided_by_left(&row),
            Some(Fault::SideNotDivided) => {
                let mut divided = row.mapped(|s| s, |p| p.over(row.content()));
                divided.set_right(row.right().clone());
                divided
            }
            _ => row.mapped(|s| s, |p| p.over(row.content())),
        }
    }

    /// Each block moves up by one, and n + 1 is put for n (SCOPE 2.61), in the right side too, which has no block; 8 for a
    /// coefficient past ±C (SCOPE 2.63).
    fn shift(&mut self, i: usize) -> Result<(), Refusal> {
        let before = &self.rows[i];
        let mut row = match self.fault {
            Some(Fault::ShiftWithoutIncrement) => before.mapped(|s| s + 1, Polynomial::clone),
            _ => before.shifted(),
        };
        if self.wrong(Fault::SideNotShifted) {
            row.set_right(before.right().clone());
        }
        let limit = if self.wrong(Fault::LooseShift) { 4 * C } else { C };
        if self.limited(&row, Fault::SideOutOfShiftLimit).size() > limit {
            return Err(Refusal::Coefficient);
        }
        self.rows[i] = row;
        self.shifts += 1;
        self.shifts_within_bound()
    }

    /// There are never more shifts than the equations times D (SCOPE 2.65; 02, U6). Only a wrong version gets past that, and has to be
    /// stopped.
    fn shifts_within_bound(&self) -> Result<(), Refusal> {
        if self.shifts as i64 <= self.equations as i64 * self.sizes.d() {
            return Ok(());
        }
        assert!(self.fault.is_some(), "more shifts than the equations times D");
        Err(Refusal::Coefficient)
    }
}

/// Each root as often as it occurs: for a wrong version.
fn repeated(g: &Polynomial, roots: &[i128]) -> Vec<i128> {
    let mut all = Vec::new();
    for &r in roots {
        let mut rest = g.clone();
        while let Some(quotient) = rest.over_root(r) {
            rest = quotient;
            all.push(r);
        }
    }
    all
}

/// How often n - r is divided out while the quotient stays within ±C: for a wrong version.
fn limited_divisions(p: Polynomial, r: i128) -> usize {
    let quotients = std::iter::successors(Some(p), |p| p.over_root(r).filter(|q| q.size() <= C));
    quotients.count() - 1
}

/// The row divided by n - r for an r that is a root of its entries and its right side: for a wrong version.
fn without_common_factors(row: &Row) -> Row {
    let Some((_, _, first)) = row.entries().next() else { return row.clone() };
    let common = |r: &i128| row.polynomials().all(|p| p.over_root(*r).is_some());
    match integer_roots(first).into_iter().find(common) {
        Some(r) => row.mapped(|s| s, |p| p.over_root(r).expect("a common root")),
        None => row.clone(),
    }
}

/// The row divided by what divides its left part, its right side rounded toward zero: for a wrong version.
fn divided_by_left(row: &Row) -> Row {
    let d = row.left().content().max(1);
    row.mapped(|s| s, |p| Polynomial::new(p.coefficients().iter().map(|a| a / d).collect()))
}
