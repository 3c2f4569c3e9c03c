//! Polynomial solutions: the integer sequences that satisfy a system and vanish outside the indices 0 to N (02, U13).
//!
//! Rows of constants are maps from a column to a number. They are eliminated step by step as the rules say, since refusal 8 depends
//! on each step; a sequence is then found in fractions, from 1 at its own column, and brought to its least common denominator.

use crate::elimination::{run, Run, Side};
use crate::fault::{is, Fault};
use crate::polynomial::{greatest_divisor, Polynomial};
use crate::record::LIMIT;
use crate::refusal::Refusal;
use crate::roots::integer_roots;
use crate::row::Row;
use crate::stores::{checked, row_store, Asked, RELATION_STORE};
use crate::system::System;
use crate::{C, EQUATIONS};
use std::collections::BTreeMap;

/// The largest N (SCOPE 14.22).
pub const LAST: i128 = 15;
/// The most columns: 16 indices of four unknowns. A row of the list store, and of the matrix, has as many numbers (SCOPE 14.61).
pub const COLUMNS: usize = 64;
/// Numbers of the list store (SCOPE 14.61).
pub const LIST: usize = COLUMNS * COLUMNS;
/// Numbers of the matrix, for 20 × 6 rows of equations and 16 of relations (SCOPE 14.61).
pub const MATRIX: usize = 136 * COLUMNS;
/// Numbers that the answer takes (SCOPE 14.64).
pub const ANSWER: usize = 3;

/// N, and the sequences by their values at the indices 0 to N, those of all unknowns at an index together.
#[derive(Clone, Debug, PartialEq, Eq)]
pub struct List {
    pub last: usize,
    pub sequences: Vec<Vec<i128>>,
}

/// 14 for a right side that is not zero, of an equation or of a relation (SCOPE 14.11).
pub fn sides_zero(system: &System, fault: Option<Fault>) -> Result<(), Refusal> {
    let looked_at = if is(fault, Fault::RelationSideListed) { system.rows.len() } else { usize::MAX };
    if system.all_rows().take(looked_at).all(|row| row.right().is_zero()) {
        Ok(())
    } else {
        Err(Refusal::NotListed)
    }
}

/// The list of a system whose right sides are zero; none where there is no N from 0 on (SCOPE 14.2 to 14.5).
pub fn list(system: &System, fault: Option<Fault>) -> Result<Option<List>, Refusal> {
    let m = system.sizes.m;
    let run = run(system, Side::Trailing, fault)?;
    if run.rank() < m && !is(fault, Fault::RankBelowListed) {
        return Err(Refusal::NotListed);
    }
    let Some(last) = last_index(&run, fault)? else { return Ok(None) };
    let rows = rows_asked(system, last, fault).into_iter().map(|(n, row)| constants(row, n, last, m, fault));
    let settled = if is(fault, Fault::EliminatedAsMade) {
        eliminated(rows, fault)?
    } else {
        // Every row is made before the first is eliminated (SCOPE 14.34).
        let made: Vec<Constants> = rows.collect::<Result<_, _>>()?;
        if is(fault, Fault::EntriesJudgedLast) && made.iter().flat_map(BTreeMap::values).any(|a| a.abs() > C) {
            return Err(Refusal::Coefficient);
        }
        eliminated(made.into_iter().map(Ok), fault)?
    };
    let columns = (last as usize + 1) * m;
    let is_free = |column: &usize| settled.iter().all(|(pivot, _)| pivot != column);
    let mut free: Vec<usize> = (0..columns).filter(is_free).collect();
    if is(fault, Fault::ListFalls) {
        free.reverse();
    }
    let sequences = free.iter().map(|&column| sequence(&settled, column, columns, fault));
    Ok(Some(List { last: last as usize, sequences: sequences.collect::<Result<_, _>>()? }))
}

/// N: t and the largest integer root of the trailing diagonal (SCOPE 14.21), if it is not negative; above 15 it is refused (SCOPE 14.22).
fn last_index(run: &Run, fault: Option<Fault>) -> Result<Option<i128>, Refusal> {
    let t = run.system.sizes.t;
    let diagonal = run.system.rows.iter().zip(&run.order).map(|(row, &column)| row.entry(t, column));
    let roots = diagonal.flat_map(|p| integer_roots(&p));
    let root = if is(fault, Fault::LastOfLeastRoot) { roots.min() } else { roots.max() };
    let last = root.map(|r| if is(fault, Fault::LastWithoutBlock) { r } else { r + t as i128 });
    let most = match fault {
        Some(Fault::LastFourteen) => LAST - 1,
        Some(Fault::LastSixteen) if run.system.sizes.m < 4 => LAST + 1,
        _ => LAST,
    };
    match last {
        Some(n) if n > most => Err(Refusal::NotListed),
        Some(n) if n < 0 && is(fault, Fault::NegativeLastRefused) => Err(Refusal::NotListed),
        None if is(fault, Fault::NoRootRefused) => Err(Refusal::NotListed),
        _ => Ok(last.filter(|&n| n >= 0)),
    }
}

// ---- the rows ----

/// The nonzero numbers of a row of constants, under their columns: index × m + unknown - 1.
type Constants = BTreeMap<usize, i128>;

/// The equations at each n from -l to N - t, by rising n, then by number; behind them the relations (SCOPE 14.31).
fn rows_asked(system: &System, last: i128, fault: Option<Fault>) -> Vec<(i128, &Row)> {
    let (l, t) = (system.sizes.l as i128, system.sizes.t as i128);
    let first = match fault {
        Some(Fault::RowsFromZero) => 0,
        Some(Fault::RowsOneLater) => 1 - l,
        _ => -l,
    };
    let end = match fault {
        Some(Fault::RowsToLast) => last,
        Some(Fault::RowsOneLess) => last - t - 1,
        _ => last - t,
    };
    let at = |n| system.rows.iter().map(move |row| (n, row));
    let mut equations: Vec<(i128, &Row)> = if is(fault, Fault::RowsByNumber) {
        system.rows.iter().flat_map(|row| (first..=end).map(move |n| (n, row))).collect()
    } else {
        (first..=end).flat_map(at).collect()
    };
    let relations: Vec<(i128, &Row)> = system.relations.iter().map(|r| (r.n0, &r.row)).collect();
    match fault {
        Some(Fault::RelationsNotAsked) => equations,
        Some(Fault::RelationsAskedFirst) => relations.into_iter().chain(equations).collect(),
        Some(Fault::RowsFall) => {
            equations.reverse();
            equations.into_iter().chain(relations).collect()
        }
        _ => equations.into_iter().chain(relations).collect(),
    }
}

/// A row at n, as far as it speaks of the indices 0 to N (SCOPE 14.32). The entries of a row come by block, then unknown, which at one n
/// is the order of the columns; of each 12 is looked for, then 8 (SCOPE 14.34).
fn constants(row: &Row, n: i128, last: i128, m: usize, fault: Option<Fault>) -> Result<Constants, Refusal> {
    let mut made = Constants::new();
    for (block, unknown, p) in row.entries() {
        let index = n + block as i128;
        let inside = (0..=last).contains(&index);
        if !inside && !is(fault, Fault::OutsideEvaluated) {
            continue;
        }
        let (value, passed) = evaluated(p, n, fault);
        let too_large = value.unsigned_abs() > C as u128;
        if passed && !(too_large && is(fault, Fault::EntryBeforeValue)) {
            return Err(Refusal::Value);
        }
        if too_large && !is(fault, Fault::EntriesUnlimited) && !is(fault, Fault::EntriesJudgedLast) {
            return Err(Refusal::Coefficient);
        }
        if inside && value != 0 {
            made.insert(index as usize * m + unknown - 1, value);
        }
    }
    Ok(made)
}

/// The value of p at n, and whether a value of Horner's rule is past the limit (SCOPE 14.33). The one after the power k is added is the
/// sum of a(j) n^(j - k) over j from k on, which is formed here by powers. Where an index is inside, n is at most 79 in size, and a
/// sum has less than 124 bits.
fn evaluated(p: &Polynomial, n: i128, fault: Option<Fault>) -> (i128, bool) {
    let most = match fault {
        Some(Fault::LimitReached) => LIMIT - 1,
        Some(Fault::LimitAbove) => LIMIT + 1,
        _ => LIMIT,
    };
    let from = |k: usize| {
        let powers = std::iter::successors(Some(1i128), |power| Some(power.wrapping_mul(n)));
        let terms = p.coefficients()[k..].iter().zip(powers).map(|(a, power)| a.wrapping_mul(power));
        terms.fold(0i128, i128::wrapping_add)
    };
    (from(0), (0..p.coefficients().len()).any(|k| from(k).unsigned_abs() > most as u128))
}

// ---- the elimination ----

/// The numbers divided by the greatest positive integer that divides them all (SCOPE 14.43).
fn divided(row: Constants) -> Constants {
    let d = row.values().fold(0, |d, &a| greatest_divisor(d, a));
    row.into_iter().map(|(column, a)| (column, a / d)).collect()
}

/// The rows that are kept, each with the column at which it is settled (SCOPE 14.41 to 14.44).
fn eliminated(
    rows: impl Iterator<Item = Result<Constants, Refusal>>,
    fault: Option<Fault>,
) -> Result<Vec<(usize, Constants)>, Refusal> {
    let mut settled: Vec<(usize, Constants)> = Vec::new();
    for row in rows {
        let mut row = row?;
        for (column, other) in &settled {
            if row.contains_key(column) {
                row = combined(&row, other, *column, fault)?;
            }
        }
        let column = if is(fault, Fault::LastColumnSettled) { row.keys().next_back() } else { row.keys().next() };
        if let Some(&column) = column {
            settled.push((column, row));
        }
    }
    Ok(settled)
}

/// The row in turn after it has met a settled row at that one's column (SCOPE 14.42, 14.43). All widths are equal, so none are exchanged.
fn combined(row: &Constants, other: &Constants, column: usize, fault: Option<Fault>) -> Result<Constants, Refusal> {
    let (a, b) = (other[&column], row[&column]);
    let d = greatest_divisor(a, b) * a.signum();
    let (g, h) = (a / d, -b / d);
    let number = |row: &Constants, column: &usize| row.get(column).copied().unwrap_or(0);
    let sum = row.keys().chain(other.keys()).map(|k| (*k, g * number(row, k) + h * number(other, k)));
    let sum: Constants = sum.filter(|&(_, a)| a != 0).collect();
    let whole = if is(fault, Fault::RowsUndivided) { sum.clone() } else { divided(sum.clone()) };
    let judged = if is(fault, Fault::RowsJudgedUndivided) { &sum } else { &whole };
    if judged.values().any(|a| a.abs() > C) {
        Err(Refusal::Coefficient)
    } else {
        Ok(whole)
    }
}

// ---- the list ----

/// A fraction in lowest terms, its denominator positive.
#[derive(Clone, Copy, Debug, PartialEq, Eq)]
struct Fraction {
    above: i128,
    below: i128,
}

impl Fraction {
    fn new(above: i128, below: i128) -> Fraction {
        let d = greatest_divisor(above, below) * below.signum();
        Fraction { above: above / d, below: below / d }
    }

    fn plus(self, other: Fraction) -> Fraction {
        let below = common_multiple(self.below, other.below);
        Fraction::new(self.above * (below / self.below) + other.above * (below / other.below), below)
    }

    fn times(self, a: i128) -> Fraction {
        Fraction::new(self.above * a, self.below)
    }

    fn over(self, a: i128) -> Fraction {
        Fraction::new(self.above, self.below * a)
    }
}

fn common_multiple(a: i128, b: i128) -> i128 {
    a / greatest_divisor(a, b) * b
}

/// The sequence of a column at which no row is settled (SCOPE 14.51): 1 there, 0 at the others, and back through the rows, each of which
/// gives the value at its own column; then all of them times the least common denominator. That is the value at the free column, so
/// it is positive, and no prime divides all: not one of a denominator, which has its highest power in some fraction, and no other, since
/// it does not divide the value at the free column.
///
/// The common denominator only grows, and a numerator is no larger than the number that it becomes. So what is past ±C on the way is past
/// ±C in the list, where it is 8 (SCOPE 14.53), and with that no sum has more than 110 bits.
fn sequence(
    settled: &[(usize, Constants)],
    free: usize,
    columns: usize,
    fault: Option<Fault>,
) -> Result<Vec<i128>, Refusal> {
    let most = if is(fault, Fault::ListLoose) { 2 * C } else { C };
    let mut values = vec![Fraction::new(0, 1); columns];
    values[free] = Fraction::new(1, 1);
    let mut common = 1;
    for (column, row) in settled.iter().rev() {
        let others = row.iter().filter(|(other, _)| *other != column);
        let sum = others.fold(Fraction::new(0, 1), |sum, (&other, &a)| sum.plus(values[other].times(a)));
        let value = sum.over(-row[column]);
        common =
            if is(fault, Fault::DivisorKept) { common * value.below } else { common_multiple(common, value.below) };
        if common > most || value.above.abs() > most {
            return Err(Refusal::Coefficient);
        }
        values[*column] = value;
    }
    let mut whole: Vec<i128> = values.iter().map(|value| value.above * (common / value.below)).collect();
    if whole.iter().any(|a| a.abs() > most) {
        return Err(Refusal::Coefficient);
    }
    let first_negative = whole.iter().find(|&&a| a != 0).is_some_and(|&a| a < 0);
    if first_negative && is(fault, Fault::FirstPositive) {
        whole.iter_mut().for_each(|a| *a = -*a);
    }
    Ok(whole)
}

// ---- the call ----

/// The stores that the call may write: a row store and a relation store for the trailing run, the matrix, and the list.
#[derive(Debug)]
pub struct Lent<'a> {
    pub rows: &'a mut [i64],
    pub relations: &'a mut [i64],
    pub matrix: &'a mut [i64],
    pub list: &'a mut [i64],
}

/// The list of the system in the stores, which are only read. The answer is 1, N and the number of sequences, or zeros where there is no N
/// from 0 on (SCOPE 14.64). Sizes (2), lengths (1), numbers (5) and right sides (14) are looked at before anything changes (SCOPE 14.62);
/// after that the work stores end as zeros, and on a refusal the list and the answer too (SCOPE 14.63).
pub fn solutions_on_stores(
    rows: &[i64],
    relations: &[i64],
    asked: Asked,
    lent: Lent,
    result: &mut [i64],
    fault: Option<Fault>,
) -> u8 {
    let Lent { rows: work_rows, relations: work_relations, matrix, list: places } = lent;
    let row_need = row_store(asked.equations.min(EQUATIONS));
    let matrix_need = if is(fault, Fault::MatrixOfEquations) { MATRIX - 16 * COLUMNS } else { MATRIX };
    let list_need = if is(fault, Fault::ListShorter) { LIST - COLUMNS } else { LIST };
    let extra = [
        (work_rows.len(), row_need),
        (work_relations.len(), RELATION_STORE),
        (matrix.len(), matrix_need),
        (places.len(), list_need),
        (result.len(), ANSWER),
    ];
    let system = match checked(rows, relations, asked, &extra, fault) {
        Ok(system) => system,
        Err(refusal) => return refusal.number(),
    };
    let sides = sides_zero(&system, fault);
    let late = is(fault, Fault::SidesAfterRun);
    if let (Err(refusal), false) = (sides, late) {
        if is(fault, Fault::SidesZeroStores) {
            places.iter_mut().take(LIST).for_each(|a| *a = 0);
        }
        return refusal.number();
    }
    if !is(fault, Fault::WorkStoresKept) {
        work_rows[..row_need].fill(0);
        work_relations[..RELATION_STORE].fill(0);
        matrix.iter_mut().take(MATRIX).for_each(|a| *a = 0);
    }
    let listed = match sides {
        Ok(()) => list(&system, fault),
        Err(refusal) => run(&system, Side::Trailing, fault).and(Err(refusal)),
    };
    if listed.is_ok() || !is(fault, Fault::RefusedListKept) {
        places.iter_mut().take(LIST).for_each(|a| *a = 0);
        result[..ANSWER].fill(0);
    }
    match listed {
        Err(refusal) => refusal.number(),
        Ok(None) => 0,
        Ok(Some(list)) => {
            let width = if is(fault, Fault::ListTight) { (list.last + 1) * asked.m } else { COLUMNS };
            for (sequence, places) in list.sequences.iter().zip(places.chunks_exact_mut(width)) {
                for (column, &a) in sequence.iter().enumerate() {
                    let (index, unknown) = (column / asked.m, column % asked.m);
                    let by_unknown = is(fault, Fault::ListByUnknown);
                    let place = if by_unknown { unknown * (list.last + 1) + index } else { column };
                    places[place] = a as i64;
                }
            }
            result[..ANSWER].copy_from_slice(&[1, list.last as i64, list.sequences.len() as i64]);
            0
        }
    }
}

#[cfg(test)]
mod tests {
    use super::*;

    fn of(coefficients: &[i128]) -> Polynomial {
        Polynomial::new(coefficients.to_vec())
    }

    #[test]
    fn values() {
        assert_eq!(evaluated(&of(&[]), 5, None), (0, false));
        assert_eq!(evaluated(&of(&[7, -1, 2]), 5, None), (52, false));
        assert_eq!(evaluated(&of(&[7, -1, 2]), -5, None), (62, false));
        assert_eq!(evaluated(&of(&[7, -1, 2]), 0, None), (7, false));
        // 64^6 is 2^36, 64^7 past the limit; 2^40 is within it. A value on the way counts, though the last one is small.
        assert_eq!(evaluated(&of(&[0, 0, 0, 0, 0, 0, 16]), 64, None), (LIMIT, false));
        assert_eq!(evaluated(&of(&[0, 0, 0, 0, 0, 0, -16]), -64, None), (-LIMIT, false));
        assert!(evaluated(&of(&[1, 0, 0, 0, 0, 0, 16]), 64, None).1);
        assert_eq!(evaluated(&of(&[0, 0, 0, 0, 0, 0, 0, 0, 64, -1]), 64, None), (0, false));
        assert_eq!(evaluated(&of(&[0, 0, 0, 0, 0, 0, 0, -64, 1]), 64, None), (0, false));
        assert!(evaluated(&of(&[0, 0, -C, 0, 0, 0, 0, 1]), -79, None).1);
    }

    #[test]
    fn fractions() {
        assert_eq!(Fraction::new(4, -6), Fraction { above: -2, below: 3 });
        assert_eq!(Fraction::new(0, -6), Fraction { above: 0, below: 1 });
        assert_eq!(Fraction::new(1, 6).plus(Fraction::new(1, 10)), Fraction::new(4, 15));
        assert_eq!(Fraction::new(5, 6).times(-3).over(10), Fraction::new(-1, 4));
    }
}
