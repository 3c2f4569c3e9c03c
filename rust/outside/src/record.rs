//! Recorded vectors, and whether a system explains them (02, U10).

use crate::fault::{is, Fault};
use crate::polynomial::Polynomial;
use crate::refusal::Refusal;
use crate::row::Row;
use crate::system::System;

/// The most vectors of a record (SCOPE 12.11).
pub const VECTORS: usize = 64;
/// No index of a record is past it in size (SCOPE 12.11).
pub const INDEX: i128 = 1_048_576;
/// No recorded value is past it in size (SCOPE 12.13).
pub const VALUE: i128 = 65_536;
/// 2^40, which no value of Horner's rule passes (SCOPE 12.31).
pub const LIMIT: i128 = 1 << 40;

/// A record as it is given: so many vectors of m numbers, one after another, that of index `first` first.
#[derive(Clone, Copy, Debug, PartialEq, Eq)]
pub struct Record<'a> {
    pub first: i64,
    pub vectors: usize,
    pub values: &'a [i64],
}

/// The tests of a record all have a zero sum, so many of them; or the first that does not, by its number, index and sum (SCOPE 12.24).
#[derive(Clone, Copy, Debug, PartialEq, Eq)]
pub enum Answer {
    Fits(usize),
    Equation(usize, i128, i128),
    Relation(usize, i128, i128),
}

impl Record<'_> {
    /// 2 for too many vectors, and for a first or last index out of its range. Without vectors there is no last one (SCOPE 12.11).
    pub fn in_range(&self, fault: Option<Fault>) -> Result<(), Refusal> {
        let first = self.first as i128;
        let indices = match self.vectors {
            0 if is(fault, Fault::NoVectorsNoIndex) => vec![],
            0 if is(fault, Fault::NoVectorsLast) => vec![first, first - 1],
            0 => vec![first],
            _ if is(fault, Fault::LastIndexFree) => vec![first],
            _ if is(fault, Fault::EndInRange) => vec![first, first + self.vectors as i128],
            vectors => vec![first, first + vectors as i128 - 1],
        };
        let most = if is(fault, Fault::VectorsMore) { VECTORS + 1 } else { VECTORS };
        if self.vectors <= most && indices.iter().all(|index| (-INDEX..=INDEX).contains(index)) {
            Ok(())
        } else {
            Err(Refusal::Range)
        }
    }

    /// The numbers that the store of values needs (SCOPE 12.12).
    pub fn need(&self, m: usize) -> usize {
        m * self.vectors
    }

    /// 5 for a value past ±65,536; what lies behind the needed part is not looked at (SCOPE 12.13).
    pub fn values_right(&self, m: usize, fault: Option<Fault>) -> Result<(), Refusal> {
        let looked_at = if is(fault, Fault::ValuesPast) { self.values.len() } else { self.need(m) };
        let most = if is(fault, Fault::ValueAbove) { VALUE + 1 } else { VALUE };
        if self.values[..looked_at].iter().all(|&value| (-most..=most).contains(&(value as i128))) {
            Ok(())
        } else if is(fault, Fault::ValueIsSize) {
            Err(Refusal::Range)
        } else {
            Err(Refusal::Number)
        }
    }

    /// The last index.
    fn last(&self) -> i128 {
        self.first as i128 + self.vectors as i128 - 1
    }

    /// The recorded number of an unknown at an index; where a fault asks for one outside the record it is 0.
    fn number(&self, index: i128, column: usize, m: usize, fault: Option<Fault>) -> i128 {
        if !(self.first as i128..=self.last()).contains(&index) {
            return 0;
        }
        let vector = (index - self.first as i128) as usize;
        let at =
            if is(fault, Fault::ByUnknown) { (column - 1) * self.vectors + vector } else { vector * m + column - 1 };
        self.values[at] as i128
    }
}

/// The value of a polynomial, and whether one of the values of Horner's rule passed the limit. Those are what division by x - n leaves:
/// the coefficients of the quotient from the highest down, and the remainder (SCOPE 12.31).
fn divided(p: &Polynomial, n: i128, fault: Option<Fault>) -> (i128, bool) {
    let most = match fault {
        Some(Fault::LimitReached) => LIMIT - 1,
        Some(Fault::LimitAbove) => LIMIT + 1,
        _ => LIMIT,
    };
    let mut left = p.coefficients().to_vec();
    let mut passed = false;
    while let Some(top) = left.pop() {
        passed |= top.abs() > most;
        let Some(next) = left.last_mut() else { return (top, passed) };
        // A value past the limit ends the sum, but where a fault goes on its digits may run over.
        let product = n.wrapping_mul(top);
        passed |= is(fault, Fault::LimitOfProduct) && product.abs() > most;
        *next = next.wrapping_add(product);
    }
    (0, false)
}

/// What a row leaves at n: the sum less the right side, and whether a value on the way passed the limit (SCOPE 12.21).
fn sum_at(row: &Row, n: i128, record: &Record, m: usize, fault: Option<Fault>) -> (i128, bool) {
    let (mut sum, mut passed) = (0i128, false);
    for (block, column, p) in row.entries() {
        let number = record.number(n + block as i128, column, m, fault);
        let (value, past) = divided(p, n, fault);
        sum = sum.wrapping_add(value.wrapping_mul(number));
        passed |= past && !(number == 0 && is(fault, Fault::ZerosNotEvaluated));
    }
    let (side, past) = divided(row.right(), n, fault);
    passed |= past && !is(fault, Fault::SideUnlimited);
    let sum = if is(fault, Fault::SideAdded) { sum.wrapping_add(side) } else { sum.wrapping_sub(side) };
    (sum, passed)
}

/// An equation or a relation, its number counted from 1, where it is tested.
struct Test<'a> {
    is_equation: bool,
    number: usize,
    n: i128,
    row: &'a Row,
}

/// The tests in their order (SCOPE 12.22, 12.23).
fn tests<'a>(system: &'a System, record: &Record, fault: Option<Fault>) -> Vec<Test<'a>> {
    let (l, t) = (system.sizes.l as i128, system.sizes.t as i128);
    let (first, last) = (record.first as i128, record.last());
    let (below, above) = (is(fault, Fault::BlockBefore) as i128, is(fault, Fault::BlockBehind) as i128);
    let mut places: Vec<i128> = (first - t - below..=last - l + above).collect();
    if is(fault, Fault::IndicesFall) {
        places.reverse();
    }
    let numbered = || system.rows.iter().enumerate();
    let test = |n, (k, row)| Test { is_equation: true, number: k + 1, n, row };
    let mut equations: Vec<Test> = places.iter().flat_map(|&n| numbered().map(move |row| test(n, row))).collect();
    if is(fault, Fault::EquationByEquation) {
        equations.sort_by_key(|test| test.number);
    }
    let relation_below = is(fault, Fault::RelationBefore) as i128;
    let relation_above = is(fault, Fault::RelationBehind) as i128;
    let inside = |n0: i128| first <= n0 + t + relation_below && n0 + l <= last + relation_above;
    let numbered = system.relations.iter().enumerate().filter(|(_, relation)| inside(relation.n0));
    let test = |(k, relation): (usize, &'a crate::system::Relation)| Test {
        is_equation: false,
        number: k + 1,
        n: relation.n0,
        row: &relation.row,
    };
    let relations: Vec<Test> = numbered.map(test).collect();
    if is(fault, Fault::RelationsFirst) {
        relations.into_iter().chain(equations).collect()
    } else {
        equations.into_iter().chain(relations).collect()
    }
}

/// Whether the system explains a record that is in range (SCOPE 12.24, 12.31).
pub fn check(system: &System, record: &Record, fault: Option<Fault>) -> Result<Answer, Refusal> {
    let tests = tests(system, record, fault);
    let mut ever_passed = false;
    for test in &tests {
        let (sum, passed) = sum_at(test.row, test.n, record, system.sizes.m, fault);
        ever_passed |= passed;
        let sum_first = is(fault, Fault::LimitAfterSum) || is(fault, Fault::LimitAtTheEnd);
        if passed && !sum_first {
            return Err(Refusal::Value);
        }
        if sum != 0 {
            let number = if is(fault, Fault::NumberFromZero) { test.number - 1 } else { test.number };
            let failure = if test.is_equation { Answer::Equation } else { Answer::Relation };
            let n = if is(fault, Fault::IndexOfBlock) { test.n + system.sizes.l as i128 } else { test.n };
            return Ok(failure(number, n, sum));
        }
        if passed && !is(fault, Fault::LimitAtTheEnd) {
            return Err(Refusal::Value);
        }
    }
    let counted = |test: &&Test| test.is_equation || !is(fault, Fault::EquationsCounted);
    if ever_passed {
        Err(Refusal::Value)
    } else {
        Ok(Answer::Fits(tests.iter().filter(counted).count()))
    }
}

#[cfg(test)]
mod tests {
    use super::*;

    fn of(coefficients: &[i128]) -> Polynomial {
        Polynomial::new(coefficients.to_vec())
    }

    #[test]
    fn values() {
        assert_eq!(divided(&of(&[]), 5, None), (0, false));
        assert_eq!(divided(&of(&[7]), 5, None), (7, false));
        assert_eq!(divided(&of(&[7, -1, 2]), 5, None), (52, false));
        for n in [INDEX, -INDEX] {
            assert_eq!(divided(&of(&[0, 0, 1]), n, None), (LIMIT, false));
            assert!(divided(&of(&[1, 0, 1]), n, None).1 && divided(&of(&[-1, 0, -1]), n, None).1);
            assert_eq!(divided(&of(&[-1, 0, 1]), n, None), (LIMIT - 1, false));
        }
        // The product with n may pass the limit, where the coefficient brings it back.
        assert_eq!(divided(&of(&[-INDEX, INDEX]), INDEX + 1, None), (LIMIT, false));
    }
}
