//! Exact linear equations, one after another: which unknowns are free, and what the others are.
//!
//! A row has integers, and no common divisor: the factor of the unknown that it gives is the one denominator of all its
//! numbers.

use super::clock::{Clock, Late};
use super::integers::Integer;
use std::collections::BTreeMap;

/// A sum of unknowns, each with its factor, that comes to a number. No factor is 0.
#[derive(Clone, Debug, Default, PartialEq)]
pub struct Row {
    pub factors: BTreeMap<usize, Integer>,
    pub right: Integer,
}

impl Row {
    /// Adds factor × unknown to the sum.
    pub fn add(&mut self, unknown: usize, factor: &Integer) {
        let sum = self.factors.get(&unknown).map_or_else(|| factor.clone(), |known| known.plus(factor));
        if sum.is_zero() {
            self.factors.remove(&unknown);
        } else {
            self.factors.insert(unknown, sum);
        }
    }

    /// Multiplies all numbers.
    fn multiply(&mut self, by: &Integer) {
        if !by.is_one() {
            self.factors.values_mut().for_each(|factor| *factor = factor.times(by));
            self.right = self.right.times(by);
        }
    }

    /// Takes factor × another row away.
    fn take(&mut self, factor: &Integer, other: &Row) {
        let factor = factor.clone().negated();
        for (&unknown, a) in &other.factors {
            self.add(unknown, &factor.times(a));
        }
        self.right = self.right.plus(&factor.times(&other.right));
    }

    /// Takes an unknown out by a row that has it too.
    fn eliminate(&mut self, unknown: usize, by: &Row) {
        let (Some(factor), Some(below)) = (self.factors.get(&unknown), by.factors.get(&unknown)) else { return };
        let divisor = factor.common_divisor(below);
        let (factor, times) = (factor.divided(&divisor).0, below.divided(&divisor).0);
        self.multiply(&times);
        self.take(&factor, by);
    }

    /// The bits of its longest number.
    fn bits(&self) -> u64 {
        self.factors.values().chain([&self.right]).map(Integer::bits).max().unwrap_or(0)
    }

    /// Divides by the greatest common divisor, with the sign that makes the first factor positive.
    fn shorten(&mut self) {
        let mut numbers: Vec<&Integer> = self.factors.values().chain([&self.right]).collect();
        numbers.sort_by_key(|number| number.bits());
        let mut content = Integer::default();
        for number in numbers {
            content = content.common_divisor(number);
            if content.is_one() {
                break;
            }
        }
        let is_negative = self.factors.first_key_value().is_some_and(|(_, factor)| factor.is_negative());
        if content.is_one() && !is_negative || content.is_zero() {
            return;
        }
        let by = if is_negative { content.negated() } else { content };
        let over = |number: &Integer| number.divided(&by).0;
        self.factors.values_mut().for_each(|factor| *factor = over(factor));
        self.right = over(&self.right);
    }
}

/// Rows by the unknown that each gives, which stands in no other row and is the lowest of its row. So where an unknown
/// is given, no row could give a higher one instead of it.
#[derive(Clone, Default)]
pub struct Solver {
    rows: BTreeMap<usize, Row>,
}

/// The least common multiple of two positive integers.
fn common_multiple(a: Integer, b: &Integer) -> Integer {
    if a.is_one() || a == *b {
        return b.clone();
    }
    let divisor = a.common_divisor(b);
    a.times(&b.divided(&divisor).0)
}

impl Solver {
    /// A row with what is known put in, times some integer.
    fn reduced(&self, row: Row) -> Row {
        let known: Vec<(Integer, &Row, &Integer)> = row
            .factors
            .iter()
            .filter_map(|(unknown, factor)| {
                let known = self.rows.get(unknown)?;
                Some((factor.clone(), known, &known.factors[unknown]))
            })
            .collect();
        let all = known.iter().fold(Integer::from(1), |all, (_, _, below)| common_multiple(all, below));
        let mut reduced = row;
        reduced.multiply(&all);
        for (factor, known, below) in known {
            reduced.take(&factor.times(&all.divided(below).0), known);
        }
        reduced
    }

    /// Adds a row; false, and nothing is added, where it contradicts those before it.
    pub fn add(&mut self, row: Row, clock: &Clock) -> Result<bool, Late> {
        clock.look()?;
        let mut new = self.reduced(row);
        let Some((&unknown, _)) = new.factors.first_key_value() else { return Ok(new.right.is_zero()) };
        new.shorten();
        // A row has no unknown that is lower than the one it gives.
        for known in self.rows.range_mut(..unknown).map(|(_, known)| known) {
            if known.factors.contains_key(&unknown) {
                known.eliminate(unknown, &new);
                known.shorten();
                clock.look()?;
            }
        }
        self.rows.insert(unknown, new);
        Ok(true)
    }

    /// The row that gives an unknown, if one does.
    pub fn given(&self, unknown: usize) -> Option<&Row> {
        self.rows.get(&unknown)
    }

    /// Takes out the row that gives an unknown, if one does.
    pub fn remove(&mut self, unknown: usize) -> Option<Row> {
        self.rows.remove(&unknown)
    }
}

/// Rows that are carried from vector to vector. They are not put into one another, so that the numbers of each grow by
/// what is passed alone.
#[derive(Default)]
pub struct Conditions {
    /// Each with the bits that it had when it was shortened.
    rows: Vec<(Row, u64)>,
}

impl Conditions {
    /// Takes what a solver knows at one place into account and forgets some unknowns, the lowest of it; gives how many
    /// of them nothing gives, or none where there is a contradiction.
    pub fn pass(
        &mut self,
        mut said: Solver,
        unknowns: impl Iterator<Item = usize>,
        clock: &Clock,
    ) -> Result<Option<usize>, Late> {
        for (row, _) in &mut self.rows {
            *row = said.reduced(std::mem::take(row));
            clock.look()?;
        }
        let mut free = 0;
        for unknown in unknowns {
            if said.remove(unknown).is_some() {
                continue;
            }
            let Some(at) = self.rows.iter().position(|(row, _)| row.factors.contains_key(&unknown)) else {
                free += 1;
                continue;
            };
            let (by, _) = self.rows.swap_remove(at);
            for (row, _) in &mut self.rows {
                row.eliminate(unknown, &by);
                clock.look()?;
            }
        }
        self.rows.extend(said.rows.into_values().map(|row| (row, 0)));
        if self.rows.iter().any(|(row, _)| row.factors.is_empty() && !row.right.is_zero()) {
            return Ok(None);
        }
        self.rows.retain(|(row, _)| !row.factors.is_empty());
        self.shorten();
        Ok(Some(free))
    }

    /// Shortens the rows that are twice as long as they were.
    fn shorten(&mut self) {
        for (row, bits) in &mut self.rows {
            if row.bits() > 2 * *bits + 1_024 {
                row.shorten();
                *bits = row.bits();
            }
        }
    }

    pub fn into_rows(self) -> impl Iterator<Item = Row> {
        self.rows.into_iter().map(|(row, _)| row)
    }
}
