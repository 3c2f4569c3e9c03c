//! Equations: the products p(n) × z(n + s, c) of all blocks and columns sum up to the right side, a polynomial in n too
//! (SCOPE 1.3; 02, U1).

use crate::polynomial::{greatest_divisor, Polynomial};
use std::collections::BTreeMap;

/// The nonzero entries of an equation, under their block and column, and its right side.
#[derive(Clone, Debug, PartialEq, Eq, Default)]
pub struct Row {
    entries: BTreeMap<(i64, usize), Polynomial>,
    right: Polynomial,
}

impl Row {
    /// The entry at a block and column, zero where none is held.
    pub fn entry(&self, block: i64, column: usize) -> Polynomial {
        self.entries.get(&(block, column)).cloned().unwrap_or_default()
    }

    pub fn set(&mut self, block: i64, column: usize, p: Polynomial) {
        if p.is_zero() {
            self.entries.remove(&(block, column));
        } else {
            self.entries.insert((block, column), p);
        }
    }

    /// The nonzero entries, by rising block, then rising column.
    pub fn entries(&self) -> impl Iterator<Item = (i64, usize, &Polynomial)> {
        self.entries.iter().map(|(&(block, column), p)| (block, column, p))
    }

    /// The right side.
    pub fn right(&self) -> &Polynomial {
        &self.right
    }

    pub fn set_right(&mut self, p: Polynomial) {
        self.right = p;
    }

    /// The same entries with the right side zero.
    pub fn left(&self) -> Row {
        Row { entries: self.entries.clone(), right: Polynomial::default() }
    }

    /// Whether both parts are zero.
    pub fn is_zero(&self) -> bool {
        self.is_left_zero() && self.right.is_zero()
    }

    pub fn is_left_zero(&self) -> bool {
        self.entries.is_empty()
    }

    /// l - s + 1 where s is the lowest nonzero block, 0 where there is none (SCOPE 2.1). The right side does not count.
    pub fn width(&self, l: i64) -> i64 {
        self.entries.keys().next().map_or(0, |(s, _)| l - s + 1)
    }

    /// The columns with a nonzero entry in a block, rising.
    pub fn columns(&self, block: i64) -> impl DoubleEndedIterator<Item = usize> + '_ {
        self.entries.range((block, 0)..=(block, usize::MAX)).map(|(&(_, column), _)| column)
    }

    /// g × this row + h × the other, on both sides.
    pub fn combined(&self, g: &Polynomial, other: &Row, h: &Polynomial) -> Row {
        let right = self.right.times(g).plus(&other.right.times(h));
        let mut sum = Row { right, ..Row::default() };
        for &(block, column) in self.entries.keys().chain(other.entries.keys()) {
            let (p, q) = (self.entry(block, column), other.entry(block, column));
            sum.set(block, column, p.times(g).plus(&q.times(h)));
        }
        sum
    }

    /// The entries and the right side.
    pub fn polynomials(&self) -> impl Iterator<Item = &Polynomial> {
        self.entries.values().chain([&self.right])
    }

    /// The largest integer that divides every coefficient (SCOPE 2.42), 0 for a zero row.
    pub fn content(&self) -> i128 {
        self.polynomials().fold(0, |d, p| greatest_divisor(d, p.content()))
    }

    /// The highest degree of an entry or of the right side.
    pub fn degree(&self) -> usize {
        self.polynomials().map(Polynomial::degree).max().unwrap_or(0)
    }

    /// The size of the largest coefficient.
    pub fn size(&self) -> i128 {
        self.polynomials().map(Polynomial::size).max().unwrap_or(0)
    }

    /// Every entry moved to another block; every entry, and the right side where it is, changed in the same way.
    pub fn mapped(&self, block: impl Fn(i64) -> i64, change: impl Fn(&Polynomial) -> Polynomial) -> Row {
        let mut row = Row { right: change(&self.right), ..Row::default() };
        for (s, column, p) in self.entries() {
            row.set(block(s), column, change(p));
        }
        row
    }

    /// Each block moved up by one, n + 1 put for n (SCOPE 2.61).
    pub fn shifted(&self) -> Row {
        self.mapped(|s| s + 1, Polynomial::after_increment)
    }

    /// The mirror: -n for n, block -s for block s (SCOPE 2.91).
    pub fn mirrored(&self) -> Row {
        self.mapped(|s| -s, Polynomial::mirrored)
    }
}
