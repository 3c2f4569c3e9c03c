//! What the equations and relations of an input say of the values at a range of indices, by an elimination of its own: rows of whole
//! numbers without a common divisor, no fractions, and nothing but the input.

use super::whole::Whole;
use outside::row::Row;
use outside::system::System;
use std::collections::BTreeMap;

/// Which sequences are meant (docs/SERIES.md).
#[derive(Clone, Copy, Debug, PartialEq, Eq)]
pub enum Kind {
    /// The equations hold at every n.
    TwoSided,
    /// The equations hold at every n from k on, and the relations with n0 from k on.
    First(i64),
    /// The equations hold at every n, and the values below an index are 0.
    ZeroBelow(i64),
}

impl Kind {
    /// Whether what is said at n counts.
    pub fn counts(self, n: i128) -> bool {
        !matches!(self, Kind::First(k) if n < i128::from(k))
    }

    /// Whether the value at an index is 0 from the start.
    pub fn is_zero(self, index: i64) -> bool {
        matches!(self, Kind::ZeroBelow(first) if index < first)
    }
}

/// A value: its index and its column.
pub type Place = (i64, usize);

/// A linear equation between values: factors, and the number that the sum is.
#[derive(Clone, Debug, Default)]
pub struct Sum {
    pub factors: Vec<(Place, Whole)>,
    pub right: Whole,
}

impl Sum {
    /// A row at n.
    pub fn at(row: &Row, n: i64, kind: Kind) -> Sum {
        let entries = row.entries().filter(|&(block, ..)| !kind.is_zero(n + block));
        let factor = |p: &outside::polynomial::Polynomial| Whole::value(p.coefficients(), n.into());
        let factors = entries.map(|(block, column, p)| ((n + block, column), factor(p))).collect();
        Sum { factors, right: factor(row.right()) }
    }

    /// One value is a fraction.
    pub fn single(place: Place, numerator: Whole, denominator: Whole) -> Sum {
        Sum { factors: vec![(place, denominator)], right: numerator }
    }
}

/// A row: factors by the number of their unknown, none of them 0; the number on the right is under `RIGHT`.
type Numbers = BTreeMap<usize, Whole>;
const RIGHT: usize = usize::MAX;

/// What became of a condition.
#[derive(Clone, Copy, Debug, PartialEq, Eq)]
pub enum Added {
    Holds,
    Contradicts,
}

/// A number has more limbs than are worked with.
#[derive(Debug)]
pub struct TooLarge;

/// Limbs of the largest number that is worked with.
const LIMBS: usize = 48;

/// Conditions on the values at the indices of a window, in steps: each under its first unknown. The unknowns are the values above the
/// range that is shown, from the top down, then those below it, from the bottom up, then those of the range, the latest first.
#[derive(Clone)]
pub struct Conditions {
    m: usize,
    window: (i64, i64),
    shown: (i64, i64),
    steps: BTreeMap<usize, Numbers>,
}

impl Conditions {
    pub fn new(m: usize, window: (i64, i64), shown: (i64, i64)) -> Conditions {
        Conditions { m, window, shown, steps: BTreeMap::new() }
    }

    fn unknown(&self, (index, column): Place) -> usize {
        let ((low, high), (first, last)) = (self.window, self.shown);
        assert!((low..=high).contains(&index), "{index} is outside {low} to {high}");
        let vectors = if index > last {
            high - index
        } else if index < first {
            high - last + index - low
        } else {
            high - last + first - low + last - index
        };
        vectors as usize * self.m + self.m - column
    }

    fn numbers(&self, sum: &Sum) -> Numbers {
        let mut numbers = Numbers::new();
        for (place, factor) in &sum.factors {
            let known = numbers.remove(&self.unknown(*place)).unwrap_or_default();
            numbers.insert(self.unknown(*place), known.plus(factor));
        }
        numbers.insert(RIGHT, sum.right.clone());
        numbers.retain(|_, factor| !factor.is_zero());
        numbers
    }

    /// A condition with what the steps say taken from it, down to an unknown that none of them begins with.
    fn reduced(&self, sum: &Sum) -> Result<Numbers, TooLarge> {
        let mut numbers = without_content(self.numbers(sum));
        while let Some((first, _)) = numbers.first_key_value() {
            let Some(step) = self.steps.get(first) else { break };
            numbers = without_content(without_first(&numbers, step));
            if numbers.values().any(|number| number.limbs() > LIMBS) {
                return Err(TooLarge);
            }
        }
        Ok(numbers)
    }

    /// Adds a condition, unless it contradicts those before it.
    pub fn add(&mut self, sum: &Sum) -> Result<Added, TooLarge> {
        let numbers = self.reduced(sum)?;
        match numbers.first_key_value().map(|(&first, _)| first) {
            None => Ok(Added::Holds),
            Some(RIGHT) => Ok(Added::Contradicts),
            Some(first) => {
                self.steps.insert(first, numbers);
                Ok(Added::Holds)
            }
        }
    }

    /// Whether a condition follows from those that were added.
    pub fn implies(&self, sum: &Sum) -> Result<bool, TooLarge> {
        Ok(self.reduced(sum)?.is_empty())
    }

    /// The places of the range that no condition gives by earlier ones, by index and column.
    pub fn free(&self) -> Vec<Place> {
        let places = (self.shown.0..=self.shown.1).flat_map(|index| (1..=self.m).map(move |column| (index, column)));
        places.filter(|&place| !self.steps.contains_key(&self.unknown(place))).collect()
    }

    /// Adds what an input says: its equations at the n of a list, its relations with an n0 of that list. The first n at which it
    /// contradicts is given.
    pub fn add_all(&mut self, input: &System, kind: Kind, ns: &[i64]) -> Result<Option<i64>, TooLarge> {
        for &n in ns {
            let relations = input.relations.iter().filter(|relation| relation.n0 == i128::from(n)).map(|r| &r.row);
            for row in input.rows.iter().chain(relations) {
                if self.add(&Sum::at(row, n, kind))? == Added::Contradicts {
                    return Ok(Some(n));
                }
            }
        }
        Ok(None)
    }
}

/// The combination of two rows with the same first unknown that is without it.
fn without_first(a: &Numbers, b: &Numbers) -> Numbers {
    let (Some((first, x)), Some(y)) = (a.first_key_value(), b.first_key_value().map(|(_, y)| y)) else {
        return a.clone();
    };
    let divisor = x.divisor(y);
    let (by, less) = (y.over(&divisor), x.over(&divisor).negated());
    let mut sum: Numbers = a.iter().filter(|(at, _)| *at != first).map(|(&at, p)| (at, p.times(&by))).collect();
    for (&at, q) in b.iter().skip(1) {
        let product = q.times(&less);
        let both = sum.remove(&at).map_or(product.clone(), |p| p.plus(&product));
        if !both.is_zero() {
            sum.insert(at, both);
        }
    }
    sum
}

fn without_content(mut numbers: Numbers) -> Numbers {
    let one = Whole::from(1);
    let mut content = Whole::default();
    for number in numbers.values() {
        content = content.divisor(number);
        if content == one {
            return numbers;
        }
    }
    numbers.values_mut().for_each(|number| *number = number.over(&content));
    numbers
}
