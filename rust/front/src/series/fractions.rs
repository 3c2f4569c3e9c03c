//! Fractions of integers of any size, in lowest terms.

use super::integers::Integer;
use std::fmt;

/// The denominator is positive and has no divisor in common with the numerator.
#[derive(Clone, PartialEq, Eq, Debug)]
pub struct Fraction {
    numerator: Integer,
    denominator: Integer,
}

impl From<i64> for Fraction {
    fn from(number: i64) -> Fraction {
        Fraction::from(Integer::from(number))
    }
}

impl From<Integer> for Fraction {
    fn from(numerator: Integer) -> Fraction {
        Fraction { numerator, denominator: Integer::from(1) }
    }
}

impl Fraction {
    /// The quotient of two integers, the second of which is not 0.
    pub fn of(numerator: Integer, denominator: Integer) -> Fraction {
        if denominator.is_one() {
            return Fraction { numerator, denominator };
        }
        let divisor = numerator.common_divisor(&denominator);
        let divisor = if denominator.is_negative() { divisor.negated() } else { divisor };
        if divisor.is_one() {
            return Fraction { numerator, denominator };
        }
        Fraction { numerator: numerator.divided(&divisor).0, denominator: denominator.divided(&divisor).0 }
    }

    /// The quotient of two integers without a common divisor, the second of which is positive.
    pub fn lowest(numerator: Integer, denominator: Integer) -> Fraction {
        Fraction { numerator, denominator }
    }

    /// `3`, `-3/4` or `0.25`.
    pub fn read(text: &str) -> Option<Fraction> {
        if let Some((above, below)) = text.split_once('/') {
            let (above, below) = (Integer::read(above)?, Integer::read(below)?);
            return (!below.is_zero()).then(|| Fraction::of(above, below));
        }
        let Some((whole, decimals)) = text.split_once('.') else { return Integer::read(text).map(Fraction::from) };
        if decimals.is_empty() || decimals.starts_with('-') {
            return None;
        }
        let above = Integer::read(&format!("{whole}{decimals}"))?;
        Some(Fraction::of(above, Integer::read(&format!("1{}", "0".repeat(decimals.len())))?))
    }

    pub fn is_zero(&self) -> bool {
        self.numerator.is_zero()
    }

    pub fn is_negative(&self) -> bool {
        self.numerator.is_negative()
    }

    pub fn is_one(&self) -> bool {
        self.numerator.is_one() && self.denominator.is_one()
    }

    pub fn negated(self) -> Fraction {
        Fraction { numerator: self.numerator.negated(), denominator: self.denominator }
    }

    pub fn plus(&self, other: &Fraction) -> Fraction {
        let (a, b) = (self.numerator.times(&other.denominator), other.numerator.times(&self.denominator));
        Fraction::of(a.plus(&b), self.denominator.times(&other.denominator))
    }

    pub fn times(&self, other: &Fraction) -> Fraction {
        Fraction::of(self.numerator.times(&other.numerator), self.denominator.times(&other.denominator))
    }

    pub fn numerator(&self) -> &Integer {
        &self.numerator
    }

    pub fn denominator(&self) -> &Integer {
        &self.denominator
    }

    /// The quotient by a fraction that is not 0.
    pub fn over(&self, other: &Fraction) -> Fraction {
        Fraction::of(self.numerator.times(&other.denominator), self.denominator.times(&other.numerator))
    }
}

impl fmt::Display for Fraction {
    fn fmt(&self, formatter: &mut fmt::Formatter) -> fmt::Result {
        if self.denominator.is_one() {
            write!(formatter, "{}", self.numerator)
        } else {
            write!(formatter, "{}/{}", self.numerator, self.denominator)
        }
    }
}
