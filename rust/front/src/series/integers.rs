//! Integers of any size: a sign, and a size of 64-bit limbs ([`super::limbs`]).

use super::limbs;
use std::cmp::Ordering;
use std::fmt;

/// The highest limb is not 0; 0 has no limbs and is not negative.
#[derive(Clone, PartialEq, Eq, Debug, Default)]
pub struct Integer {
    is_negative: bool,
    limbs: Vec<u64>,
}

impl From<i64> for Integer {
    fn from(number: i64) -> Integer {
        Integer::of(number < 0, vec![number.unsigned_abs()])
    }
}

impl Integer {
    fn of(is_negative: bool, limbs: Vec<u64>) -> Integer {
        let limbs = limbs::trimmed(limbs);
        Integer { is_negative: is_negative && !limbs.is_empty(), limbs }
    }

    /// Decimal digits, with `-` before them or nothing.
    pub fn read(text: &str) -> Option<Integer> {
        let digits = text.strip_prefix('-').unwrap_or(text);
        if digits.is_empty() || !digits.bytes().all(|digit| digit.is_ascii_digit()) {
            return None;
        }
        Some(Integer::of(digits.len() < text.len(), limbs::of_digits(digits)))
    }

    /// The value of a polynomial, lowest power first, at an integer.
    pub fn value(coefficients: &[i64], n: i64) -> Integer {
        let short = |value: i128, a: &i64| value.checked_mul(n.into())?.checked_add((*a).into());
        if let Some(value) = coefficients.iter().rev().try_fold(0, short) {
            let size = value.unsigned_abs();
            return Integer::of(value < 0, vec![size as u64, (size >> 64) as u64]);
        }
        let n = Integer::from(n);
        coefficients.iter().rev().fold(Integer::default(), |value, &a| value.times(&n).plus(&Integer::from(a)))
    }

    pub fn is_zero(&self) -> bool {
        self.limbs.is_empty()
    }

    pub fn is_negative(&self) -> bool {
        self.is_negative
    }

    pub fn is_one(&self) -> bool {
        !self.is_negative && self.limbs == [1]
    }

    /// How many bits the size has.
    pub fn bits(&self) -> u64 {
        self.limbs.last().map_or(0, |last| self.limbs.len() as u64 * 64 - u64::from(last.leading_zeros()))
    }

    pub fn negated(mut self) -> Integer {
        self.is_negative = !self.is_negative && !self.is_zero();
        self
    }

    /// The size, not negative.
    pub fn size(mut self) -> Integer {
        self.is_negative = false;
        self
    }

    pub fn plus(&self, other: &Integer) -> Integer {
        if self.is_negative == other.is_negative {
            return Integer::of(self.is_negative, limbs::added(&self.limbs, &other.limbs));
        }
        match limbs::compared(&self.limbs, &other.limbs) {
            Ordering::Less => Integer::of(other.is_negative, limbs::less(&other.limbs, &self.limbs)),
            _ => Integer::of(self.is_negative, limbs::less(&self.limbs, &other.limbs)),
        }
    }

    pub fn times(&self, other: &Integer) -> Integer {
        Integer::of(self.is_negative != other.is_negative, limbs::multiplied(&self.limbs, &other.limbs))
    }

    /// Quotient towards 0 and remainder; the divisor is not 0.
    pub fn divided(&self, other: &Integer) -> (Integer, Integer) {
        let (quotient, rest) = limbs::divided(&self.limbs, &other.limbs);
        (Integer::of(self.is_negative != other.is_negative, quotient), Integer::of(self.is_negative, rest))
    }

    /// Times a power of two; a negative power cuts bits off.
    pub fn shifted(&self, bits: i64) -> Integer {
        let count = bits.unsigned_abs();
        let shifted =
            if bits < 0 { limbs::shifted_down(&self.limbs, count) } else { limbs::shifted_up(&self.limbs, count) };
        Integer::of(self.is_negative, shifted)
    }

    /// The greatest common divisor; that of 0 and 0 is 0.
    pub fn common_divisor(&self, other: &Integer) -> Integer {
        Integer::of(false, limbs::common_divisor(self.limbs.clone(), other.limbs.clone()))
    }

    /// The nearest number of the machine to an integer of at most 64 bits, or nearly so.
    pub fn rounded(&self) -> f64 {
        let size = self.limbs.iter().rev().fold(0.0, |sum, &limb| sum * 2f64.powi(64) + limb as f64);
        if self.is_negative {
            -size
        } else {
            size
        }
    }
}

impl fmt::Display for Integer {
    fn fmt(&self, formatter: &mut fmt::Formatter) -> fmt::Result {
        write!(formatter, "{}{}", if self.is_negative { "-" } else { "" }, limbs::digits(&self.limbs))
    }
}
