//! Numbers with a given number of bits and an exponent, for pictures: no exponent that occurs is too large, and as many
//! bits can be had as a sum needs.

use super::fractions::Fraction;
use super::integers::Integer;

/// A number: a mantissa times a power of two.
#[derive(Clone, Debug, Default)]
pub struct Float {
    mantissa: Integer,
    exponent: i64,
}

impl Float {
    /// A fraction, cut after so many bits or one more.
    pub fn of(fraction: &Fraction, bits: i64) -> Float {
        let (above, below) = (fraction.numerator(), fraction.denominator());
        let up = bits + 1 + below.bits() as i64 - above.bits() as i64;
        let (above, below) = (above.shifted(up.max(0)), below.shifted(-up.min(0)));
        Float { mantissa: above.divided(&below).0, exponent: -up }
    }

    fn cut(mantissa: Integer, exponent: i64, bits: i64) -> Float {
        let down = (mantissa.bits() as i64 - bits).max(0);
        Float { mantissa: mantissa.shifted(-down), exponent: exponent + down }
    }

    pub fn is_zero(&self) -> bool {
        self.mantissa.is_zero()
    }

    /// The exponent of the lowest power of two above its size, where it is not 0.
    pub fn top(&self) -> i64 {
        self.exponent + self.mantissa.bits() as i64
    }

    pub fn size(self) -> Float {
        Float { mantissa: self.mantissa.size(), ..self }
    }

    /// Over a power of two.
    pub fn lowered(self, bits: i64) -> Float {
        Float { exponent: self.exponent - bits, ..self }
    }

    pub fn times(&self, other: &Float, bits: i64) -> Float {
        Float::cut(self.mantissa.times(&other.mantissa), self.exponent + other.exponent, bits)
    }

    pub fn plus(&self, other: &Float, bits: i64) -> Float {
        let (a, b) = if self.exponent < other.exponent { (other, self) } else { (self, other) };
        if b.is_zero() || !a.is_zero() && a.top() > b.top() + bits + 2 {
            return a.clone();
        }
        if a.is_zero() || b.top() > a.top() + bits + 2 {
            return b.clone();
        }
        Float::cut(a.mantissa.shifted(a.exponent - b.exponent).plus(&b.mantissa), b.exponent, bits)
    }

    /// A power with an exponent from 0 on.
    pub fn power(&self, exponent: u64, bits: i64) -> Float {
        let (mut power, mut square, mut left) = (Float::of(&Fraction::from(1), bits), self.clone(), exponent);
        while left > 0 {
            if left % 2 == 1 {
                power = power.times(&square, bits);
            }
            square = square.times(&square, bits);
            left /= 2;
        }
        power
    }

    /// The nearest number of the machine, or nearly so: infinite where it is too large, 0 where it is too small.
    pub fn rounded(&self) -> f64 {
        let short = Float::cut(self.mantissa.clone(), self.exponent, 64);
        let exponent = short.exponent.clamp(-4_000, 4_000) as i32;
        let half = exponent / 2;
        short.mantissa.rounded() * 2f64.powi(half) * 2f64.powi(exponent - half)
    }
}
