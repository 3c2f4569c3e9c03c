//! Integers without a limit: a sign and digits to base 2^32, the lowest first.

use std::cmp::Ordering;

#[derive(Clone, Debug, Default, PartialEq, Eq)]
pub struct Wide {
    is_negative: bool,
    /// The last digit is not 0.
    digits: Vec<u32>,
}

impl From<u64> for Wide {
    fn from(number: u64) -> Wide {
        Wide::of(false, vec![number as u32, (number >> 32) as u32])
    }
}

impl Wide {
    fn of(is_negative: bool, mut digits: Vec<u32>) -> Wide {
        while digits.last() == Some(&0) {
            digits.pop();
        }
        Wide { is_negative: is_negative && !digits.is_empty(), digits }
    }

    pub fn is_zero(&self) -> bool {
        self.digits.is_empty()
    }

    pub fn negated(&self) -> Wide {
        Wide::of(!self.is_negative, self.digits.clone())
    }

    pub fn plus(&self, other: &Wide) -> Wide {
        if self.is_negative == other.is_negative {
            return Wide::of(self.is_negative, sum(&self.digits, &other.digits));
        }
        match by_size(&self.digits, &other.digits) {
            Ordering::Less => Wide::of(other.is_negative, difference(&other.digits, &self.digits)),
            _ => Wide::of(self.is_negative, difference(&self.digits, &other.digits)),
        }
    }

    pub fn times(&self, other: &Wide) -> Wide {
        let mut digits = vec![0u32; self.digits.len() + other.digits.len()];
        for (i, &a) in self.digits.iter().enumerate() {
            let mut carry = 0u64;
            for (j, &b) in other.digits.iter().enumerate() {
                let at = u64::from(a) * u64::from(b) + u64::from(digits[i + j]) + carry;
                digits[i + j] = at as u32;
                carry = at >> 32;
            }
            digits[i + other.digits.len()] = carry as u32;
        }
        Wide::of(self.is_negative != other.is_negative, digits)
    }

    /// Whether it lies within ± a power of two.
    pub fn is_within_power(&self, power: u32) -> bool {
        let mut limit = vec![0u32; power as usize / 32];
        limit.push(1 << (power % 32));
        by_size(&self.digits, &limit) != Ordering::Greater
    }

    /// Its value where that lies within ± a limit.
    pub fn within(&self, limit: i64) -> Option<i64> {
        if self.digits.len() > 2 {
            return None;
        }
        let digit = |at: usize| self.digits.get(at).copied().map_or(0, u64::from);
        let size = i64::try_from(digit(0) + (digit(1) << 32)).ok().filter(|size| *size <= limit)?;
        Some(if self.is_negative { -size } else { size })
    }
}

fn by_size(a: &[u32], b: &[u32]) -> Ordering {
    a.len().cmp(&b.len()).then_with(|| a.iter().rev().cmp(b.iter().rev()))
}

fn sum(a: &[u32], b: &[u32]) -> Vec<u32> {
    let mut carry = 0u64;
    let mut digits = Vec::new();
    for at in 0..a.len().max(b.len()) + 1 {
        let digit = |from: &[u32]| from.get(at).copied().map_or(0, u64::from);
        carry += digit(a) + digit(b);
        digits.push(carry as u32);
        carry >>= 32;
    }
    digits
}

/// A size minus one that is not larger.
fn difference(a: &[u32], b: &[u32]) -> Vec<u32> {
    let mut borrowed = 0i64;
    let mut digits = Vec::new();
    for (at, &digit) in a.iter().enumerate() {
        let left = i64::from(digit) - b.get(at).copied().map_or(0, i64::from) - borrowed;
        borrowed = i64::from(left < 0);
        digits.push((left + (borrowed << 32)) as u32);
    }
    digits
}

#[cfg(test)]
mod tests {
    use super::Wide;

    fn wide(number: i64) -> Wide {
        let size = Wide::from(number.unsigned_abs());
        if number < 0 {
            size.negated()
        } else {
            size
        }
    }

    #[test]
    fn small_numbers_agree() {
        let numbers = [0, 1, -1, 2, -7, 65_535, 65_536, 4_294_967_295, -4_294_967_296, 1 << 40, -(1 << 45)];
        for a in numbers {
            for b in numbers {
                assert_eq!(wide(a).plus(&wide(b)), wide(a + b), "{a} + {b}");
                let product = i128::from(a) * i128::from(b);
                let expected = i64::try_from(product).ok().filter(|number| number.abs() <= 1 << 62);
                assert_eq!(wide(a).times(&wide(b)).within(1 << 62), expected, "{a} * {b}");
            }
        }
    }

    #[test]
    fn powers_of_two() {
        let mut power = Wide::from(1);
        for _ in 0..100 {
            power = power.times(&Wide::from(2));
        }
        assert!(power.is_within_power(100) && !power.is_within_power(99));
        assert!(!power.plus(&Wide::from(1)).is_within_power(100) && power.negated().is_within_power(100));
    }
}
