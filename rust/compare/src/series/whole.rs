//! Whole numbers of any size. They share nothing with those of `rust/front/src/series`: limbs of 64 bits, a quotient from its lowest
//! limb on, common divisors by halving.

use std::cmp::Ordering;

/// The limbs of the size, lowest first, the last one not 0; 0 has none and is not negative.
#[derive(Clone, Debug, Default, PartialEq, Eq)]
pub struct Whole {
    is_negative: bool,
    limbs: Vec<u64>,
}

// ---- sizes ----

fn trim(mut limbs: Vec<u64>) -> Vec<u64> {
    while limbs.last() == Some(&0) {
        limbs.pop();
    }
    limbs
}

fn ordered(a: &[u64], b: &[u64]) -> Ordering {
    a.len().cmp(&b.len()).then_with(|| a.iter().rev().cmp(b.iter().rev()))
}

fn sum(a: &[u64], b: &[u64]) -> Vec<u64> {
    let (long, short) = if a.len() < b.len() { (b, a) } else { (a, b) };
    let (mut limbs, mut carry) = (long.to_vec(), 0);
    for (at, limb) in limbs.iter_mut().enumerate() {
        let total = u128::from(*limb) + u128::from(short.get(at).copied().unwrap_or(0)) + carry;
        (*limb, carry) = (total as u64, total >> 64);
    }
    limbs.push(carry as u64);
    trim(limbs)
}

/// Takes b from a, which is not below it.
fn take(a: &mut Vec<u64>, b: &[u64]) {
    let mut borrow = 0;
    for (at, limb) in a.iter_mut().enumerate() {
        let total = i128::from(*limb) - i128::from(b.get(at).copied().unwrap_or(0)) - borrow;
        (*limb, borrow) = (total as u64, i128::from(total < 0));
    }
    while a.last() == Some(&0) {
        a.pop();
    }
}

fn product(a: &[u64], b: &[u64]) -> Vec<u64> {
    let mut limbs = vec![0; a.len() + b.len()];
    for (i, &x) in a.iter().enumerate() {
        let mut carry = 0;
        for (limb, &y) in limbs[i..].iter_mut().zip(b.iter().chain([&0])) {
            let total = u128::from(x) * u128::from(y) + u128::from(*limb) + carry;
            (*limb, carry) = (total as u64, total >> 64);
        }
    }
    trim(limbs)
}

/// How often 2 divides a size that is not 0.
fn twos(limbs: &[u64]) -> usize {
    let zeros = limbs.iter().take_while(|limb| **limb == 0).count();
    zeros * 64 + limbs[zeros].trailing_zeros() as usize
}

/// Halves a size so many times.
fn halve(limbs: &mut Vec<u64>, times: usize) {
    limbs.drain(..times / 64);
    let bits = times % 64;
    if bits > 0 {
        for at in 0..limbs.len() {
            let above = limbs.get(at + 1).map_or(0, |next| next << (64 - bits));
            limbs[at] = limbs[at] >> bits | above;
        }
    }
    while limbs.last() == Some(&0) {
        limbs.pop();
    }
}

fn doubled(limbs: Vec<u64>, times: usize) -> Vec<u64> {
    let mut by = vec![0; times / 64];
    by.push(1 << (times % 64));
    product(&limbs, &by)
}

/// The rest of a size by one limb that is not 0.
fn rest(limbs: &[u64], by: u64) -> u64 {
    limbs.iter().rev().fold(0, |rest, limb| ((u128::from(rest) << 64 | u128::from(*limb)) % u128::from(by)) as u64)
}

fn small_divisor(mut a: u64, mut b: u64) -> u64 {
    while b != 0 {
        (a, b) = (b, a % b);
    }
    a
}

/// The largest common divisor of two odd sizes.
fn odd_divisor(mut a: Vec<u64>, mut b: Vec<u64>) -> Vec<u64> {
    loop {
        match ordered(&a, &b) {
            Ordering::Equal => return a,
            Ordering::Less => std::mem::swap(&mut a, &mut b),
            Ordering::Greater => {}
        }
        if let [last] = b[..] {
            return vec![small_divisor(last, rest(&a, last))];
        }
        take(&mut a, &b);
        let times = twos(&a);
        halve(&mut a, times);
    }
}

/// The number whose product with an odd limb ends in 1.
fn inverse(odd: u64) -> u64 {
    // Each round doubles the bits that are right; an odd number is its own inverse modulo 8.
    (0..5).fold(odd, |x, _| x.wrapping_mul(2u64.wrapping_sub(odd.wrapping_mul(x))))
}

/// The quotient of a size by an odd one that divides it.
fn quotient(mut a: Vec<u64>, b: &[u64]) -> Vec<u64> {
    let (by, count) = (inverse(b[0]), (a.len() + 1).saturating_sub(b.len()));
    let mut found = Vec::with_capacity(count);
    for at in 0..count {
        let limb = a[at].wrapping_mul(by);
        found.push(limb);
        let mut carry = 0;
        for (at, place) in a[at..].iter_mut().enumerate() {
            let part = u128::from(limb) * u128::from(b.get(at).copied().unwrap_or(0)) + carry;
            let (less, borrowed) = place.overflowing_sub(part as u64);
            (*place, carry) = (less, (part >> 64) + u128::from(borrowed));
            if carry == 0 && at >= b.len() {
                break;
            }
        }
    }
    trim(found)
}

// ---- numbers ----

impl From<i128> for Whole {
    fn from(number: i128) -> Whole {
        let size = number.unsigned_abs();
        Whole { is_negative: number < 0, limbs: trim(vec![size as u64, (size >> 64) as u64]) }
    }
}

impl Whole {
    fn of(is_negative: bool, limbs: Vec<u64>) -> Whole {
        Whole { is_negative: is_negative && !limbs.is_empty(), limbs }
    }

    /// A number as it is written, `-12`.
    pub fn read(text: &str) -> Option<Whole> {
        let digits = text.strip_prefix('-').unwrap_or(text);
        if digits.is_empty() || !digits.bytes().all(|byte| byte.is_ascii_digit()) {
            return None;
        }
        let ten = |limbs: Vec<u64>, byte| trim(sum(&product(&limbs, &[10]), &trim(vec![u64::from(byte - b'0')])));
        Some(Whole::of(digits.len() < text.len(), digits.bytes().fold(Vec::new(), ten)))
    }

    pub fn is_zero(&self) -> bool {
        self.limbs.is_empty()
    }

    /// How many limbs the size has.
    pub fn limbs(&self) -> usize {
        self.limbs.len()
    }

    pub fn negated(mut self) -> Whole {
        self.is_negative = !self.is_negative && !self.limbs.is_empty();
        self
    }

    pub fn plus(&self, other: &Whole) -> Whole {
        if self.is_negative == other.is_negative {
            return Whole::of(self.is_negative, sum(&self.limbs, &other.limbs));
        }
        let (large, small) =
            if ordered(&self.limbs, &other.limbs) == Ordering::Less { (other, self) } else { (self, other) };
        let mut limbs = large.limbs.clone();
        take(&mut limbs, &small.limbs);
        Whole::of(large.is_negative, limbs)
    }

    pub fn times(&self, other: &Whole) -> Whole {
        Whole::of(self.is_negative != other.is_negative, product(&self.limbs, &other.limbs))
    }

    /// The largest common divisor, not negative.
    pub fn divisor(&self, other: &Whole) -> Whole {
        if self.is_zero() || other.is_zero() {
            let limbs = if self.is_zero() { &other.limbs } else { &self.limbs };
            return Whole::of(false, limbs.clone());
        }
        let (mut a, mut b) = (self.limbs.clone(), other.limbs.clone());
        let (in_a, in_b) = (twos(&a), twos(&b));
        halve(&mut a, in_a);
        halve(&mut b, in_b);
        Whole::of(false, doubled(odd_divisor(a, b), in_a.min(in_b)))
    }

    /// The quotient by a number that divides this one and is not 0.
    pub fn over(&self, other: &Whole) -> Whole {
        let (mut a, mut b) = (self.limbs.clone(), other.limbs.clone());
        if a.is_empty() {
            return Whole::default();
        }
        let times = twos(&b);
        halve(&mut a, times);
        halve(&mut b, times);
        Whole::of(self.is_negative != other.is_negative, quotient(a, &b))
    }

    /// The value of a polynomial, lowest power first, at n.
    pub fn value(coefficients: &[i128], n: i128) -> Whole {
        let n = Whole::from(n);
        let horner = |value: Whole, &a: &i128| value.times(&n).plus(&Whole::from(a));
        coefficients.iter().rev().fold(Whole::default(), horner)
    }
}

#[cfg(test)]
mod tests {
    use super::*;
    use crate::random::Random;

    #[test]
    fn as_the_numbers_of_the_machine() {
        let mut random = Random::new(3_101);
        for _ in 0..20_000 {
            let bits = random.below(62);
            let mut number = || random.between(-(1 << bits), 1 << bits);
            let (a, b, n) = (number(), number(), number() % 100);
            let (x, y) = (Whole::from(a), Whole::from(b));
            assert_eq!(x.plus(&y), Whole::from(a + b));
            assert_eq!(x.times(&y), Whole::from(a * b));
            assert_eq!(x.clone().negated(), Whole::from(-a));
            assert_eq!(x.divisor(&y), Whole::from(outside::polynomial::greatest_divisor(a, b)));
            assert_eq!(Whole::read(&a.to_string()), Some(x));
            assert_eq!(Whole::value(&[a, b, 3], n), Whole::from(a + b * n + 3 * n * n));
            if b != 0 {
                assert_eq!(Whole::from(a * b).over(&y), Whole::from(a));
            }
        }
    }

    /// Limbs of zeros and of ones, where carries go far.
    fn long(random: &mut Random) -> Whole {
        let count = 1 + random.below(9);
        let limb = |_| random.pick(&[0, 1, u64::MAX, u64::MAX, 1 << 63, 6, 123_456_789]);
        let limbs = trim((0..count).map(limb).collect());
        Whole::of(random.one_in(2), limbs)
    }

    #[test]
    fn long_ones_come_back() {
        let mut random = Random::new(3_102);
        for _ in 0..5_000 {
            let (a, b, c) = (long(&mut random), long(&mut random), long(&mut random));
            assert_eq!(a.plus(&b).plus(&b.clone().negated()), a);
            assert_eq!(a.plus(&b).times(&c), a.times(&c).plus(&b.times(&c)));
            if b.is_zero() || c.is_zero() {
                continue;
            }
            assert_eq!(a.times(&b).over(&b), a);
            let d = a.divisor(&b);
            assert_eq!(a.over(&d).divisor(&b.over(&d)), Whole::from(1));
            let size = |number: &Whole| Whole::of(false, number.limbs.clone());
            assert_eq!(a.times(&c).divisor(&b.times(&c)), d.times(&size(&c)));
        }
    }

    #[test]
    fn what_is_no_number() {
        for text in ["", "-", "1/2", "+1", "x", "1 "] {
            assert_eq!(Whole::read(text), None);
        }
    }
}
