//! g and h of two leading entries (SCOPE 2.23 to 2.28), and the divisors and roots that belong to them.

use super::{roots, Polynomial, C, COEFFICIENTS};

/// A polynomial whose last coefficient is not zero; what lies past its length is zero.
#[derive(Clone, Copy)]
pub struct Multiplier {
    pub numbers: Polynomial,
    pub length: usize,
}

impl Multiplier {
    pub fn coefficients(&self) -> &[i64] {
        &self.numbers[..self.length]
    }

    /// The value at r is zero, every value of Horner's rule being within ±C: then n - r divides, and the quotient is within ±C.
    fn divides_within(&self, r: i64) -> bool {
        let mut value = 0;
        for &a in self.coefficients()[1..].iter().rev() {
            value = value * r + a;
            if value.abs() > C {
                return false;
            }
        }
        value * r + self.numbers[0] == 0
    }

    /// Divided by n - r, where r is a root.
    fn divide(&mut self, r: i64) {
        let mut value = 0;
        for a in self.numbers[..self.length].iter_mut().rev() {
            (*a, value) = (value, value * r + *a);
        }
        self.length -= 1;
    }

    fn scale(&mut self, d: i64) {
        match d {
            1 => {}
            -1 => self.numbers.iter_mut().for_each(|a| *a = -*a),
            _ => self.numbers[..self.length].iter_mut().for_each(|a| *a /= d),
        }
    }
}

/// Roots, ascending.
#[derive(Clone, Copy)]
pub struct Listed {
    numbers: [i64; COEFFICIENTS],
    count: usize,
}

impl Listed {
    pub fn of(p: &[i64]) -> Listed {
        let mut listed = Listed { numbers: [0; COEFFICIENTS], count: 0 };
        if p.len() > 1 {
            let found = roots(p);
            listed.count = found.as_slice().len();
            listed.numbers[..listed.count].copy_from_slice(found.as_slice());
        }
        listed
    }

    pub fn as_slice(&self) -> &[i64] {
        &self.numbers[..self.count]
    }

    fn retain(&mut self, test: impl Fn(i64) -> bool) {
        let all = *self;
        self.count = 0;
        for &r in all.as_slice() {
            if test(r) {
                self.numbers[self.count] = r;
                self.count += 1;
            }
        }
    }
}

/// g and h for the entries a of the settled row and b of the row in turn, with the roots of g. On the trailing side common roots are
/// divided out from the largest down, and the sign is that of the mirrored g.
pub fn multipliers<const TRAILING: bool>(mut a: Multiplier, mut b: Multiplier) -> (Multiplier, Multiplier, Listed) {
    let mut listed = Listed::of(a.coefficients());
    if listed.count > 0 && b.length > 1 {
        let length = a.length;
        let found = listed;
        for k in 0..found.count {
            let r = found.numbers[if TRAILING { found.count - 1 - k } else { k }];
            while b.length > 1 && b.divides_within(r) && a.divides_within(r) {
                a.divide(r);
                b.divide(r);
            }
        }
        if a.length < length {
            listed.retain(|r| vanishes(a.coefficients(), r));
        }
    }
    let d = content(content(0, a.coefficients()), b.coefficients()) as i64;
    let turned = (a.numbers[a.length - 1] < 0) ^ (TRAILING && a.length % 2 == 0);
    let d = if turned { -d } else { d };
    a.scale(d);
    b.scale(-d);
    (a, b, listed)
}

/// Whether a polynomial is zero at r. A value that is not zero in 64 bits is not zero; otherwise the chain of quotients from the lowest
/// power up has to be whole at each place.
pub fn vanishes(p: &[i64], r: i64) -> bool {
    let value = p.iter().rev().fold(0i64, |value, &a| value.wrapping_mul(r).wrapping_add(a));
    value == 0 && (r == 0 || whole_chain(p, r))
}

fn whole_chain(p: &[i64], r: i64) -> bool {
    let mut carried = 0;
    for &a in p {
        if carried % r != 0 {
            return false;
        }
        carried = carried / r + a;
    }
    carried == 0
}

/// How often a root occurs (SCOPE 2.83). No quotient has a coefficient of more than 56 bits.
pub fn multiplicity(p: &[i64], r: i64) -> i64 {
    let mut rest = Multiplier { numbers: [0; COEFFICIENTS], length: p.len() };
    rest.numbers[..p.len()].copy_from_slice(p);
    let mut times = 0;
    while rest.length > 1 && vanishes(rest.coefficients(), r) {
        rest.divide(r);
        times += 1;
    }
    times
}

/// The greatest common divisor of d and the numbers; it stays 1 once it is.
#[inline]
pub fn content(mut d: u64, numbers: &[i64]) -> u64 {
    for a in numbers {
        if d == 1 {
            break;
        }
        d = divisor(d, a.unsigned_abs());
    }
    d
}

/// By Euclid's steps, in 32 bits as soon as they are enough.
pub fn divisor(d: u64, a: u64) -> u64 {
    if d == 0 || a == 0 {
        return d | a;
    }
    let (mut high, mut low) = (d, a % d);
    while low > u32::MAX as u64 {
        (high, low) = (low, high % low);
    }
    if low == 0 {
        return high;
    }
    let (mut high, mut low) = (low as u32, (high % low) as u32);
    while low != 0 {
        (high, low) = (low, high % low);
    }
    high as u64
}

/// Division by a number that has to come out even: by its odd part's inverse in 64 bits, after its twos.
#[derive(Clone, Copy)]
pub struct Exact {
    twos: u32,
    inverse: i64,
    /// No quotient by the odd part is larger.
    most: u64,
}

impl Exact {
    pub fn new(d: i64) -> Exact {
        let twos = d.trailing_zeros();
        let odd = d >> twos;
        let mut inverse = odd.wrapping_mul(3) ^ 2;
        for _ in 0..4 {
            inverse = inverse.wrapping_mul(2i64.wrapping_sub(odd.wrapping_mul(inverse)));
        }
        Exact { twos, inverse, most: i64::MAX as u64 / odd as u64 }
    }

    /// The quotient of a multiple.
    #[inline(always)]
    pub fn of(&self, a: i64) -> i64 {
        (a >> self.twos).wrapping_mul(self.inverse)
    }

    /// The quotient, and whether it comes out even.
    #[inline(always)]
    pub fn judged(&self, a: i64) -> (i64, bool) {
        let quotient = self.of(a);
        let even = a & ((1 << self.twos) - 1) == 0;
        (quotient, even && quotient.unsigned_abs() <= self.most)
    }
}

#[cfg(test)]
mod tests {
    use super::*;
    use crate::random::Random;

    #[test]
    fn exact_divisions() {
        let mut random = Random::new(7);
        for _ in 0..20_000 {
            let bits = random.below(62);
            let d = (random.junk().unsigned_abs() >> (63 - bits).min(62)).max(1) as i64;
            let shift = random.below(62);
            let a = (random.junk() >> 2) >> shift;
            let near = (a / d) * d + random.pick(&[0, 0, 1, d / 2, -1]);
            for a in [a, near] {
                assert_eq!(Exact::new(d).judged(a).1, a % d == 0, "{a} / {d}");
                if a % d == 0 {
                    assert_eq!(Exact::new(d).of(a), a / d);
                }
            }
        }
    }

    #[test]
    fn divisors() {
        let euclid = |mut a: u64, mut b: u64| {
            while b != 0 {
                (a, b) = (b, a % b);
            }
            a
        };
        let mut random = Random::new(8);
        for _ in 0..20_000 {
            let mut number = || (random.junk() as u64) >> random.below(64);
            let (a, b, c) = (number(), number(), number() % 1000);
            let (a, b) = ((a >> 10).wrapping_mul(c), (b >> 10).wrapping_mul(c));
            assert_eq!(divisor(a, b), euclid(a, b), "{a} {b}");
        }
    }
}
