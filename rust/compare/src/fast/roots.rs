//! Integer roots: by formula up to degree 2, and above it small numbers one by one and the others by ranges that may have a root.

/// Up to sixteen roots, ascending.
#[derive(Clone, Copy)]
pub struct Roots {
    numbers: [i64; 16],
    count: usize,
}

impl Roots {
    pub const NONE: Roots = Roots { numbers: [0; 16], count: 0 };

    pub fn as_slice(&self) -> &[i64] {
        &self.numbers[..self.count]
    }

    fn push(&mut self, root: i64) {
        self.numbers[self.count] = root;
        self.count += 1;
    }

    /// Those that pass the test.
    pub fn filtered(&self, test: impl Fn(i64) -> bool) -> Roots {
        let mut kept = Roots::NONE;
        self.as_slice().iter().filter(|&&r| test(r)).for_each(|&r| kept.push(r));
        kept
    }
}

/// Whether p vanishes at r.
pub fn is_root(p: &[i64], r: i64) -> bool {
    let value = p.iter().rev().fold(0i64, |value, &a| value.wrapping_mul(r).wrapping_add(a));
    value == 0 && (r == 0 || divides_exactly(p, r))
}

/// The chain a(0)/r + a(1), that over r + a(2), and so on is whole at each place and ends in 0.
fn divides_exactly(p: &[i64], r: i64) -> bool {
    let mut carried = 0;
    for &a in p {
        if carried % r != 0 {
            return false;
        }
        carried = carried / r + a;
    }
    carried == 0
}

/// All integer roots of a polynomial within ±C whose last coefficient is nonzero.
pub fn roots(p: &[i64]) -> Roots {
    let mut found = Roots::NONE;
    let Some(lowest) = p.iter().position(|&a| a != 0) else { return found };
    if lowest > 0 {
        found.push(0);
    }
    match p[lowest..] {
        [_] => {}
        [a, b] => linear(a, b, &mut found),
        [a, b, c] => quadratic(a, b, c, &mut found),
        _ => Search::new(&p[lowest..]).all(&mut found),
    }
    if found.count > 1 {
        found.numbers[..found.count].sort_unstable();
    }
    found
}

/// The root of a + b n, if it is whole.
fn linear(a: i64, b: i64, found: &mut Roots) {
    if a % b == 0 {
        found.push(-a / b);
    }
}

/// The whole roots of a + b n + c n^2, by the square root of the discriminant, which fits 59 bits.
fn quadratic(a: i64, b: i64, c: i64, found: &mut Roots) {
    let discriminant = b * b - 4 * a * c;
    if discriminant < 0 {
        return;
    }
    let root = (discriminant as f64).sqrt().round() as i64;
    if root * root != discriminant {
        return;
    }
    linear(b + root, 2 * c, found);
    if root != 0 {
        linear(b - root, 2 * c, found);
    }
}

/// Up to this size every number is tried.
const TRIED: i64 = 8;

/// The search for the roots of a polynomial of degree 3 or more whose first coefficient is nonzero.
struct Search<'a> {
    p: &'a [i64],
    /// Its coefficients of even and of odd powers, two by two.
    pairs: [[i64; 2]; 8],
    /// The same with -n for n.
    mirrored: [i64; 16],
    /// The largest size of a coefficient.
    size: u32,
    /// No root is larger: a root divides the first coefficient, and Cauchy's bound holds.
    bound: i64,
}

impl Search<'_> {
    fn new(p: &[i64]) -> Search<'_> {
        let mut mirrored = [0; 16];
        let mut pairs = [[0; 2]; 8];
        let mut size = 0;
        for (k, &a) in p.iter().enumerate() {
            mirrored[k] = if k % 2 == 0 { a } else { -a };
            pairs[k / 2][k % 2] = a;
            size = size.max(a.unsigned_abs() as u32);
        }
        let bound = (1 + size / p[p.len() - 1].unsigned_abs() as u32).min(p[0].unsigned_abs() as u32);
        Search { p, pairs, mirrored, size, bound: bound as i64 }
    }

    fn all(&self, found: &mut Roots) {
        let zero = found.count;
        for d in 1..TRIED.min(self.bound) + 1 {
            self.both_signs(d, found);
        }
        let mut low = TRIED + 1;
        while low <= self.bound && found.count - zero < self.p.len() - 1 {
            let high = (2 * low - 2).min(self.bound);
            self.between(self.p, low, high, &mut |r| found.push(r));
            self.between(&self.mirrored[..self.p.len()], low, high, &mut |r| found.push(-r));
            low = high + 1;
        }
    }

    /// Tries d and -d: the even and the odd powers, added and subtracted.
    #[inline(always)]
    fn both_signs(&self, d: i64, found: &mut Roots) {
        let square = d * d;
        let (mut even, mut odd) = (0i64, 0i64);
        for [a, b] in self.pairs[..self.p.len().div_ceil(2)].iter().rev() {
            even = even.wrapping_mul(square).wrapping_add(*a);
            odd = odd.wrapping_mul(square).wrapping_add(*b);
        }
        let odd = odd.wrapping_mul(d);
        for (r, value) in [(d, even.wrapping_add(odd)), (-d, even.wrapping_sub(odd))] {
            if value == 0 && is_root(self.p, r) {
                found.push(r);
            }
        }
    }

    /// Hands on the roots of p or of its mirror between two numbers above 1, by halves that may have one.
    fn between(&self, p: &[i64], low: i64, high: i64, take: &mut impl FnMut(i64)) {
        if !self.may_vanish(p, low, high) {
            return;
        }
        if low == high {
            return take(low);
        }
        let middle = (low + high) / 2;
        self.between(p, low, middle, take);
        self.between(p, middle + 1, high, take);
    }

    /// Horner's rule on a range: the value of the coefficients from k on lies between `least` and `most`. A value that has reached the limit
    /// only grows, so that nothing past it is worked out. For one number it is the value itself.
    #[inline(always)]
    fn may_vanish(&self, p: &[i64], low: i64, high: i64) -> bool {
        let limit = (self.size / (low as u32 - 1) + 1) as i64;
        let (mut least, mut most) = (0, 0);
        for &a in p.iter().rev() {
            least = a + least * if least < 0 { high } else { low };
            most = a + most * if most < 0 { low } else { high };
            if least >= limit || most <= -limit {
                return false;
            }
            if least <= -limit && most >= limit {
                return true;
            }
            (least, most) = (least.max(-limit), most.min(limit));
        }
        least <= 0 && most >= 0
    }
}

#[cfg(test)]
mod tests {
    use super::*;
    use crate::random::Random;
    use outside::polynomial::Polynomial;
    use outside::roots::integer_roots;

    #[test]
    fn same_as_outside() {
        let mut random = Random::new(3);
        for _ in 0..3000 {
            let mut p = Polynomial::new(vec![random.between(1, 3)]);
            let size = random.pick(&[1, 3, 20, 1000, 100_000]);
            for _ in 0..random.below(15) {
                let b = random.pick(&[1, 1, 1, 2, 3]);
                let longer = p.times(&Polynomial::new(vec![random.between(-size, size), b]));
                if longer.size() <= super::super::C as i128 {
                    p = longer;
                }
            }
            let short: Vec<i64> = p.coefficients().iter().map(|&a| a as i64).collect();
            let expected: Vec<i64> = integer_roots(&p).iter().map(|&r| r as i64).collect();
            assert_eq!(roots(&short).as_slice(), expected, "{short:?}");
        }
    }
}
