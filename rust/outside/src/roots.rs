//! Integer roots, found between turning points.
//!
//! A nonzero integer root divides the lowest nonzero coefficient, so no root is larger than the largest coefficient. Between
//! two neighbouring turning points a polynomial rises or falls all the way, so bisection finds where it crosses zero. How often
//! a root occurs is told by the derivatives.

use crate::polynomial::Polynomial;
use std::collections::BTreeSet;

/// Every integer root of a nonzero polynomial, once each, ascending.
pub fn integer_roots(p: &Polynomial) -> Vec<i128> {
    let candidates = floors(p, p.size());
    candidates.into_iter().filter(|&n| sign_at(p, n) == 0).collect()
}

/// How often r occurs as a root of a nonzero polynomial: as many of it, its derivative, the derivative of that and so on vanish at r,
/// before the first that does not (SCOPE 2.83). No coefficient of theirs has more than 70 bits, since 15 is the highest degree.
pub fn occurrences(p: &Polynomial, r: i128) -> usize {
    debug_assert!(!p.is_zero());
    let derivatives = std::iter::successors(Some(p.clone()), |p| Some(p.derivative()));
    derivatives.take_while(|p| sign_at(p, r) == 0).count()
}

/// Integers among which is the floor of every real root between -reach and reach.
fn floors(p: &Polynomial, reach: i128) -> BTreeSet<i128> {
    if p.degree() == 0 {
        return BTreeSet::new();
    }
    let turning_points = floors(&p.derivative(), reach);
    let mut found = turning_points.clone();
    let mut low = -reach;
    for high in turning_points.into_iter().chain([reach]) {
        // From low to high there is no turning point.
        if low <= high {
            found.extend(crossing(p, low, high));
        }
        low = high + 1;
    }
    found
}

/// The floor of the root between low and high, where p rises or falls all the way.
fn crossing(p: &Polynomial, mut low: i128, mut high: i128) -> Option<i128> {
    let (below, above) = (sign_at(p, low), sign_at(p, high));
    if above == 0 {
        return Some(high);
    }
    if below == above {
        return None;
    }
    while high - low > 1 && below != 0 {
        let middle = low + (high - low) / 2;
        if sign_at(p, middle) == above {
            high = middle;
        } else {
            low = middle;
        }
    }
    Some(low)
}

/// The sign of p at n: 1, 0 or -1. A value beyond FAR can't come back: the next one is at least twice as large, less one
/// coefficient, which is far smaller than FAR. (At n = 0, 1 and -1 no value gets there.)
fn sign_at(p: &Polynomial, n: i128) -> i128 {
    const FAR: i128 = 1 << 90;
    let from_the_top = p.coefficients().iter().rev();
    from_the_top.fold(0i128, |value, a| (value * n + a).clamp(-FAR, FAR)).signum()
}

#[cfg(test)]
mod tests {
    use super::*;
    use crate::C;

    fn product(roots: &[i128]) -> Polynomial {
        roots.iter().fold(Polynomial::new(vec![1]), |p, &r| p.times(&Polynomial::linear(r)))
    }

    #[test]
    fn roots_of_products() {
        for roots in [&[][..], &[0], &[-1, 0, 1], &[5], &[-C, C], &[-3, 2, 7, 40], &[1, 2, 3, 4, 5, 6, 7, 8, 9, 10]] {
            assert_eq!(integer_roots(&product(roots)), roots);
        }
        assert_eq!(integer_roots(&product(&[2, 2, 2, 9])), [2, 9]);
        assert_eq!(integer_roots(&product(&[0; 15])), [0]);
    }

    #[test]
    fn no_integer_roots() {
        for p in [vec![3], vec![1, 2], vec![2, 0, 1], vec![-2, 0, 1], vec![C, -2], vec![1, 3, 3, 2]] {
            assert_eq!(integer_roots(&Polynomial::new(p)), []);
        }
    }

    #[test]
    fn roots_of_products_with_occurrences() {
        let p = product(&[-3, 0, 0, 0, 1, 1, 7]).times_number(-6);
        assert_eq!([-3, 0, 1, 7, 2, -1].map(|r| occurrences(&p, r)), [1, 3, 2, 1, 0, 0]);
        for r in [0, 1, -1, 3, -3] {
            assert_eq!(occurrences(&product(&[r; 15]), r), 15);
            assert_eq!(occurrences(&product(&[r; 14]), -r), if r == 0 { 14 } else { 0 });
        }
        let far = product(&[16_383, 16_383]).times(&Polynomial::new(vec![0; 13].into_iter().chain([1]).collect()));
        assert_eq!([16_383, -16_383, 0].map(|r| occurrences(&far, r)), [2, 0, 13]);
        assert_eq!([C, -C].map(|r| occurrences(&product(&[C]), r)), [1, 0]);
        assert_eq!(occurrences(&Polynomial::new(vec![5]), 0), 0);
        // C (n - 1) (n + 1)^2, whose quotients are larger than C.
        let p = Polynomial::new(vec![-C, -C, C, C]);
        assert_eq!([1, -1, 0].map(|r| occurrences(&p, r)), [1, 2, 0]);
    }

    /// As many divisions by n - r, and what is left no longer vanishes; it adds over products.
    #[test]
    fn same_as_dividing() {
        let divisions = |p: &Polynomial, r| {
            let quotients = std::iter::successors(Some(p.clone()), |p| p.over_root(r));
            quotients.count() - 1
        };
        for code in 0..5i128.pow(4) {
            let digits = (0..4).map(|k| code / 5i128.pow(k) % 5 - 2).collect();
            let p = Polynomial::new(digits);
            if p.is_zero() {
                continue;
            }
            for r in -3..=3 {
                assert_eq!(occurrences(&p, r), divisions(&p, r), "{p:?} at {r}");
                let other = product(&[r, 2, 2, -1]);
                let both = occurrences(&p, r) + occurrences(&other, r);
                assert_eq!(occurrences(&p.times(&other), r), both, "{p:?} at {r}");
            }
            let all: usize = integer_roots(&p).iter().map(|&r| occurrences(&p, r)).sum();
            assert!(all <= p.degree(), "{p:?}");
        }
    }

    /// Against every integer of a small range, for many small polynomials.
    #[test]
    fn same_as_trying_all() {
        for code in 0..7i128.pow(5) {
            let digits = (0..5).map(|k| code / 7i128.pow(k) % 7 - 3).collect();
            let p = Polynomial::new(digits);
            if !p.is_zero() {
                let all: Vec<i128> = (-4..=4).filter(|&n| sign_at(&p, n) == 0).collect();
                assert_eq!(integer_roots(&p), all, "{p:?}");
            }
        }
    }
}
