//! Polynomials in n with integer coefficients.

/// Coefficients from power 0; the last one is nonzero, so the zero polynomial has none.
#[derive(Clone, Debug, PartialEq, Eq, Default)]
pub struct Polynomial(Vec<i128>);

/// The greatest positive whole number dividing both, 0 if both are 0.
pub fn greatest_divisor(a: i128, b: i128) -> i128 {
    let (mut a, mut b) = (a.abs(), b.abs());
    while b != 0 {
        (a, b) = (b, a % b);
    }
    a
}

impl Polynomial {
    pub fn new(mut coefficients: Vec<i128>) -> Polynomial {
        while coefficients.last() == Some(&0) {
            coefficients.pop();
        }
        Polynomial(coefficients)
    }

    /// n - r
    pub fn linear(r: i128) -> Polynomial {
        Polynomial::new(vec![-r, 1])
    }

    pub fn coefficients(&self) -> &[i128] {
        &self.0
    }

    pub fn is_zero(&self) -> bool {
        self.0.is_empty()
    }

    /// 0 for a constant, the zero polynomial too.
    pub fn degree(&self) -> usize {
        self.0.len().saturating_sub(1)
    }

    /// The coefficient of the highest power, 0 for the zero polynomial.
    pub fn highest(&self) -> i128 {
        self.0.last().copied().unwrap_or(0)
    }

    /// The size of the largest coefficient.
    pub fn size(&self) -> i128 {
        self.0.iter().map(|a| a.abs()).max().unwrap_or(0)
    }

    /// The greatest positive whole number that divides every coefficient, 0 for the zero polynomial.
    pub fn content(&self) -> i128 {
        self.0.iter().fold(0, |d, &a| greatest_divisor(d, a))
    }

    pub fn plus(&self, other: &Polynomial) -> Polynomial {
        let mut sum = self.0.clone();
        sum.resize(self.0.len().max(other.0.len()), 0);
        for (k, b) in other.0.iter().enumerate() {
            sum[k] += b;
        }
        Polynomial::new(sum)
    }

    pub fn times(&self, other: &Polynomial) -> Polynomial {
        let mut product = vec![0; self.0.len() + other.0.len()];
        for (i, a) in self.0.iter().enumerate() {
            for (j, b) in other.0.iter().enumerate() {
                product[i + j] += a * b;
            }
        }
        Polynomial::new(product)
    }

    pub fn times_number(&self, d: i128) -> Polynomial {
        Polynomial::new(self.0.iter().map(|a| a * d).collect())
    }

    /// Divided by a whole number that divides every coefficient.
    pub fn over(&self, d: i128) -> Polynomial {
        debug_assert!(self.0.iter().all(|a| a % d == 0));
        Polynomial::new(self.0.iter().map(|a| a / d).collect())
    }

    /// Divided by n - r, where r is a root; otherwise nothing. From the lowest power up, as a(k) = q(k - 1) - r q(k).
    pub fn over_root(&self, r: i128) -> Option<Polynomial> {
        if r == 0 {
            let lowest = self.0.first().copied().unwrap_or(0);
            return (lowest == 0).then(|| Polynomial::new(self.0.iter().skip(1).copied().collect()));
        }
        let mut quotient = Vec::new();
        let mut below = 0;
        for a in &self.0 {
            if (below - a) % r != 0 {
                return None;
            }
            below = (below - a) / r;
            quotient.push(below);
        }
        // The quotient's degree is one less, so that nothing is left at the top.
        (below == 0).then(|| Polynomial::new(quotient))
    }

    /// n + 1 put for n (SCOPE 2.61).
    pub fn after_increment(&self) -> Polynomial {
        self.of(&Polynomial::linear(-1))
    }

    /// n - 1 put for n (SCOPE 10.22).
    pub fn after_decrement(&self) -> Polynomial {
        self.of(&Polynomial::linear(1))
    }

    /// Another polynomial put for n, by Horner's rule.
    fn of(&self, inner: &Polynomial) -> Polynomial {
        let from_the_top = self.0.iter().rev();
        from_the_top.fold(Polynomial::default(), |sum, &a| sum.times(inner).plus(&Polynomial::new(vec![a])))
    }

    /// -n put for n (SCOPE 2.91).
    pub fn mirrored(&self) -> Polynomial {
        let sign = |k: usize| if k.is_multiple_of(2) { 1 } else { -1 };
        Polynomial(self.0.iter().enumerate().map(|(k, a)| sign(k) * a).collect())
    }

    pub fn derivative(&self) -> Polynomial {
        let terms = self.0.iter().enumerate().skip(1);
        Polynomial::new(terms.map(|(k, a)| k as i128 * a).collect())
    }
}

#[cfg(test)]
mod tests {
    use super::*;

    fn of(coefficients: &[i128]) -> Polynomial {
        Polynomial::new(coefficients.to_vec())
    }

    #[test]
    fn increments() {
        assert_eq!(of(&[0, 0, 1]).after_increment(), of(&[1, 2, 1]));
        assert_eq!(of(&[7]).after_increment(), of(&[7]));
        assert_eq!(of(&[0; 3]).after_increment(), of(&[]));
        assert_eq!(of(&[0, 0, 1]).after_decrement(), of(&[1, -2, 1]));
        assert_eq!(of(&[5, -3, 2]).after_decrement().after_increment(), of(&[5, -3, 2]));
    }

    #[test]
    fn divides_by_a_root() {
        let p = Polynomial::linear(3).times(&of(&[5, 0, -2]));
        assert_eq!(p.over_root(3), Some(of(&[5, 0, -2])));
        assert_eq!(p.over_root(2), None);
        assert_eq!(p.over_root(-3), None);
        assert_eq!(p.over_root(0), None);
        assert_eq!(of(&[0, 0, 7]).over_root(0), Some(of(&[0, 7])));
        assert_eq!(of(&[-1, 0, 1]).over_root(-1), Some(of(&[-1, 1])));
        assert_eq!(of(&[4]).over_root(1), None);
        assert_eq!(of(&[]).over_root(0), Some(of(&[])));
        assert_eq!(of(&[]).over_root(1), Some(of(&[])));
    }

    #[test]
    fn contents() {
        assert_eq!(of(&[]).content(), 0);
        assert_eq!(of(&[-6, 0, 4]).content(), 2);
        assert_eq!(of(&[0, 1]).mirrored(), of(&[0, -1]));
    }
}
