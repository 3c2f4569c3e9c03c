//! Two leading entries divided by their common roots, before their multipliers are taken (SCOPE 2.27, 2.28; 02, U7).

use crate::fault::Fault;
use crate::polynomial::{greatest_divisor, Polynomial};
use crate::roots::integer_roots;
use crate::C;

/// a of row j, and b of row i.
pub type Entries = (Polynomial, Polynomial);

/// Both divided by n - r for each common integer root r, ascending, and again at the same r while both still have it (SCOPE 2.27). A
/// division that would put a coefficient of either quotient outside ±C is left out, and the next r is taken (SCOPE 2.28).
pub fn reduced(entries: Entries) -> Entries {
    common_roots(&entries).into_iter().fold(entries, |entries, r| {
        let next = |e: &Entries| quotients(e, r).filter(|(a, b)| a.size() <= C && b.size() <= C);
        last(entries, next)
    })
}

/// The integer roots of both, ascending. What is left after a division has none beside these.
fn common_roots((a, b): &Entries) -> Vec<i128> {
    integer_roots(a).into_iter().filter(|&r| b.over_root(r).is_some()).collect()
}

/// Both divided by n - r, if r is a root of both.
fn quotients((a, b): &Entries, r: i128) -> Option<Entries> {
    Some((a.over_root(r)?, b.over_root(r)?))
}

/// What the last of the divisions leaves.
fn last(entries: Entries, next: impl Fn(&Entries) -> Option<Entries>) -> Entries {
    std::iter::successors(Some(entries), next).last().expect("at least the entries")
}

/// The wrong versions; with a fault of something else it is the right one.
pub fn reduced_wrongly(entries: Entries, fault: Fault) -> Entries {
    let mut roots = common_roots(&entries);
    match fault {
        Fault::CommonKept => return entries,
        Fault::CommonDescending => roots.reverse(),
        Fault::CommonTriedAgain => roots = roots.repeat(2),
        Fault::CommonNotZero => roots.retain(|&r| r != 0),
        Fault::PivotDividedAlone => return pivot_divided(entries),
        _ => {}
    }
    let mut entries = entries;
    for r in roots {
        let next = |e: &Entries| one_division(e, r, fault);
        let before = entries.clone();
        entries = if fault == Fault::CommonOnce { next(&before).unwrap_or(before) } else { last(before, next) };
        if fault == Fault::CommonLimitEnds && quotients(&entries, r).is_some() {
            break;
        }
    }
    entries
}

fn one_division(entries: &Entries, r: i128, fault: Fault) -> Option<Entries> {
    let (a, b) = quotients(entries, r)?;
    let most = match fault {
        Fault::CommonLimitAfterContent => C * greatest_divisor(a.content(), b.content()),
        Fault::CommonLimitBelow => C - 1,
        Fault::CommonLimitAbove => C + 1,
        _ => C,
    };
    let (fits_a, fits_b) = (a.size() <= most, b.size() <= most);
    match (fits_a, fits_b, fault) {
        (true, true, _) | (_, _, Fault::CommonUnlimited) => Some((a, b)),
        (true, _, Fault::CommonLimitOfPivot) | (_, true, Fault::CommonLimitOfOther) => Some((a, b)),
        (true, false, Fault::OneQuotientTaken) => Some((a, entries.1.clone())),
        (false, true, Fault::OneQuotientTaken) => Some((entries.0.clone(), b)),
        _ => None,
    }
}

/// a divided by its roots, b only where it has them too.
fn pivot_divided((a, b): Entries) -> Entries {
    let within = |p: &Polynomial, r| p.over_root(r).filter(|q| q.size() <= C);
    integer_roots(&a).into_iter().fold((a, b), |(a, b), r| match within(&a, r) {
        Some(quotient) => (quotient, within(&b, r).unwrap_or(b)),
        None => (a, b),
    })
}

#[cfg(test)]
mod tests {
    use super::*;

    fn of(coefficients: &[i128]) -> Polynomial {
        Polynomial::new(coefficients.to_vec())
    }

    fn product(roots: &[i128], d: i128) -> Polynomial {
        roots.iter().fold(of(&[d]), |p, &r| p.times(&Polynomial::linear(r)))
    }

    /// As often as the root occurs in both.
    #[test]
    fn every_common_root() {
        let (a, b) = (product(&[-3, 0, 0, 0, 1, 7], 2), product(&[-3, -3, 0, 0, 2, 7], -5));
        assert_eq!(reduced((a, b)), (product(&[0, 1], 2), product(&[-3, 2], -5)));
        let (a, b) = (product(&[1, 2], 1), product(&[3], 1));
        assert_eq!(reduced((a.clone(), b.clone())), (a, b));
    }

    /// At 1 and at -1 a quotient may be larger than what is divided: at C it is taken, past it both stay, and the next root follows.
    #[test]
    fn limit() {
        for r in [1, -1] {
            let hill = |d| of(&[d, 2 * r * d, 3 * d, 2 * r * d, d]);
            let with = |p: &Polynomial, more: &[i128]| p.times(&product(more, 1));
            let (fits, passes) = (hill(C / 3), hill(C / 3 + 1));
            let small = product(&[r], 4);
            assert_eq!(reduced((with(&fits, &[r]), small.clone())), (fits.clone(), of(&[4])));
            assert_eq!(reduced((small.clone(), with(&fits, &[r]))), (of(&[4]), fits));
            let large = with(&passes, &[r]);
            assert_eq!(reduced((large.clone(), small.clone())), (large.clone(), small.clone()));
            assert_eq!(reduced((small.clone(), large.clone())), (small.clone(), large));
            // A division at 5 comes later, and the one that was left out is not tried again.
            let tenth = hill(C / 10);
            let left = (with(&tenth, &[r]), small.clone());
            assert_eq!(reduced((with(&tenth, &[r, 5]), with(&small, &[5]))), left);
        }
    }
}
