//! What is promised of a list of polynomial solutions, tried on one that was made in any way (SCOPE 14.71, 14.72).
//!
//! That none is missing is a matter of a rank: the rows of constants, for more indices than the list has, are taken modulo a prime, where
//! their rank is at most what it is over the integers. So the sequences that satisfy them have at most as many dimensions as columns
//! less that rank, and a list of as many independent ones is complete. Nothing of the elimination or of N is used.

use crate::polynomial::{greatest_divisor, Polynomial};
use crate::row::Row;
use crate::solutions::List;
use crate::system::System;

/// The primes that are tried one after the other: 2^31 - 1, 2^31 - 19, 2^31 - 61.
const PRIMES: [i128; 3] = [2_147_483_647, 2_147_483_629, 2_147_483_587];
/// So many indices past the last one of a list are looked at.
const PAST: usize = 4;
/// The last index that is looked at where there is no list.
const WITHOUT: usize = 15;

/// Whether a list is one of a system, or, where there is none, whether the system has no such sequence; otherwise what is wrong.
pub fn judged(system: &System, list: Option<&List>) -> Result<(), String> {
    let sequences = list.map_or(&[][..], |list| &list.sequences);
    for (k, values) in sequences.iter().enumerate() {
        if !satisfies(system, values) {
            return Err(format!("sequence {} is no solution", k + 1));
        }
        if values.iter().fold(0, |d, &a| greatest_divisor(d, a)) != 1 {
            return Err(format!("sequence {} has a common divisor", k + 1));
        }
        let alone = |column: usize| sequences.iter().filter(|other| other[column] != 0).count() == 1;
        if !(0..values.len()).any(|column| values[column] > 0 && alone(column)) {
            return Err(format!("sequence {} has no column of its own where it is positive", k + 1));
        }
    }
    let last = list.map_or(WITHOUT, |list| list.last + PAST);
    let columns = (last + 1) * system.sizes.m;
    if PRIMES.iter().any(|&prime| columns - rank(system, last, prime) == sequences.len()) {
        Ok(())
    } else {
        Err(format!("{} sequences are not all", sequences.len()))
    }
}

/// Whether the sequence with these values from index 0 on, and 0 at all others, satisfies every equation and relation.
fn satisfies(system: &System, values: &[i128]) -> bool {
    let m = system.sizes.m;
    let equation = |row: &Row| (-90..=100).all(|n| left_at(row, n, m, values) == 0);
    system.rows.iter().all(equation) && system.relations.iter().all(|r| left_at(&r.row, r.n0, m, values) == 0)
}

/// What a sequence leaves of a row at n, by the powers of n.
fn left_at(row: &Row, n: i128, m: usize, values: &[i128]) -> i128 {
    let terms = row.entries().map(|(block, unknown, p)| {
        let index = n + block as i128;
        let place = index * m as i128 + unknown as i128 - 1;
        let value = if index < 0 { 0 } else { values.get(place as usize).copied().unwrap_or(0) };
        if value == 0 {
            return 0;
        }
        let powers = p.coefficients().iter().enumerate();
        value * powers.map(|(k, a)| a * n.pow(k as u32)).sum::<i128>()
    });
    terms.sum()
}

// ---- the rank modulo a prime ----

/// The rank of what the system says of the indices 0 to the last one, modulo a prime.
fn rank(system: &System, last: usize, prime: i128) -> usize {
    let (l, t) = (system.sizes.l as i128, system.sizes.t as i128);
    let equations = (-l..=last as i128 - t).flat_map(|n| system.rows.iter().map(move |row| (n, row)));
    let relations = system.relations.iter().map(|r| (r.n0, &r.row));
    let residues = |(n, row)| residues(row, n, last, system.sizes.m, prime);
    let mut settled: Vec<(usize, Vec<i128>)> = Vec::new();
    for mut row in equations.chain(relations).map(residues) {
        for (column, other) in &settled {
            let factor = row[*column];
            if factor != 0 {
                let places = row.iter_mut().zip(other).skip(*column);
                places.for_each(|(a, b)| *a = (*a - factor * b).rem_euclid(prime));
            }
        }
        if let Some(column) = row.iter().position(|&a| a != 0) {
            let inverse = power(row[column], prime - 2, prime);
            row.iter_mut().for_each(|a| *a = *a * inverse % prime);
            settled.push((column, row));
        }
    }
    settled.len()
}

/// A row at n as residues, by index and then by unknown.
fn residues(row: &Row, n: i128, last: usize, m: usize, prime: i128) -> Vec<i128> {
    let mut made = vec![0; (last + 1) * m];
    for (block, unknown, p) in row.entries() {
        let index = n + block as i128;
        if (0..=last as i128).contains(&index) {
            made[index as usize * m + unknown - 1] = residue(p, n, prime);
        }
    }
    made
}

fn residue(p: &Polynomial, n: i128, prime: i128) -> i128 {
    let terms = p.coefficients().iter().enumerate();
    terms.map(|(k, a)| a * power(n, k as i128, prime)).sum::<i128>().rem_euclid(prime)
}

fn power(a: i128, exponent: i128, prime: i128) -> i128 {
    let (mut result, mut square, mut left) = (1, a.rem_euclid(prime), exponent);
    while left > 0 {
        if left % 2 == 1 {
            result = result * square % prime;
        }
        square = square * square % prime;
        left /= 2;
    }
    result
}

#[cfg(test)]
mod tests {
    use super::*;
    use crate::sheet::read;

    /// n (n - 1) (n - 2) x(n) = 0 with 2 x(0) + 3 x(1) - 5 x(2) = 0.
    const TWO: &[u8] = b"3 1 1 -1\n1\n1 0 1 4 0 2 -3 1\n1\n1 3 1 1 1 -5 0 1 1 3 -1 1 1 2\n0\n";

    fn of(sheet: &[u8], last: usize, sequences: &[&[i128]]) -> Result<(), String> {
        let system = read(sheet, None).unwrap().system;
        judged(&system, Some(&List { last, sequences: sequences.iter().map(|values| values.to_vec()).collect() }))
    }

    #[test]
    fn lists() {
        assert_eq!(of(TWO, 2, &[&[-3, 2, 0], &[5, 0, 2]]), Ok(()));
        assert_eq!(of(TWO, 2, &[&[-3, 2, 0]]), Err("1 sequences are not all".into()));
        assert_eq!(of(TWO, 1, &[&[-3, 2]]), Err("1 sequences are not all".into()));
        assert_eq!(of(TWO, 2, &[&[-3, 2, 0], &[5, 0, 1]]), Err("sequence 2 is no solution".into()));
        assert_eq!(of(TWO, 2, &[&[-3, 2, 0], &[10, 0, 4]]), Err("sequence 2 has a common divisor".into()));
        let wrong = Err("sequence 2 has no column of its own where it is positive".into());
        assert_eq!(of(TWO, 2, &[&[1, 1, 1], &[5, 0, 2]]), wrong);
    }

    #[test]
    fn none() {
        let none = |sheet: &[u8]| judged(&read(sheet, None).unwrap().system, None);
        assert_eq!(none(b"3 1 0 0\n1\n1 0 1 2 1 1\n0\n0\n"), Ok(()));
        assert!(none(TWO).is_err());
    }

    #[test]
    fn powers() {
        assert_eq!((power(3, 4, 7), power(-1, 3, 7), power(5, 0, 7)), (4, 6, 1));
        assert!(PRIMES.iter().all(|&prime| power(2, prime - 1, prime) == 1));
    }
}
