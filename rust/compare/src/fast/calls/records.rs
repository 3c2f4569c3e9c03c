//! Whether a system explains a record (SCOPE 12).

use super::checks::{relation_row, Masks, Sizes};
use super::rows::{length, Shape};
use super::run::number;
use super::{passed, rows_of, Bits, Polynomial, Row, EQUATIONS, RELATION, RIGHT};

/// Numbers of the answer (SCOPE 12.41).
const ANSWER: usize = 4;
/// Limits of vectors, indices and values (SCOPE 12.11, 12.13), and of Horner's rule (SCOPE 12.31).
const VECTORS: usize = 64;
const INDEX: i64 = 1 << 20;
const VALUE: i64 = 1 << 16;
pub const LIMIT: i64 = 1 << 40;
/// As many indices are worked at a time.
const LANES: usize = 32;

/// Four numbers in `result`, as those of the exported function.
#[allow(clippy::too_many_arguments)]
pub fn check_record(
    rows: &[i64],
    relations: &[i64],
    m: usize,
    equations: usize,
    l: i64,
    t: i64,
    count: usize,
    first: i64,
    vectors: usize,
    values: &[i64],
    result: &mut [i64],
) -> u8 {
    let sizes = Sizes::checked(m, equations, l, t, count);
    number(sizes.and_then(|sizes| checked(rows, relations, sizes, first, vectors, values, result)))
}

fn checked(
    rows: &[i64],
    relations: &[i64],
    sizes: Sizes,
    first: i64,
    vectors: usize,
    values: &[i64],
    result: &mut [i64],
) -> Result<(), u8> {
    in_range(first, vectors)?;
    let need = sizes.m * vectors;
    sizes.lengths(rows, relations, values.len() >= need && result.len() >= ANSWER)?;
    let masks = sizes.numbers(rows, relations)?;
    let values = &values[..need];
    if values.iter().fold(0, |faults, &a| passed(faults, a, VALUE)) < 0 {
        return Err(5);
    }
    let answer = Record::new(&sizes, first, vectors, values).answer(rows_of(rows), relations, &masks, &sizes);
    result[..ANSWER].copy_from_slice(&answer.unwrap_or([0; ANSWER]));
    answer.map(drop)
}

/// 2 for a record that is out of its range (SCOPE 12.11).
fn in_range(first: i64, vectors: usize) -> Result<(), u8> {
    let inside = |index: i64| (-INDEX..=INDEX).contains(&index);
    if vectors <= VECTORS && inside(first) && (vectors == 0 || inside(first + vectors as i64 - 1)) {
        Ok(())
    } else {
        Err(2)
    }
}

/// The recorded numbers by unknown, and the indices at which equations are tested.
struct Record {
    columns: [[i64; VECTORS]; 4],
    /// The first n, and how many there are.
    first: i64,
    tests: usize,
    blocks: usize,
}

/// The first test with another sum than 0, or as many tests as there were.
type Answer = Result<[i64; ANSWER], u8>;

impl Record {
    fn new(sizes: &Sizes, first: i64, vectors: usize, values: &[i64]) -> Record {
        let mut columns = [[0; VECTORS]; 4];
        for (k, vector) in values.chunks_exact(sizes.m).enumerate() {
            for (column, &value) in columns.iter_mut().zip(vector) {
                column[k] = value;
            }
        }
        let blocks = sizes.blocks();
        Record { columns, first: first - sizes.t, tests: (vectors + 1).saturating_sub(blocks), blocks }
    }

    fn answer(&self, rows: &[Row], relations: &[i64], masks: &Masks, sizes: &Sizes) -> Answer {
        let equations = self.equations(&rows[..sizes.equations], &masks.rows)?;
        if equations[0] != 0 {
            return Ok(equations);
        }
        let mut tested = equations[1];
        let inside = self.first..self.first + self.tests as i64;
        for (k, relation) in relations[..sizes.count * RELATION].as_chunks().0.iter().enumerate() {
            let n0 = relation[0];
            if inside.contains(&n0) {
                let sum = self.sum(relation_row(relation), masks.relations[k], (n0 - self.first) as usize)?;
                if sum != 0 {
                    return Ok([2, k as i64 + 1, n0, sum]);
                }
                tested += 1;
            }
        }
        Ok([0, tested, 0, 0])
    }

    /// The tests of the equations, by rising n, then by number (SCOPE 12.22).
    fn equations(&self, rows: &[Row], masks: &[u32; EQUATIONS]) -> Answer {
        let mut shapes = masks.map(Shape::of);
        let far = self.first.abs().max((self.first + self.tests as i64).abs());
        let mut safe = true;
        for (row, shape) in rows.iter().zip(&mut shapes) {
            shape.measure(row);
            safe &= Bits(shape.mask).all(|at| is_safe(&row[at][..shape.length(at)], far, LIMIT));
        }
        if !safe {
            return self.one_by_one(rows, masks);
        }
        for from in (0..self.tests).step_by(LANES) {
            if let Some(failure) = self.failure(rows, &shapes, from) {
                return Ok(failure);
            }
        }
        Ok([0, (self.tests * rows.len()) as i64, 0, 0])
    }

    /// The first of the next tests that fails, where no value can pass the limit: the sums of all rows are formed together.
    fn failure(&self, rows: &[Row], shapes: &[Shape; EQUATIONS], from: usize) -> Option<[i64; ANSWER]> {
        let (mut sums, lanes) = ([[0; LANES]; EQUATIONS], LANES.min(self.tests - from));
        let mut any = 0;
        for ((sums, row), shape) in sums.iter_mut().zip(rows).zip(shapes) {
            self.add_row(&mut sums[..lanes], row, shape, from);
            any = sums.iter().fold(any, |any, sum| any | sum);
        }
        if any == 0 {
            return None;
        }
        let failing = |lane: usize| (0..rows.len()).find(|&k| sums[k][lane] != 0).map(|k| (lane, k));
        let (lane, k) = (0..lanes).find_map(failing)?;
        Some([1, k as i64 + 1, self.first + (from + lane) as i64, sums[k][lane]])
    }

    /// Where a value might pass the limit.
    fn one_by_one(&self, rows: &[Row], masks: &[u32; EQUATIONS]) -> Answer {
        for test in 0..self.tests {
            for (k, row) in rows.iter().enumerate() {
                let sum = self.sum(row, masks[k], test)?;
                if sum != 0 {
                    return Ok([1, k as i64 + 1, self.first + test as i64, sum]);
                }
            }
        }
        Ok([0, (self.tests * rows.len()) as i64, 0, 0])
    }

    /// The numbers that successive tests multiply with the values of an entry.
    fn numbers(&self, at: usize) -> &[i64] {
        &self.columns[at % 4][self.blocks - 1 - at / 4..]
    }

    /// The sum of one test; 12 for a value past the limit (SCOPE 12.21, 12.31).
    fn sum(&self, row: &Row, mask: u32, test: usize) -> Result<i64, u8> {
        let n = self.first + test as i64;
        let (mut sum, mut faults) = (0i64, 0);
        for at in Bits(mask) {
            let p = &row[at];
            let value = horner(&p[..length(p)], n, LIMIT, &mut faults);
            let number = if at == RIGHT { -1 } else { self.numbers(at)[test] };
            sum = sum.wrapping_add(value.wrapping_mul(number));
        }
        if faults < 0 {
            return Err(12);
        }
        Ok(sum)
    }

    /// Adds what a row makes at the next indices.
    fn add_row(&self, sums: &mut [i64], row: &Row, shape: &Shape, from: usize) {
        let n = self.first + from as i64;
        for at in Bits(shape.mask) {
            let numbers = if at == RIGHT { &[-1; LANES] } else { &self.numbers(at)[from..] };
            add_entry(sums, &row[at], shape.length(at), n, numbers);
        }
    }
}

/// Adds the values of a polynomial at n and the next indices, each times its number.
#[inline]
fn add_entry(sums: &mut [i64], p: &Polynomial, length: usize, n: i64, numbers: &[i64]) {
    match length {
        1 => add_values::<1>(sums, p, n, numbers),
        2 => add_values::<2>(sums, p, n, numbers),
        3 => add_values::<3>(sums, p, n, numbers),
        4 => add_values::<4>(sums, p, n, numbers),
        5 => add_values::<5>(sums, p, n, numbers),
        6 => add_values::<6>(sums, p, n, numbers),
        7 | 8 => add_values::<8>(sums, p, n, numbers),
        _ => add_values::<16>(sums, p, n, numbers),
    }
}

/// Of a polynomial of at most L coefficients.
#[inline(always)]
fn add_values<const L: usize>(sums: &mut [i64], p: &Polynomial, mut n: i64, numbers: &[i64]) {
    let p: &[i64; L] = p.first_chunk().expect("16 of them");
    for (sum, number) in sums.iter_mut().zip(numbers) {
        let mut value = p[L - 1];
        for k in (0..L - 1).rev() {
            value = value * n + p[k];
        }
        *sum += value * number;
        n += 1;
    }
}

/// Whether no value of Horner's rule can pass a limit at an n that is no further from 0.
pub fn is_safe(p: &[i64], far: i64, limit: i64) -> bool {
    let mut most = 0i64;
    for a in p.iter().rev() {
        most = most * far + a.abs();
        if most > limit {
            return false;
        }
    }
    true
}

/// The value of a polynomial; the faults are negative where a value on the way is past the limit. What comes after that has no meaning.
#[inline]
pub fn horner(p: &[i64], n: i64, limit: i64, faults: &mut i64) -> i64 {
    let mut value = 0i64;
    for &a in p.iter().rev() {
        value = value.wrapping_mul(n).wrapping_add(a);
        *faults = passed(*faults, value, limit);
    }
    value
}

#[cfg(test)]
mod tests {
    use super::*;

    #[test]
    fn limits() {
        let mut p = [0; 16];
        (p[0], p[2]) = (-1, 1);
        let mut faults = 0;
        assert_eq!((horner(&p, INDEX, LIMIT, &mut faults), faults >= 0), (LIMIT - 1, true));
        p[0] = 1;
        horner(&p, -INDEX, LIMIT, &mut faults);
        assert!(faults < 0);
        assert!(is_safe(&[0, 0, 1], INDEX, LIMIT) && !is_safe(&[1, 0, 1], INDEX, LIMIT));
    }
}
