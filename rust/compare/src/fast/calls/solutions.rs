//! The list of polynomial solutions (SCOPE 14).

use super::checks::{relation_row, Masks, Sizes};
use super::elimination::{Counted, Work};
use super::multipliers::{content, divisor, Exact};
use super::records::{horner, is_safe, LIMIT};
use super::rows::Shape;
use super::run::number;
use super::{passed, rows_of, rows_of_mut, Bits, Row, C, EQUATIONS, RELATION, RELATION_STORE, RIGHT};

/// Numbers of a row of constants, and of the matrix, the list and the result (SCOPE 14.61, 14.65).
const WIDTH: usize = 64;
const MATRIX: usize = 136 * WIDTH;
const LIST: usize = WIDTH * WIDTH;
const ANSWER: usize = 3;
/// The largest N (SCOPE 14.22).
const LAST: i64 = 15;

/// The stores that the call may write.
struct Lent<'a> {
    rows: &'a mut [i64],
    relations: &'a mut [i64],
    matrix: &'a mut [i64],
    list: &'a mut [i64],
}

/// Three numbers in `result`, as those of the exported function.
#[allow(clippy::too_many_arguments)]
pub fn solutions(
    rows: &[i64],
    relations: &[i64],
    m: usize,
    equations: usize,
    l: i64,
    t: i64,
    count: usize,
    work_rows: &mut [i64],
    work_relations: &mut [i64],
    work_matrix: &mut [i64],
    list: &mut [i64],
    result: &mut [i64],
) -> u8 {
    let lent = Lent { rows: work_rows, relations: work_relations, matrix: work_matrix, list };
    number(Sizes::checked(m, equations, l, t, count).and_then(|sizes| called(rows, relations, sizes, lent, result)))
}

fn called(rows: &[i64], relations: &[i64], sizes: Sizes, lent: Lent, result: &mut [i64]) -> Result<(), u8> {
    let need = sizes.row_store();
    let others = lent.rows.len() >= need
        && lent.relations.len() >= RELATION_STORE
        && lent.matrix.len() >= MATRIX
        && lent.list.len() >= LIST
        && result.len() >= ANSWER;
    sizes.lengths(rows, relations, others)?;
    let masks = sizes.numbers(rows, relations)?;
    let relations = relations[..sizes.count * RELATION].as_chunks().0;
    if masks.rows.iter().chain(&masks.relations).any(|mask| mask >> RIGHT != 0) {
        return Err(14);
    }
    let Lent { rows: work, relations: unused, matrix, list } = lent;
    work[..need].copy_from_slice(&rows[..need]);
    list[..LIST].fill(0);
    let answer = last_index(rows_of_mut(work), &masks, &sizes).and_then(|last| match last {
        Some(last) => {
            let system =
                System { rows: &rows_of(rows)[..sizes.equations], masks: &masks, relations, sizes: &sizes, last };
            listed(&system, matrix, list).map(|count| [1, last, count as i64])
        }
        None => Ok([0; ANSWER]),
    });
    work[..need].fill(0);
    unused[..RELATION_STORE].fill(0);
    matrix[..MATRIX].fill(0);
    if answer.is_err() {
        list[..LIST].fill(0);
    }
    result[..ANSWER].copy_from_slice(&answer.unwrap_or([0; ANSWER]));
    answer.map(drop)
}

/// N, if it is not negative (SCOPE 14.12, 14.21, 14.22).
fn last_index(rows: &mut [Row], masks: &Masks, sizes: &Sizes) -> Result<Option<i64>, u8> {
    let mut work = Work::new(rows, masks, sizes, Counted(sizes.count), ());
    work.run::<true>(usize::MAX).1?;
    if work.settled < sizes.m {
        return Err(14);
    }
    match work.largest_trailing_root().map(|root| root + sizes.t) {
        Some(last) if last > LAST => Err(14),
        last => Ok(last.filter(|&last| last >= 0)),
    }
}

/// The system that a list is made of.
struct System<'a> {
    rows: &'a [Row],
    masks: &'a Masks,
    relations: &'a [[i64; RELATION]],
    sizes: &'a Sizes,
    last: i64,
}

/// Where a row of constants begins and ends; outside it is zero, and there its place has no meaning.
#[derive(Clone, Copy)]
struct Extent {
    from: usize,
    to: usize,
}

/// The number of sequences that are listed.
fn listed(system: &System, matrix: &mut [i64], list: &mut [i64]) -> Result<usize, u8> {
    let matrix = matrix.as_chunks_mut::<WIDTH>().0;
    let mut extents = [Extent { from: 0, to: 0 }; 136];
    let made = system.make(matrix, &mut extents)?;
    let mut settled = Settled { rows: matrix, extents: &mut extents, pivots: [0; WIDTH], count: 0, taken: 0 };
    for k in 0..made {
        settled.reduce(k)?;
    }
    let columns = (system.last as usize + 1) * system.sizes.m;
    let all = u64::MAX >> (64 - columns);
    let (mut free, mut count) = (all & !settled.taken, 0);
    while free != 0 {
        settled.sequence(free.trailing_zeros() as usize, columns, &mut list.as_chunks_mut().0[count])?;
        free &= free - 1;
        count += 1;
    }
    Ok(count)
}

impl System<'_> {
    /// All rows of constants, and how many there are (SCOPE 14.31).
    fn make(&self, matrix: &mut [[i64; WIDTH]], extents: &mut [Extent; 136]) -> Result<usize, u8> {
        let (first, end) = (-self.sizes.l, self.last - self.sizes.t);
        let far = first.abs().max(end.abs());
        let shapes = Shapes::of(self.rows, &self.masks.rows, far);
        let mut made = 0;
        for n in first..=end {
            for (k, row) in self.rows.iter().enumerate() {
                let (shape, safe) = (&shapes.shapes[k], shapes.safe[k]);
                extents[made] = self.constants(row, shape, safe, n, &mut matrix[made])?;
                made += 1;
            }
        }
        for (relation, &mask) in self.relations.iter().zip(&self.masks.relations) {
            let (row, mut shape) = (relation_row(relation), Shape::of(mask));
            shape.measure(row);
            extents[made] = self.constants(row, &shape, 0, relation[0], &mut matrix[made])?;
            made += 1;
        }
        Ok(made)
    }

    /// A row at n, by index and then by unknown; 12 and 8 as they come (SCOPE 14.32 to 14.34).
    fn constants(&self, row: &Row, shape: &Shape, safe: u32, n: i64, place: &mut [i64; WIDTH]) -> Result<Extent, u8> {
        let Sizes { m, t, l, .. } = *self.sizes;
        let (low, high) = ((n + t).max(0), (n + l).min(self.last));
        if low > high {
            return Ok(Extent { from: 0, to: 0 });
        }
        let extent = Extent { from: low as usize * m, to: (high as usize + 1) * m };
        let mut block = 4 * (l - (low - n)) as usize;
        for places in place[extent.from..extent.to].chunks_exact_mut(m) {
            for (column, place) in places.iter_mut().enumerate() {
                let at = block + column;
                *place = if shape.mask >> at & 1 == 0 {
                    0
                } else if safe >> at & 1 == 1 {
                    row[at][..shape.length(at)].iter().rev().fold(0, |value, a| value * n + a)
                } else {
                    value(&row[at][..shape.length(at)], n)?
                };
            }
            block = block.wrapping_sub(4);
        }
        Ok(extent)
    }
}

/// The shapes of the equations, and which of their polynomials pass no limit at any n that is asked for.
struct Shapes {
    shapes: [Shape; EQUATIONS],
    safe: [u32; EQUATIONS],
}

impl Shapes {
    fn of(rows: &[Row], masks: &[u32; EQUATIONS], far: i64) -> Shapes {
        let (mut shapes, mut safe) = (masks.map(Shape::of), [0; EQUATIONS]);
        for ((row, shape), safe) in rows.iter().zip(&mut shapes).zip(&mut safe) {
            shape.measure(row);
            for at in Bits(shape.mask) {
                *safe |= (is_safe(&row[at][..shape.length(at)], far, C) as u32) << at;
            }
        }
        Shapes { shapes, safe }
    }
}

/// The value of an entry; 12, then 8.
fn value(p: &[i64], n: i64) -> Result<i64, u8> {
    let mut faults = 0;
    let value = horner(p, n, LIMIT, &mut faults);
    match (faults < 0, value.unsigned_abs() > C as u64) {
        (true, _) => Err(12),
        (_, true) => Err(8),
        _ => Ok(value),
    }
}

/// The rows of constants, the settled ones at the front.
struct Settled<'a> {
    rows: &'a mut [[i64; WIDTH]],
    extents: &'a mut [Extent; 136],
    /// The columns of the settled rows.
    pivots: [u8; WIDTH],
    count: usize,
    /// The same as bits.
    taken: u64,
}

impl Settled<'_> {
    /// A row meets the settled ones and is settled itself, or dropped (SCOPE 14.41 to 14.44).
    fn reduce(&mut self, k: usize) -> Result<(), u8> {
        let mut extent = self.extents[k];
        let mut row = [0; WIDTH];
        row[extent.from..extent.to].copy_from_slice(&self.rows[k][extent.from..extent.to]);
        for j in 0..self.count {
            let pivot = self.pivots[j] as usize;
            if row[pivot] != 0 {
                let other = self.extents[j];
                extent.to = extent.to.max(other.to);
                combine(&mut row, &self.rows[j], pivot, extent, other)?;
            }
        }
        let Some(first) = row[extent.from..extent.to].iter().position(|&a| a != 0) else { return Ok(()) };
        let from = extent.from + first;
        self.rows[self.count][from..extent.to].copy_from_slice(&row[from..extent.to]);
        self.extents[self.count] = Extent { from, to: extent.to };
        self.pivots[self.count] = from as u8;
        self.taken |= 1 << from;
        self.count += 1;
        Ok(())
    }

    /// The sequence of a column at which no row is settled; 8 where a value passes ±C (SCOPE 14.52, 14.53).
    fn sequence(&self, free: usize, columns: usize, values: &mut [i64; WIDTH]) -> Result<(), u8> {
        let values = &mut values[..columns];
        values[free] = 1;
        for j in (0..self.count).rev() {
            let (row, Extent { from, to }) = (&self.rows[j], self.extents[j]);
            let sum: i64 = row[from..to].iter().zip(&values[from..to]).map(|(a, b)| a * b).sum();
            if sum == 0 {
                continue;
            }
            let a = row[from];
            let d = divisor(a.unsigned_abs(), sum.unsigned_abs()) as i64;
            let (factor, value) = (a.abs() / d, -(sum / d) * a.signum());
            let mut faults = passed(0, value, C);
            if factor != 1 {
                for value in values.iter_mut() {
                    *value *= factor;
                    faults = passed(faults, *value, C);
                }
            }
            if faults < 0 {
                return Err(8);
            }
            values[from] = value;
        }
        Ok(())
    }
}

/// g times the row plus h times the settled one, divided by what divides all of it; 8 (SCOPE 14.42, 14.43).
fn combine(
    row: &mut [i64; WIDTH],
    other: &[i64; WIDTH],
    pivot: usize,
    extent: Extent,
    settled: Extent,
) -> Result<(), u8> {
    let (a, b) = (other[pivot], row[pivot]);
    let d = divisor(a.unsigned_abs(), b.unsigned_abs()) as i64;
    let (g, h) = (a.abs() / d, -(b / d) * a.signum());
    if g != 1 {
        for a in &mut row[extent.from..extent.to] {
            *a *= g;
        }
    }
    for (a, b) in row[settled.from..settled.to].iter_mut().zip(&other[settled.from..settled.to]) {
        *a += h * b;
    }
    let row = &mut row[extent.from..extent.to];
    let d = content(0, row) as i64;
    if d > 1 {
        let exact = Exact::new(d);
        row.iter_mut().for_each(|a| *a = exact.of(*a));
    }
    if row.iter().fold(0, |faults, &a| passed(faults, a, C)) < 0 {
        return Err(8);
    }
    Ok(())
}
