//! The elimination in a row store (SCOPE 2), on either side.

use super::checks::{Masks, Sizes};
use super::multipliers::{multiplicity, multipliers, Listed, Multiplier};
use super::rows::{combine, divide, row_content, shift, swap, Factors, Shape};
use super::{Bits, Polynomial, Row, C, COEFFICIENTS, EQUATIONS, LEFT, RELATION, RELATIONS, RESULT};

/// Where relations are listed.
pub trait Relations {
    /// A row at n0; 9 where there is no place.
    fn list(&mut self, n0: i64, row: &Row, mask: u32) -> Result<(), u8>;
    fn count(&self) -> usize;
}

/// A relation store, whose unused places are zero.
pub struct Store<'a> {
    pub numbers: &'a mut [i64],
    pub count: usize,
}

impl Relations for Store<'_> {
    fn list(&mut self, n0: i64, row: &Row, mask: u32) -> Result<(), u8> {
        if self.count == RELATIONS {
            return Err(9);
        }
        let (place, held) = self.numbers[self.count * RELATION..][..RELATION].split_first_mut().expect("n0 and a row");
        *place = n0;
        let held = held.as_chunks_mut::<COEFFICIENTS>().0;
        Bits(mask).for_each(|at| held[at] = row[at]);
        self.count += 1;
        Ok(())
    }

    fn count(&self) -> usize {
        self.count
    }
}

/// Relations are counted only.
pub struct Counted(pub usize);

impl Relations for Counted {
    fn list(&mut self, _: i64, _: &Row, _: u32) -> Result<(), u8> {
        if self.0 == RELATIONS {
            return Err(9);
        }
        self.0 += 1;
        Ok(())
    }

    fn count(&self) -> usize {
        self.0
    }
}

/// What is written of a run's steps; rows are counted from 0.
pub trait Recorder {
    fn exchange(&mut self, _i: usize, _j: usize) {}
    fn combination(&mut self, _i: usize, _j: usize, _integer: i64, _g: &Polynomial, _h: &Polynomial) {}
    fn up(&mut self, _i: usize) {}
    fn drop(&mut self, _i: usize) {}
}

/// Nothing is written.
impl Recorder for () {}

/// A run under way.
pub struct Work<'a, R, K> {
    rows: &'a mut [Row],
    pub relations: R,
    pub recorder: K,
    /// By their places in the store.
    shapes: [Shape; EQUATIONS],
    /// Which rows have their lengths.
    measured: u32,
    /// Where each row is in the store, those that are dropped behind the others.
    places: [u8; EQUATIONS],
    pub equations: usize,
    blocks: usize,
    pub settled: usize,
    /// Of the settled rows, from 0.
    pub columns: [u8; 4],
    /// The same as bits.
    taken: u32,
    pub shifts: usize,
}

impl<'a, R: Relations, K: Recorder> Work<'a, R, K> {
    pub fn new(rows: &'a mut [Row], masks: &Masks, sizes: &Sizes, relations: R, recorder: K) -> Work<'a, R, K> {
        let shapes = masks.rows.map(Shape::of);
        let places = [0, 1, 2, 3, 4, 5];
        let (equations, blocks) = (sizes.equations, sizes.blocks());
        let rows = &mut rows[..equations];
        Work {
            rows,
            relations,
            recorder,
            shapes,
            measured: 0,
            places,
            equations,
            blocks,
            settled: 0,
            columns: [0; 4],
            taken: 0,
            shifts: 0,
        }
    }

    /// The rows that a state says are settled, at these columns.
    pub fn settle(&mut self, columns: &[u8]) {
        self.settled = columns.len();
        self.columns[..columns.len()].copy_from_slice(columns);
        self.taken = columns.iter().fold(0, |taken, column| taken | 1 << column);
    }

    /// Where row i is.
    fn place(&self, i: usize) -> usize {
        self.places[i] as usize
    }

    /// The first entry of the leading block.
    fn leading<const TRAILING: bool>(&self) -> usize {
        if TRAILING {
            4 * self.blocks - 4
        } else {
            0
        }
    }

    /// The columns in which a row has a leading entry, as bits.
    pub fn entries<const TRAILING: bool>(&self, i: usize) -> u32 {
        self.shapes[self.place(i)].mask >> self.leading::<TRAILING>() & 15
    }

    pub fn is_finished(&self) -> bool {
        self.settled == self.equations
    }

    /// Steps until the run is finished or there have been so many (SCOPE 11.1); how many, and the refusal of the one behind them.
    pub fn run<const TRAILING: bool>(&mut self, budget: usize) -> (usize, Result<(), u8>) {
        let mut steps = 0;
        while steps < budget && !self.is_finished() {
            if let Err(refusal) = self.step::<TRAILING>() {
                return (steps, Err(refusal));
            }
            steps += 1;
        }
        (steps, Ok(()))
    }

    /// One step for the row in turn (SCOPE 11.2).
    fn step<const TRAILING: bool>(&mut self) -> Result<(), u8> {
        let i = self.settled;
        let mask = self.shapes[self.place(i)].mask;
        if mask & LEFT == 0 {
            return self.without_left(i, mask);
        }
        let entries = self.entries::<TRAILING>(i);
        if entries & self.taken != 0 {
            let j = (0..i).find(|&j| entries >> self.columns[j] & 1 == 1).expect("a column that is taken");
            return self.meet::<TRAILING>(i, j);
        }
        if entries == 0 {
            return self.shift::<TRAILING>(i);
        }
        let column = entries.trailing_zeros();
        self.columns[i] = column as u8;
        self.taken |= 1 << column;
        self.settled += 1;
        Ok(())
    }

    /// A zero row is dropped; 10 for one with a right side (SCOPE 2.11, 2.12).
    fn without_left(&mut self, i: usize, mask: u32) -> Result<(), u8> {
        if mask != 0 {
            return Err(10);
        }
        self.drop_row(i);
        self.recorder.drop(i);
        Ok(())
    }

    pub fn drop_row(&mut self, i: usize) {
        self.places[i..self.equations].rotate_left(1);
        self.equations -= 1;
    }

    pub fn exchange(&mut self, i: usize, j: usize) {
        self.places.swap(i, j);
    }

    /// Grows with the width of a row (SCOPE 2.1).
    fn width<const TRAILING: bool>(&self, i: usize) -> usize {
        let left = self.shapes[self.place(i)].mask & LEFT;
        if TRAILING {
            self.blocks - left.trailing_zeros() as usize / 4
        } else {
            (31 - left.leading_zeros() as usize) / 4
        }
    }

    /// The lengths of a row are known from here on.
    fn measure(&mut self, place: usize) {
        if self.measured >> place & 1 == 0 {
            self.shapes[place].measure(&self.rows[place]);
            self.measured |= 1 << place;
        }
    }

    /// Rules 2 to 4 for row i and the settled row j.
    fn meet<const TRAILING: bool>(&mut self, i: usize, j: usize) -> Result<(), u8> {
        if self.width::<TRAILING>(j) > self.width::<TRAILING>(i) {
            self.exchange(i, j);
            self.recorder.exchange(i, j);
        }
        let (row, pivot) = (self.place(i), self.place(j));
        self.measure(row);
        self.measure(pivot);
        let entry = self.leading::<TRAILING>() + self.columns[j] as usize;
        let a = self.shapes[pivot].polynomial(&self.rows[pivot], entry);
        let b = self.shapes[row].polynomial(&self.rows[row], entry);
        let (g, h, roots) = multipliers::<TRAILING>(a, b);
        self.list(row, &roots)?;
        let integer = self.combine(row, pivot, &g, &h)?;
        self.recorder.combination(i, j, integer, &g.numbers, &h.numbers);
        Ok(())
    }

    /// Rule 3.
    fn list(&mut self, row: usize, roots: &Listed) -> Result<(), u8> {
        for &n0 in roots.as_slice() {
            self.relations.list(n0, &self.rows[row], self.shapes[row].mask)?;
        }
        Ok(())
    }

    /// Rule 4; the integer by which the row was divided, 1 for a zero row.
    fn combine(&mut self, row: usize, pivot: usize, g: &Multiplier, h: &Multiplier) -> Result<i64, u8> {
        let [place, other] = self.rows.get_disjoint_mut([row, pivot]).expect("two rows");
        let [shape, other_shape] = self.shapes.get_disjoint_mut([row, pivot]).expect("two rows");
        let sum = combine(place, shape, other, other_shape, Factors { g, h, integer: 1 });
        if sum.high != 0 {
            return Err(7);
        }
        let content = row_content(place, shape) as i64;
        let size = if content > 1 { divide(place, shape, content) } else { sum.size };
        if size > C as u64 {
            return Err(8);
        }
        if shape.mask & LEFT == 0 && shape.mask != 0 {
            return Err(10);
        }
        Ok(content.max(1))
    }

    /// Rule 6.
    fn shift<const TRAILING: bool>(&mut self, i: usize) -> Result<(), u8> {
        self.shifts += 1;
        self.recorder.up(i);
        if TRAILING {
            self.shift_row::<false>(i)
        } else {
            self.shift_row::<true>(i)
        }
    }

    /// 8 where a coefficient passes ±C (SCOPE 2.63).
    pub fn shift_row<const UP: bool>(&mut self, i: usize) -> Result<(), u8> {
        let place = self.place(i);
        self.measure(place);
        if shift::<UP>(&mut self.rows[place], &mut self.shapes[place], self.blocks) > C as u64 {
            return Err(8);
        }
        Ok(())
    }

    /// The mask of a row.
    pub fn mask(&self, i: usize) -> u32 {
        self.shapes[self.place(i)].mask
    }

    /// Two rows with their lengths, the first to be changed.
    pub fn two_rows(&mut self, i: usize, j: usize) -> (&mut Row, &mut Shape, &Row, &Shape) {
        let (row, pivot) = (self.place(i), self.place(j));
        self.measure(row);
        self.measure(pivot);
        let [place, other] = self.rows.get_disjoint_mut([row, pivot]).expect("two rows");
        let [shape, other_shape] = self.shapes.get_disjoint_mut([row, pivot]).expect("two rows");
        (place, shape, other, other_shape)
    }

    /// Row i at the roots of g (SCOPE 13.27).
    pub fn list_row(&mut self, i: usize, roots: &Listed) -> Result<(), u8> {
        self.list(self.place(i), roots)
    }

    /// The diagonal polynomial of a settled row.
    fn diagonal<const TRAILING: bool>(&mut self, j: usize) -> &[i64] {
        let place = self.place(j);
        let at = self.leading::<TRAILING>() + self.columns[j] as usize;
        let p = &self.rows[place][at];
        &p[..super::rows::length(p)]
    }

    /// Of each diagonal polynomial the largest root, or the least one.
    fn diagonal_roots<const TRAILING: bool, const LARGEST: bool>(&mut self) -> [Option<i64>; 4] {
        let mut found = [None; 4];
        for (j, root) in found.iter_mut().enumerate().take(self.settled) {
            let roots = Listed::of(self.diagonal::<TRAILING>(j));
            *root = if LARGEST { roots.as_slice().last().copied() } else { roots.as_slice().first().copied() };
        }
        found
    }

    /// The largest root of the trailing diagonal (SCOPE 14.21).
    pub fn largest_trailing_root(&mut self) -> Option<i64> {
        self.diagonal_roots::<true, true>().into_iter().flatten().max()
    }

    /// 1 or 0 for a root, the root, and how often it occurs (SCOPE 2.81 to 2.83, 2.93).
    fn report<const TRAILING: bool>(&mut self) -> [i64; 3] {
        let (roots, root) = if TRAILING {
            let roots = self.diagonal_roots::<true, false>();
            (roots, roots.into_iter().flatten().min())
        } else {
            let roots = self.diagonal_roots::<false, true>();
            (roots, roots.into_iter().flatten().max())
        };
        let Some(root) = root else { return [0; 3] };
        // A diagonal polynomial that vanishes there has it as its own largest or least.
        let mut times = 0;
        for (j, own) in roots.iter().enumerate() {
            if *own == Some(root) {
                times += multiplicity(self.diagonal::<TRAILING>(j), root);
            }
        }
        [1, root, times]
    }

    /// c(1) to c(4)
    pub fn order(&self) -> [i64; 4] {
        let mut order = [0; 4];
        for (place, &column) in order.iter_mut().zip(&self.columns[..self.settled]) {
            *place = column as i64 + 1;
        }
        order
    }

    /// The ten numbers of a run (SCOPE 3.52).
    pub fn numbers<const TRAILING: bool>(&mut self) -> [i64; RESULT] {
        let ([a, b, c, d], [any, root, times]) = (self.order(), self.report::<TRAILING>());
        [self.relations.count() as i64, self.shifts as i64, a, b, c, d, any, root, self.settled as i64, times]
    }

    /// Puts the rows where they belong in the store, those that were dropped behind the others.
    pub fn put_in_order(&mut self) {
        for k in 0..self.rows.len() {
            let place = self.place(k);
            if place != k {
                swap(self.rows, &mut self.shapes, k, place);
                let other = self.places.iter().position(|&other| other as usize == k).expect("each place once");
                self.places.swap(k, other);
            }
        }
    }
}
