//! The leading run in the work area.

use super::roots::{is_root, roots, Roots};
use super::{each, Relation, Row, System, C, ENTRIES, LEFT, RELATIONS, SIDE};

/// What an accepted run reports beside the work area.
#[derive(Clone, Copy, Debug, PartialEq, Eq)]
pub struct Report {
    pub shifts: usize,
    pub root: Option<i64>,
}

/// Runs the leading side; the column order goes into the work area.
pub fn run(system: &mut System) -> Result<Report, u8> {
    let shifts = eliminate(system, false)?;
    Ok(Report { shifts, root: system.largest_root() })
}

/// The largest root of a nonzero polynomial, by a run with one unknown and one block.
pub fn largest_root(system: &mut System, p: &[i64]) -> Option<i64> {
    (system.m, system.equations, system.l, system.blocks) = (1, 1, 0, 1);
    (system.given.count, system.count, system.kept_count) = (0, 0, 0);
    let row = system.row_mut(0);
    row.mask = 1;
    row.lengths = [0; SIDE + 1];
    row.lengths[0] = p.len() as u8;
    row.numbers[0] = [0; 16];
    row.numbers[0].iter_mut().zip(p).for_each(|(place, &a)| *place = a as i32);
    run(system).expect("one nonzero row").root
}

/// The run without its root, and how often it shifts. Where the sheet is at hand, rows that are still as they were read need no copy.
pub fn eliminate(system: &mut System, with_text: bool) -> Result<usize, u8> {
    let mut run = Run { system, with_text, shifts: 0 };
    (run.system.order, run.system.changed) = ([0; 4], false);
    let mut i = 0;
    while i < run.system.equations {
        if run.settled(i)? {
            i += 1;
        } else {
            let equations = run.system.equations;
            run.system.places[i..equations].rotate_left(1);
            run.system.equations -= 1;
            run.system.changed = true;
        }
    }
    Ok(run.shifts)
}

impl System {
    fn largest_root(&self) -> Option<i64> {
        let last = |j: usize| {
            let p = Polynomial::of(self.row(j), self.order[j] as usize - 1);
            p.roots().as_slice().last().copied()
        };
        (0..self.equations).filter_map(last).max()
    }
}

struct Run<'a> {
    system: &'a mut System,
    with_text: bool,
    shifts: usize,
}

impl Run<'_> {
    /// Settles row i, or tells that it is zero on both sides; 10 for one that has a right side alone.
    fn settled(&mut self, i: usize) -> Result<bool, u8> {
        let mask = self.system.row(i).mask;
        if mask & LEFT == 0 {
            return if mask == 0 { Ok(false) } else { Err(10) };
        }
        loop {
            for j in 0..i {
                let entry = self.system.order[j] as usize - 1;
                if self.system.row(i).has(entry) && !self.meet(i, j, entry)? {
                    return Ok(false);
                }
            }
            let leading = self.system.row(i).mask & 15;
            if leading != 0 {
                self.system.order[i] = leading.trailing_zeros() as u8 + 1;
                return Ok(true);
            }
            self.system.changed = true;
            shift(self.system.row_mut(i))?;
            self.shifts += 1;
        }
    }

    /// Whether something of row i is left.
    fn meet(&mut self, i: usize, j: usize, entry: usize) -> Result<bool, u8> {
        let system = &mut *self.system;
        system.changed = true;
        if system.row(j).width() > system.row(i).width() {
            system.places.swap(i, j);
        }
        let Multipliers { g, h, roots } = multipliers(system.row(j), system.row(i), entry);
        if !roots.as_slice().is_empty() {
            self.list(i, roots.as_slice())?;
        }
        let system = &mut *self.system;
        let last = system.places.len() - 1;
        let places = [system.places[last], system.places[i], system.places[j]];
        let [new, row, pivot] = system.rows.get_disjoint_mut(places).expect("three rows");
        let left = Combination { row, pivot, g, h, entry }.made(new)?;
        system.places.swap(i, last);
        Ok(left)
    }

    /// Lists row i at each root.
    fn list(&mut self, i: usize, roots: &[i64]) -> Result<(), u8> {
        let system = &mut *self.system;
        if system.given.count + system.count + roots.len() > RELATIONS {
            return Err(9);
        }
        let kept = system.kept_count;
        system.kept[kept].copy_of(&system.rows[system.places[i]], self.with_text);
        system.kept_count += 1;
        for &n0 in roots {
            system.relations[system.count] = Relation { n0: n0 as i32, row: kept };
            system.count += 1;
        }
        Ok(())
    }
}

/// A polynomial beside rows, with zeros behind its last coefficient.
#[derive(Clone, Copy)]
struct Polynomial {
    numbers: [i32; 16],
    length: usize,
}

impl Polynomial {
    fn of(row: &Row, e: usize) -> Polynomial {
        Polynomial { numbers: row.numbers[e], length: row.lengths[e] as usize }
    }

    fn as_slice(&self) -> &[i32] {
        &self.numbers[..self.length]
    }

    fn wide(&self) -> [i64; 16] {
        self.numbers.map(|a| a as i64)
    }

    fn roots(&self) -> Roots {
        roots(&self.wide()[..self.length])
    }
}

// ---- the combination ----

struct Combination<'a> {
    row: &'a Row,
    pivot: &'a Row,
    g: Polynomial,
    h: Polynomial,
    /// Where it gives zero.
    entry: usize,
}

impl Combination<'_> {
    /// Makes g row + h pivot, over its content, and tells whether something is left.
    fn made(&self, new: &mut Row) -> Result<bool, u8> {
        match self.g.length.max(self.h.length) {
            1 => self.made_by::<1>(new),
            2 => self.made_by::<2>(new),
            3 => self.made_by::<3>(new),
            4 => self.made_by::<4>(new),
            _ => self.made_by::<16>(new),
        }
    }

    /// The same with multipliers of at most so many coefficients.
    fn made_by<const L: usize>(&self, new: &mut Row) -> Result<bool, u8> {
        let mut left = (self.row.mask | self.pivot.mask) & !(1 << self.entry);
        (new.mask, new.changed, new.lengths) = (0, true, [0; SIDE + 1]);
        let (mut content, mut sizes) = (0, 0);
        while left != 0 {
            let e = left.trailing_zeros() as usize;
            left &= left - 1;
            match self.length_of(e, L) {
                0..=4 => self.entry_of::<L, 4>(e, new, &mut content, &mut sizes)?,
                5..=6 => self.entry_of::<L, 6>(e, new, &mut content, &mut sizes)?,
                7..=8 => self.entry_of::<L, 8>(e, new, &mut content, &mut sizes)?,
                _ => self.entry_of::<L, 32>(e, new, &mut content, &mut sizes)?,
            }
        }
        if content == 0 {
            return Ok(false);
        }
        if sizes >> 28 != 0 {
            self.made_wide::<L>(new, content)?;
        } else if content != 1 {
            divide(new, content as u32);
        }
        if new.mask & LEFT == 0 {
            return Err(10);
        }
        Ok(true)
    }

    /// The most coefficients that entry e can have, with multipliers of so many.
    #[inline(always)]
    fn length_of(&self, e: usize, multiplier: usize) -> usize {
        self.row.lengths[e].max(self.pivot.lengths[e]) as usize + multiplier - 1
    }

    /// N coefficients of entry e.
    #[inline(always)]
    fn sums<const L: usize, const N: usize>(&self, e: usize) -> [i64; N] {
        let mut sums = [0; N];
        for (multiplier, row) in [(&self.g, self.row), (&self.h, self.pivot)] {
            if row.lengths[e] != 0 {
                add_product::<L, N>(&mut sums, multiplier, &row.numbers[e], row.lengths[e]);
            }
        }
        sums
    }

    /// Makes entry e. The sizes of all coefficients are joined by `or`, so that one past 28 bits shows.
    #[inline(always)]
    fn entry_of<const L: usize, const N: usize>(
        &self,
        e: usize,
        new: &mut Row,
        content: &mut u64,
        sizes: &mut u64,
    ) -> Result<(), u8> {
        let sums = self.sums::<L, N>(e);
        let length = sums.iter().rposition(|&a| a != 0).map_or(0, |k| k + 1);
        if length == 0 {
            return Ok(());
        }
        if length > 16 {
            return Err(7);
        }
        *sizes |= sums.iter().fold(0, |sizes, a| sizes | a.unsigned_abs());
        new.mask |= 1 << e;
        new.lengths[e] = length as u8;
        new.numbers[e] = [0; 16];
        new.numbers[e].iter_mut().zip(&sums).for_each(|(place, &a)| *place = a as i32);
        if *content != 1 {
            *content = with_divisor(*content, &sums[..length]);
        }
        Ok(())
    }

    /// The same combination where coefficients are past ±C before the division by the content.
    #[cold]
    fn made_wide<const L: usize>(&self, new: &mut Row, content: u64) -> Result<(), u8> {
        if content == 1 {
            return Err(8);
        }
        let mut sizes = 0;
        let divisor = Divisor::<u64>::new(content);
        each(new.mask, |e| {
            let sums = self.sums::<L, 32>(e);
            for (place, &a) in new.numbers[e].iter_mut().zip(&sums) {
                let quotient = divisor.quotient(a);
                sizes |= quotient.unsigned_abs();
                *place = quotient as i32;
            }
        });
        if sizes >> 28 != 0 {
            Err(8)
        } else {
            Ok(())
        }
    }
}

/// Adds a product of which no coefficient past N is other than zero.
#[inline(always)]
fn add_product<const L: usize, const N: usize>(sums: &mut [i64; N], g: &Polynomial, p: &[i32; 16], length: u8) {
    if L == 16 || N == 32 {
        for (k, &a) in g.as_slice().iter().enumerate() {
            for (place, &b) in sums[k..].iter_mut().zip(&p[..length as usize]) {
                *place += a as i64 * b as i64;
            }
        }
    } else {
        for k in 0..L.min(N) {
            for i in 0..N - k {
                sums[k + i] += g.numbers[k] as i64 * p[i] as i64;
            }
        }
    }
}

// ---- division by whole numbers ----

/// Exact division: a product with the inverse of the odd part, modulo 2^64 or 2^32.
struct Divisor<T> {
    zeros: u32,
    inverse: T,
}

/// The inverse of an odd number: each turn doubles the bits that are right, of which there are three at first.
fn inverse(odd: u64) -> u64 {
    (0..5).fold(odd, |x, _| x.wrapping_mul(2u64.wrapping_sub(odd.wrapping_mul(x))))
}

impl Divisor<u64> {
    fn new(d: u64) -> Divisor<u64> {
        let zeros = d.trailing_zeros();
        Divisor { zeros, inverse: inverse(d >> zeros) }
    }

    #[inline(always)]
    fn quotient(&self, a: i64) -> i64 {
        (a >> self.zeros).wrapping_mul(self.inverse as i64)
    }
}

impl Divisor<u32> {
    fn new(d: u32) -> Divisor<u32> {
        let zeros = d.trailing_zeros();
        Divisor { zeros, inverse: inverse((d >> zeros) as u64) as u32 }
    }

    #[inline(always)]
    fn quotient(&self, a: i32) -> i32 {
        (a >> self.zeros).wrapping_mul(self.inverse as i32)
    }
}

fn divide(row: &mut Row, d: u32) {
    let divisor = Divisor::<u32>::new(d);
    each(row.mask, |e| {
        for chunk in row.numbers[e].chunks_exact_mut(4).take((row.lengths[e] as usize).div_ceil(4)) {
            chunk.iter_mut().for_each(|a| *a = divisor.quotient(*a));
        }
    });
}

/// The greatest common divisor of d and the coefficients; it stays 1 once it is.
#[inline(always)]
fn with_divisor(mut d: u64, coefficients: &[i64]) -> u64 {
    for a in coefficients {
        if d == 1 {
            break;
        }
        d = greatest_divisor(d, a.unsigned_abs());
    }
    d
}

fn greatest_divisor(d: u64, a: u64) -> u64 {
    if d == 0 || a == 1 {
        return a;
    }
    let (mut a, mut b) = (d, a % d);
    while b != 0 {
        (a, b) = (b, a % b);
    }
    a
}

// ---- the shift ----

/// The blocks move up, and n becomes n + 1.
fn shift(row: &mut Row) -> Result<(), u8> {
    let mut sizes = 0;
    let mut left = row.mask & LEFT;
    while left != 0 {
        let e = left.trailing_zeros() as usize;
        left &= left - 1;
        row.numbers[e - 4] = row.numbers[e];
        sizes |= increment(&mut row.numbers[e - 4], row.lengths[e] as usize);
    }
    row.lengths.copy_within(4..ENTRIES, 0);
    row.lengths[ENTRIES - 4..ENTRIES].fill(0);
    if row.has(SIDE) {
        let length = row.lengths[SIDE];
        sizes |= increment(&mut row.numbers[SIDE], length as usize);
    }
    row.mask = (row.mask & LEFT) >> 4 | row.mask & 1 << SIDE;
    row.changed = true;
    if sizes >> 28 != 0 {
        Err(8)
    } else {
        Ok(())
    }
}

/// n becomes n + 1, by repeated addition; the sizes of the coefficients joined by `or`.
#[inline]
fn increment(p: &mut [i32; 16], length: usize) -> u64 {
    let mut sums = p.map(|a| a as i64);
    if length <= 4 {
        added_up::<4>(&mut sums);
    } else {
        for low in 0..length - 1 {
            (low..length - 1).rev().for_each(|k| sums[k] += sums[k + 1]);
        }
    }
    let mut sizes = 0;
    for (place, a) in p.iter_mut().zip(sums) {
        sizes |= a.unsigned_abs();
        *place = a as i32;
    }
    sizes
}

#[inline(always)]
fn added_up<const N: usize>(sums: &mut [i64; 16]) {
    for low in 0..N - 1 {
        (low..N - 1).rev().for_each(|k| sums[k] += sums[k + 1]);
    }
}

// ---- the multipliers ----

/// g and h with the roots of g.
struct Multipliers {
    g: Polynomial,
    h: Polynomial,
    roots: Roots,
}

/// The roots of g that are not common to a and b stay, the others only where no division takes the last of them.
fn multipliers(pivot: &Row, row: &Row, entry: usize) -> Multipliers {
    let (mut a, mut b) = (Polynomial::of(pivot, entry), Polynomial::of(row, entry));
    let (g, h) = over_divisor(&a, &b);
    if g.length == 1 {
        return Multipliers { g, h, roots: Roots::NONE };
    }
    let found = g.roots();
    let mut divided = false;
    for &r in found.as_slice() {
        while let Some((p, q)) = over_root(&a, r).zip(over_root(&b, r)) {
            (a, b, divided) = (p, q, true);
        }
    }
    if !divided {
        return Multipliers { g, h, roots: found };
    }
    let (g, h) = over_divisor(&a, &b);
    let p = g.wide();
    let roots = found.filtered(|r| is_root(&p[..g.length], r));
    Multipliers { g, h, roots }
}

/// g = a/d and h = -b/d, signs turned such that the highest coefficient of g is positive.
fn over_divisor(a: &Polynomial, b: &Polynomial) -> (Polynomial, Polynomial) {
    let d = b.as_slice().iter().fold(a.as_slice().iter().fold(0, with_number), with_number);
    let (mut g, mut h) = (*a, *b);
    if d != 1 {
        let divisor = Divisor::<u32>::new(d);
        g.numbers.iter_mut().chain(&mut h.numbers).for_each(|a| *a = divisor.quotient(*a));
    }
    let turned = if a.numbers[a.length - 1] < 0 { &mut g } else { &mut h };
    turned.numbers.iter_mut().for_each(|a| *a = -*a);
    (g, h)
}

/// The greatest common divisor of d and a.
#[inline(always)]
fn with_number(d: u32, a: &i32) -> u32 {
    match d {
        0 => a.unsigned_abs(),
        1 => 1,
        _ => greatest_divisor(d as u64, a.unsigned_abs() as u64) as u32,
    }
}

/// The quotient by n - r, where r is a root and the quotient is within ±C. A coefficient past that ends the division.
fn over_root(p: &Polynomial, r: i64) -> Option<Polynomial> {
    let mut quotient = Polynomial { numbers: [0; 16], length: p.length - 1 };
    let mut value = 0;
    for k in (1..p.length).rev() {
        value = value * r + p.numbers[k] as i64;
        if value.abs() > C {
            return None;
        }
        quotient.numbers[k - 1] = value as i32;
    }
    (value * r + p.numbers[0] as i64 == 0).then_some(quotient)
}
