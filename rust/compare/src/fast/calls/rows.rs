//! What is done to whole rows of a store: their lengths, combinations, divisions and shifts.

use super::multipliers::{content, Exact, Multiplier};
use super::{Bits, Polynomial, Row, COEFFICIENTS, POLYNOMIALS, RIGHT};

/// A row's polynomials that are not zero, and how many coefficients each of these has, none of them more than `longest`.
#[derive(Clone, Copy)]
pub struct Shape {
    pub mask: u32,
    longest: u8,
    lengths: [u8; POLYNOMIALS],
}

impl Shape {
    pub fn of(mask: u32) -> Shape {
        Shape { mask, longest: 0, lengths: [0; POLYNOMIALS] }
    }

    pub fn length(&self, at: usize) -> usize {
        self.lengths[at] as usize
    }

    /// The lengths of a row whose mask is known.
    pub fn measure(&mut self, row: &Row) {
        for at in Bits(self.mask) {
            self.lengths[at] = length(&row[at]) as u8;
            self.longest = self.longest.max(self.lengths[at]);
        }
    }

    /// A polynomial of a row of this shape.
    pub fn polynomial(&self, row: &Row, at: usize) -> Multiplier {
        Multiplier { numbers: row[at], length: self.length(at) }
    }

    #[inline(always)]
    fn set(&mut self, at: usize, length: usize) {
        self.lengths[at] = length as u8;
        self.longest = self.longest.max(length as u8);
        self.mask = self.mask & !(1 << at) | ((length > 0) as u32) << at;
    }
}

/// The coefficients up to the last that is not zero.
pub fn length(p: &Polynomial) -> usize {
    let upper = |from: usize| p[from] | p[from + 1] | p[from + 2] | p[from + 3] != 0;
    let end = if upper(12) {
        16
    } else if upper(8) {
        12
    } else if upper(4) {
        8
    } else {
        4
    };
    cut(p, end)
}

/// The same, where all from `end` on are zero.
fn cut(p: &Polynomial, mut end: usize) -> usize {
    while end > 0 && p[end - 1] == 0 {
        end -= 1;
    }
    end
}

/// 16 zeros, the coefficients, 16 zeros.
type Padded = [i64; 3 * COEFFICIENTS];

#[inline(always)]
fn pad(padded: &mut Padded, p: &Polynomial) {
    padded[COEFFICIENTS..2 * COEFFICIENTS].copy_from_slice(p);
}

/// Coefficient t of a product with a multiplier.
#[inline(always)]
fn product<const L: usize>(g: &[i64; L], p: &Padded, t: usize) -> i64 {
    let mut sum = 0i64;
    for k in 0..L {
        sum = sum.wrapping_add(g[k].wrapping_mul(p[COEFFICIENTS + t - k]));
    }
    sum
}

/// What a combination comes to before a division.
pub struct Sum {
    /// The sizes of the coefficients, `or`ed together: past C where one of them is.
    pub size: u64,
    /// Not zero where a degree is past 15.
    pub high: i64,
    /// Not zero where a coefficient past power 15 is no multiple of the integer.
    pub rest: i64,
}

/// The two multipliers of a combination, and the integer that is to divide it.
#[derive(Clone, Copy)]
pub struct Factors<'a> {
    pub g: &'a Multiplier,
    pub h: &'a Multiplier,
    pub integer: i64,
}

/// g times the row and h times the other one in the place of the row (SCOPE 2.41). Where multipliers and polynomials are short there is a
/// version without an inner loop.
pub fn combine(row: &mut Row, shape: &mut Shape, other: &Row, pivot: &Shape, factors: Factors) -> Sum {
    let long = shape.longest.max(pivot.longest);
    let length = factors.g.length.max(factors.h.length);
    match (length, long) {
        (1, ..=8) => combine_short::<1>(long, row, shape, other, pivot, factors),
        (2, ..=8) => combine_short::<2>(long, row, shape, other, pivot, factors),
        (3, ..=8) => combine_short::<3>(long, row, shape, other, pivot, factors),
        (4, ..=8) => combine_short::<4>(long, row, shape, other, pivot, factors),
        (1, _) => combine_by::<1>(row, shape, other, pivot, factors),
        (2, _) => combine_by::<2>(row, shape, other, pivot, factors),
        (3 | 4, _) => combine_by::<4>(row, shape, other, pivot, factors),
        (5 | 6, _) => combine_by::<6>(row, shape, other, pivot, factors),
        (7 | 8, _) => combine_by::<8>(row, shape, other, pivot, factors),
        _ => combine_by::<16>(row, shape, other, pivot, factors),
    }
}

fn combine_short<const L: usize>(
    long: u8,
    row: &mut Row,
    shape: &mut Shape,
    other: &Row,
    pivot: &Shape,
    factors: Factors,
) -> Sum {
    match long {
        0..=2 => combine_all::<L, 2>(row, shape, other, pivot, factors),
        3 => combine_all::<L, 3>(row, shape, other, pivot, factors),
        4 => combine_all::<L, 4>(row, shape, other, pivot, factors),
        5 => combine_all::<L, 5>(row, shape, other, pivot, factors),
        6 => combine_all::<L, 6>(row, shape, other, pivot, factors),
        _ => combine_all::<L, 8>(row, shape, other, pivot, factors),
    }
}

/// For multipliers of at most L coefficients and polynomials of at most W; no degree passes 15.
fn combine_all<const L: usize, const W: usize>(
    row: &mut Row,
    shape: &mut Shape,
    other: &Row,
    pivot: &Shape,
    factors: Factors,
) -> Sum {
    let g: [i64; L] = *factors.g.numbers.first_chunk().expect("16 of them");
    let h: [i64; L] = *factors.h.numbers.first_chunk().expect("16 of them");
    let one = factors.g.length == 1 && g[0] == 1;
    let both = if factors.h.length == 0 { 0 } else { pivot.mask };
    let mut size = 0;
    // Every polynomial of the row is worked on, but for those that are multiplied by 1 alone.
    shape.longest = if one { shape.longest } else { 0 };
    for at in Bits(if one { both } else { shape.mask | both }) {
        let (place, other) = (&mut row[at], &other[at]);
        let mut sum = [0i64; 12];
        for i in 0..W {
            for k in 0..L {
                sum[i + k] += g[k] * place[i] + h[k] * other[i];
            }
        }
        for (a, b) in place[..W + L - 1].iter_mut().zip(sum) {
            *a = b;
            size |= b.unsigned_abs();
        }
        shape.set(at, cut(place, W + L - 1));
    }
    Sum { size, high: 0, rest: 0 }
}

fn combine_by<const L: usize>(row: &mut Row, shape: &mut Shape, other: &Row, pivot: &Shape, factors: Factors) -> Sum {
    let (g, h): (&[i64; L], &[i64; L]) =
        (factors.g.numbers.first_chunk().expect("16 of them"), factors.h.numbers.first_chunk().expect("16 of them"));
    let (mut p, mut q): (Padded, Padded) = ([0; 48], [0; 48]);
    let (mut sum, integer) = (Sum { size: 0, high: 0, rest: 0 }, factors.integer);
    let one = factors.g.length == 1 && g[0] == 1;
    let both = if factors.h.length == 0 { 0 } else { pivot.mask };
    for at in Bits(if one { both } else { shape.mask | both }) {
        let place = &mut row[at];
        let ends = |length: usize, multiplier: &Multiplier| length + multiplier.length - 1;
        let end = match (shape.mask >> at & 1 == 1, both >> at & 1 == 1) {
            (true, true) => {
                pad(&mut p, place);
                pad(&mut q, &other[at]);
                let end = ends(shape.length(at), factors.g).max(ends(pivot.length(at), factors.h));
                fill(place, end, &mut sum, integer, |t| product(g, &p, t).wrapping_add(product(h, &q, t)));
                end
            }
            (true, false) => {
                pad(&mut p, place);
                let end = ends(shape.length(at), factors.g);
                fill(place, end, &mut sum, integer, |t| product(g, &p, t));
                end
            }
            _ => {
                pad(&mut q, &other[at]);
                let end = ends(pivot.length(at), factors.h);
                fill(place, end, &mut sum, integer, |t| product(h, &q, t));
                end
            }
        };
        shape.set(at, cut(place, end.min(COEFFICIENTS)));
    }
    sum
}

/// So many coefficients: the first 16 in their place, and of the others whether they are zero.
#[inline(always)]
fn fill(place: &mut Polynomial, end: usize, sum: &mut Sum, integer: i64, coefficient: impl Fn(usize) -> i64) {
    let low = end.min(COEFFICIENTS);
    for (t, a) in place[..low].iter_mut().enumerate() {
        *a = coefficient(t);
        sum.size |= a.unsigned_abs();
    }
    for t in COEFFICIENTS..end.min(2 * COEFFICIENTS) {
        let a = coefficient(t);
        sum.high |= a;
        sum.rest |= a % integer;
    }
}

/// The greatest integer that divides all coefficients of a row; 0 for a row that is zero.
pub fn row_content(row: &Row, shape: &Shape) -> u64 {
    let mut d = 0;
    for at in Bits(shape.mask) {
        d = content(d, &row[at][..shape.length(at)]);
        if d == 1 {
            break;
        }
    }
    d
}

/// Divides a row by an integer that divides it; the sizes of what is left, `or`ed together.
pub fn divide(row: &mut Row, shape: &Shape, d: i64) -> u64 {
    let (exact, mut size) = (Exact::new(d), 0);
    for at in Bits(shape.mask) {
        for a in &mut row[at][..shape.length(at)] {
            *a = exact.of(*a);
            size |= a.unsigned_abs();
        }
    }
    size
}

/// Divides a row by an integer that has to divide it; none where it does not.
pub fn divide_judged(row: &mut Row, shape: &Shape, d: i64) -> Option<u64> {
    let (exact, mut size, mut all_even) = (Exact::new(d), 0, true);
    for at in Bits(shape.mask) {
        for a in &mut row[at][..shape.length(at)] {
            let (quotient, even) = exact.judged(*a);
            all_even &= even;
            *a = quotient;
            size |= quotient.unsigned_abs();
        }
    }
    all_even.then_some(size)
}

/// A row goes up a block, n + 1 put for n, or down, n - 1 put for n; the block that it leaves is zero, and the one that is lost was
/// (SCOPE 2.61, 13.24). The sizes of its coefficients, `or`ed together.
pub fn shift<const UP: bool>(row: &mut Row, shape: &mut Shape, blocks: usize) -> u64 {
    let (entries, mut size) = (4 * blocks, 0);
    for k in 4..entries {
        let (from, to) = if UP { (k, k - 4) } else { (entries - 1 - k, entries - 1 - k + 4) };
        if shape.mask >> from & 1 == 1 {
            row[to] = row[from];
            shape.set(to, shape.length(from));
            move_by_one::<UP>(&mut row[to][..shape.length(to)], &mut size);
        } else if shape.mask >> to & 1 == 1 {
            row[to] = [0; COEFFICIENTS];
            shape.set(to, 0);
        }
    }
    let left = if UP { entries - 4 } else { 0 };
    for at in Bits(shape.mask & 15 << left) {
        row[at] = [0; COEFFICIENTS];
    }
    shape.mask &= !(15 << left);
    if shape.mask >> RIGHT == 1 {
        move_by_one::<UP>(&mut row[RIGHT][..shape.length(RIGHT)], &mut size);
    }
    size
}

/// n + 1 or n - 1 put for n, by repeated addition.
fn move_by_one<const UP: bool>(p: &mut [i64], size: &mut u64) {
    let Some((&mut last, below)) = p.split_last_mut() else { return };
    for low in 0..below.len() {
        let mut carried = last;
        for a in below[low..].iter_mut().rev() {
            carried = if UP { *a + carried } else { *a - carried };
            *a = carried;
        }
        *size |= below[low].unsigned_abs();
    }
}

/// Two rows of a store change their places.
pub fn swap(rows: &mut [Row], shapes: &mut [Shape], a: usize, b: usize) {
    let both = shapes[a].mask | shapes[b].mask;
    let [first, second] = rows.get_disjoint_mut([a, b]).expect("two rows");
    for at in Bits(both) {
        std::mem::swap(&mut first[at], &mut second[at]);
    }
    shapes.swap(a, b);
}
