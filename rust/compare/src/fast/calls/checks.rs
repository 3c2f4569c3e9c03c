//! The checks before the work: sizes (2), lengths (1), numbers (5) (SCOPE 3.31).

use super::{rows_of, Bits, Row, C, EQUATIONS, LEFT, RELATION, RELATIONS, RELATION_STORE, RIGHT, ROW};

/// The sizes and the relation count of a call, in their ranges.
#[derive(Clone, Copy)]
pub struct Sizes {
    pub m: usize,
    pub equations: usize,
    pub l: i64,
    pub t: i64,
    pub count: usize,
}

impl Sizes {
    /// 2 for one out of its range (SCOPE 3.32).
    pub fn checked(m: usize, equations: usize, l: i64, t: i64, count: usize) -> Result<Sizes, u8> {
        let blocks = -64 <= t && t <= l && l <= 64 && l - t <= 4;
        if blocks && m.wrapping_sub(1) < 4 && equations <= EQUATIONS && count <= RELATIONS {
            Ok(Sizes { m, equations, l, t, count })
        } else {
            Err(2)
        }
    }

    /// D + 1
    pub fn blocks(&self) -> usize {
        (self.l - self.t + 1) as usize
    }

    /// The polynomials of a row that are in use.
    fn used(&self) -> u32 {
        let columns = 0x11111 * ((1 << self.m) - 1);
        let blocks = (1 << (4 * self.blocks())) - 1;
        columns & blocks & LEFT | 1 << RIGHT
    }

    pub fn row_store(&self) -> usize {
        self.equations * ROW
    }

    /// 1 for a row store or a relation store that is too short, or where another store is (SCOPE 3.33).
    pub fn lengths(&self, rows: &[i64], relations: &[i64], others: bool) -> Result<(), u8> {
        if rows.len() >= self.row_store() && relations.len() >= RELATION_STORE && others {
            Ok(())
        } else {
            Err(1)
        }
    }

    /// The masks of rows and relations; 5 for a number past ±C, or one that is not 0 at an unused position (SCOPE 3.34).
    pub fn numbers(&self, rows: &[i64], relations: &[i64]) -> Result<Masks, u8> {
        let used = self.used();
        let mut masks = Masks { rows: [0; EQUATIONS], relations: [0; RELATIONS] };
        for (mask, row) in masks.rows.iter_mut().zip(&rows_of(rows)[..self.equations]) {
            *mask = mask_of(row, used).ok_or(5)?;
        }
        let (listed, unused) = relations[..RELATION_STORE].split_at(self.count * RELATION);
        for (mask, relation) in masks.relations.iter_mut().zip(listed.as_chunks().0) {
            *mask = mask_of(relation_row(relation), used).filter(|_| past(0, relation[0]) >> 29 == 0).ok_or(5)?;
        }
        if all_zero(unused) {
            Ok(masks)
        } else {
            Err(5)
        }
    }
}

/// Which polynomials of each row and of each relation are not zero.
#[derive(Clone, Copy)]
pub struct Masks {
    pub rows: [u32; EQUATIONS],
    pub relations: [u32; RELATIONS],
}

/// A bit from 29 on where a number is past ±C, or where one of those before it was.
#[inline(always)]
fn past(before: u64, a: i64) -> u64 {
    before | a.wrapping_add(C) as u64 | a.wrapping_add(C + 1) as u64
}

/// The row of a relation.
pub fn relation_row(relation: &[i64; RELATION]) -> &Row {
    &rows_of(&relation[1..])[0]
}

/// Which polynomials of a row are not zero, where its numbers are right. The unused ones have to be zero, and of the others those that are
/// not are looked at again, half of each where all of them are short.
#[inline]
fn mask_of(row: &Row, used: u32) -> Option<u32> {
    let any = |numbers: &[i64]| numbers.iter().fold(0, |all, a| all | a);
    let (mut mask, mut high) = (0, 0);
    for (at, p) in row.iter().enumerate() {
        let upper = any(&p[8..]);
        high |= upper;
        mask |= ((any(&p[..8]) | upper != 0) as u32) << at;
    }
    let faults = if high == 0 { faults::<8>(row, mask) } else { faults::<16>(row, mask) };
    (mask & !used == 0 && faults >> 29 == 0).then_some(mask)
}

/// Of the first coefficients of some polynomials.
#[inline(always)]
fn faults<const COUNT: usize>(row: &Row, mask: u32) -> u64 {
    Bits(mask).fold(0, |faults, at| row[at][..COUNT].iter().fold(faults, |faults, &a| past(faults, a)))
}

/// By pieces that are `or`ed together.
fn all_zero(numbers: &[i64]) -> bool {
    let (pieces, rest) = numbers.as_chunks::<128>();
    let zero = |piece: &[i64]| piece.iter().fold(0, |all, a| all | a) == 0;
    pieces.iter().all(|piece| zero(piece)) && zero(rest)
}
