//! The calls on lent stores, written for speed: the same stores, checks, results and refusals as the exported functions, for the benchmark
//! to divide by. A run works in the row store itself. Beside it are kept a mask of the polynomials of each row that are not zero and, from
//! the first time that a row is worked with, their lengths; rows that change places do so in a list of places. The trailing side is worked
//! as it is, without a mirror: its leading block is the lowest one, and rows are shifted down.

mod checks;
mod elimination;
mod multipliers;
mod records;
mod replay;
mod rows;
mod run;
mod solutions;
mod steps;
#[cfg(test)]
mod tests;

pub use records::check_record;
pub use replay::{replay, run_logged};
pub use run::{run_leading, run_trailing};
pub use solutions::solutions;
pub use steps::{prepare, run_steps};

use super::roots::roots;
use super::C;

/// Coefficients of a polynomial in a store, from power 0 (SCOPE 3.2).
const COEFFICIENTS: usize = 16;
/// Polynomials of a row: five blocks of four columns, and the right side behind them (SCOPE 3.2).
const POLYNOMIALS: usize = 21;
/// The right side of a row.
const RIGHT: usize = 20;
/// Of a mask the polynomials that are not the right side.
const LEFT: u32 = (1 << RIGHT) - 1;
/// Numbers of a row, of a relation and of the relation store (SCOPE 3.2, 3.4, 3.11).
const ROW: usize = POLYNOMIALS * COEFFICIENTS;
const RELATION: usize = 1 + ROW;
const RELATIONS: usize = 16;
const RELATION_STORE: usize = RELATIONS * RELATION;
const EQUATIONS: usize = 6;
/// Numbers of the result of a run (SCOPE 3.52).
const RESULT: usize = 10;

type Polynomial = [i64; COEFFICIENTS];
type Row = [Polynomial; POLYNOMIALS];

/// The rows of a store.
fn rows_of(store: &[i64]) -> &[Row] {
    store.as_chunks::<COEFFICIENTS>().0.as_chunks::<POLYNOMIALS>().0
}

fn rows_of_mut(store: &mut [i64]) -> &mut [Row] {
    store.as_chunks_mut::<COEFFICIENTS>().0.as_chunks_mut::<POLYNOMIALS>().0
}

/// Negative where a number is past the limit on either side, or where one of those before it was.
#[inline(always)]
fn passed(before: i64, a: i64, limit: i64) -> i64 {
    before | a.wrapping_add(limit) | limit.wrapping_sub(a)
}

/// The places of the bits of a mask, from the lowest.
#[derive(Clone, Copy)]
struct Bits(u32);

impl Iterator for Bits {
    type Item = usize;

    #[inline(always)]
    fn next(&mut self) -> Option<usize> {
        if self.0 == 0 {
            return None;
        }
        let bit = self.0.trailing_zeros() as usize;
        self.0 &= self.0 - 1;
        Some(bit)
    }
}
