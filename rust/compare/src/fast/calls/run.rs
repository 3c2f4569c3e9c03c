//! A run on stores (SCOPE 3.21).

use super::checks::Sizes;
use super::elimination::{Store, Work};
use super::{rows_of_mut, RELATION, RESULT};

/// Ten numbers in `result`, as those of the exported function.
#[allow(clippy::too_many_arguments)]
pub fn run_leading(
    rows: &mut [i64],
    relations: &mut [i64],
    m: usize,
    equations: usize,
    l: i64,
    t: i64,
    count: usize,
    result: &mut [i64],
) -> u8 {
    number(Sizes::checked(m, equations, l, t, count).and_then(|sizes| run::<false>(rows, relations, sizes, result)))
}

/// As [`run_leading`], for the trailing side.
#[allow(clippy::too_many_arguments)]
pub fn run_trailing(
    rows: &mut [i64],
    relations: &mut [i64],
    m: usize,
    equations: usize,
    l: i64,
    t: i64,
    count: usize,
    result: &mut [i64],
) -> u8 {
    number(Sizes::checked(m, equations, l, t, count).and_then(|sizes| run::<true>(rows, relations, sizes, result)))
}

/// 0, or the refusal.
pub fn number(answer: Result<(), u8>) -> u8 {
    answer.err().unwrap_or(0)
}

fn run<const TRAILING: bool>(
    rows: &mut [i64],
    relations: &mut [i64],
    sizes: Sizes,
    result: &mut [i64],
) -> Result<(), u8> {
    sizes.lengths(rows, relations, result.len() >= RESULT)?;
    let masks = sizes.numbers(rows, relations)?;
    let store = Store { numbers: relations, count: sizes.count };
    let mut work = Work::new(rows_of_mut(rows), &masks, &sizes, store, ());
    match work.run::<TRAILING>(usize::MAX).1 {
        Ok(()) => {
            result[..RESULT].copy_from_slice(&work.numbers::<TRAILING>());
            work.put_in_order();
            Ok(())
        }
        Err(refusal) => {
            let count = work.relations.count;
            clear(rows, relations, &sizes, count);
            result[..RESULT].fill(0);
            Err(refusal)
        }
    }
}

/// On a refusal during the work the needed parts become zero (SCOPE 6.33): the rows, and the relation places that were used.
pub fn clear(rows: &mut [i64], relations: &mut [i64], sizes: &Sizes, count: usize) {
    rows[..sizes.row_store()].fill(0);
    relations[..count * RELATION].fill(0);
}
