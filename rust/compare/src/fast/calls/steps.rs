//! The leading run by steps (SCOPE 11).

use super::checks::Sizes;
use super::elimination::{Store, Work};
use super::run::{clear, number};
use super::{rows_of_mut, EQUATIONS, RESULT};

/// Numbers of a state, and of the result of a run with a budget (SCOPE 11.12, 11.44).
const STATE: usize = 11;
const STEPS: usize = 2 + RESULT;

/// Eleven numbers in `state`, as those of the exported function.
#[allow(clippy::too_many_arguments)]
pub fn prepare(
    rows: &[i64],
    relations: &[i64],
    m: usize,
    equations: usize,
    l: i64,
    t: i64,
    count: usize,
    state: &mut [i64],
) -> u8 {
    let prepared = Sizes::checked(m, equations, l, t, count).and_then(|sizes| {
        sizes.lengths(rows, relations, state.len() >= STATE)?;
        sizes.numbers(rows, relations)
    });
    if prepared.is_ok() {
        state[..STATE].copy_from_slice(&[m as i64, equations as i64, l, t, count as i64, 0, 0, 0, 0, 0, 0]);
    }
    number(prepared.map(drop))
}

/// A state that is handed in, its sizes in their ranges.
struct Held {
    sizes: Sizes,
    settled: usize,
    columns: [u8; 4],
    shifts: usize,
}

impl Held {
    /// 11 for a size out of its range (SCOPE 11.22); a negative count is one.
    fn checked(numbers: &[i64; STATE]) -> Result<Held, u8> {
        let &[m, equations, l, t, count, settled, ref order @ .., shifts] = numbers;
        let sizes = Sizes::checked(m as usize, equations as usize, l, t, count as usize).map_err(|_| 11)?;
        let most = sizes.m.min(sizes.equations) as u64;
        if settled as u64 > most || shifts as u64 > (EQUATIONS * (sizes.blocks() - 1)) as u64 {
            return Err(11);
        }
        let settled = settled as usize;
        let (used, unused) = order.split_at(settled);
        let right = used.iter().all(|&c| (c as u64).wrapping_sub(1) < m as u64) && unused.iter().all(|&c| c == 0);
        if !right {
            return Err(11);
        }
        let mut columns = [0; 4];
        columns.iter_mut().zip(used).for_each(|(place, &c)| *place = c as u8 - 1);
        Ok(Held { sizes, settled, columns, shifts: shifts as usize })
    }

    /// 11 for a settled row that is not as one has to be (SCOPE 11.24).
    fn settled_rows(&self, masks: &[u32; EQUATIONS]) -> Result<(), u8> {
        let mut before = 0;
        for (mask, column) in masks.iter().zip(&self.columns[..self.settled]) {
            if mask & before != 0 || mask >> column & 1 == 0 {
                return Err(11);
            }
            before |= 1 << column;
        }
        Ok(())
    }
}

/// Twelve numbers in `result`, as those of the exported function.
pub fn run_steps(rows: &mut [i64], relations: &mut [i64], state: &mut [i64], budget: usize, result: &mut [i64]) -> u8 {
    number(steps(rows, relations, state, budget, result))
}

fn steps(
    rows: &mut [i64],
    relations: &mut [i64],
    state: &mut [i64],
    budget: usize,
    result: &mut [i64],
) -> Result<(), u8> {
    let state = state.first_chunk_mut::<STATE>().ok_or(1)?;
    let held = Held::checked(state)?;
    let sizes = held.sizes;
    sizes.lengths(rows, relations, result.len() >= STEPS)?;
    let masks = sizes.numbers(rows, relations).map_err(|_| 11)?;
    held.settled_rows(&masks.rows)?;
    let store = Store { numbers: relations, count: sizes.count };
    let mut work = Work::new(rows_of_mut(rows), &masks, &sizes, store, ());
    work.settle(&held.columns[..held.settled]);
    work.shifts = held.shifts;
    let (steps, ended) = work.run::<false>(budget);
    let mut numbers = [0; STEPS];
    numbers[0] = steps as i64;
    match ended {
        Ok(()) => {
            if work.is_finished() {
                numbers[1] = 1;
                numbers[2..].copy_from_slice(&work.numbers::<false>());
            }
            (state[1], state[4], state[5]) = (work.equations as i64, work.relations.count as i64, work.settled as i64);
            state[6..10].copy_from_slice(&work.order());
            state[10] = work.shifts as i64;
            work.put_in_order();
        }
        Err(_) => {
            let count = work.relations.count;
            clear(rows, relations, &sizes, count);
            *state = [0; STATE];
        }
    }
    result[..STEPS].copy_from_slice(&numbers);
    ended
}
