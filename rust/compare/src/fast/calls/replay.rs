//! The leading run with its log, and the replay of a log (SCOPE 13).

use super::checks::Sizes;
use super::elimination::{Recorder, Relations, Store, Work};
use super::multipliers::{Listed, Multiplier};
use super::rows::{combine, divide_judged, length, Factors};
use super::run::{clear, number};
use super::{passed, rows_of_mut, Polynomial, C, COEFFICIENTS, RESULT};

/// Numbers of a step, and the most steps of a log (SCOPE 13.1, 13.11).
const STEP: usize = 4 + 2 * COEFFICIENTS;
const STEPS: usize = 1_000;
/// Numbers of the store for our own log (SCOPE 13.52), and of the result of a run with its log (SCOPE 13.55).
const LOG_STORE: usize = STEP * STEPS + 4;
const LOGGED: usize = RESULT + 1;

// ---- our own log ----

/// A log that is being written, at the front of its store.
struct Log<'a> {
    places: &'a mut [[i64; STEP]],
    steps: usize,
}

impl Log<'_> {
    fn next(&mut self, kind: i64, i: usize) -> &mut [i64; STEP] {
        let step = &mut self.places[self.steps];
        self.steps += 1;
        *step = [0; STEP];
        (step[0], step[1]) = (kind, i as i64 + 1);
        step
    }
}

impl Recorder for Log<'_> {
    fn exchange(&mut self, i: usize, j: usize) {
        self.next(1, i)[2] = j as i64 + 1;
    }

    fn combination(&mut self, i: usize, j: usize, integer: i64, g: &Polynomial, h: &Polynomial) {
        let step = self.next(2, i);
        (step[2], step[3]) = (j as i64 + 1, integer);
        step[4..20].copy_from_slice(g);
        step[20..].copy_from_slice(h);
    }

    fn up(&mut self, i: usize) {
        self.next(3, i);
    }

    fn drop(&mut self, i: usize) {
        self.next(5, i);
    }
}

/// Eleven numbers in `result`, as those of the exported function.
#[allow(clippy::too_many_arguments)]
pub fn run_logged(
    rows: &mut [i64],
    relations: &mut [i64],
    m: usize,
    equations: usize,
    l: i64,
    t: i64,
    count: usize,
    log: &mut [i64],
    result: &mut [i64],
) -> u8 {
    let sizes = Sizes::checked(m, equations, l, t, count);
    number(sizes.and_then(|sizes| logged(rows, relations, sizes, log, result)))
}

fn logged(
    rows: &mut [i64],
    relations: &mut [i64],
    sizes: Sizes,
    log: &mut [i64],
    result: &mut [i64],
) -> Result<(), u8> {
    sizes.lengths(rows, relations, log.len() >= LOG_STORE && result.len() >= LOGGED)?;
    let masks = sizes.numbers(rows, relations)?;
    let log = &mut log[..LOG_STORE];
    let (store, recorder) =
        (Store { numbers: relations, count: sizes.count }, Log { places: log.as_chunks_mut().0, steps: 0 });
    let mut work = Work::new(rows_of_mut(rows), &masks, &sizes, store, recorder);
    let ended = work.run::<false>(usize::MAX).1;
    let (count, steps) = (work.relations.count, work.recorder.steps);
    match ended {
        Ok(()) => {
            result[..RESULT].copy_from_slice(&work.numbers::<false>());
            result[RESULT] = steps as i64;
            work.put_in_order();
            let (order, behind) = log[STEP * steps..].split_at_mut(4);
            order.copy_from_slice(&result[2..6]);
            behind.fill(0);
        }
        Err(_) => {
            clear(rows, relations, &sizes, count);
            log.fill(0);
            result[..LOGGED].fill(0);
        }
    }
    ended
}

// ---- the replay ----

/// Ten numbers in `result`, as those of the exported function.
#[allow(clippy::too_many_arguments)]
pub fn replay(
    rows: &mut [i64],
    relations: &mut [i64],
    m: usize,
    equations: usize,
    l: i64,
    t: i64,
    count: usize,
    steps: usize,
    log: &[i64],
    result: &mut [i64],
) -> u8 {
    let sizes = Sizes::checked(m, equations, l, t, count);
    number(sizes.and_then(|sizes| replayed(rows, relations, sizes, steps, log, result)))
}

fn replayed(
    rows: &mut [i64],
    relations: &mut [i64],
    sizes: Sizes,
    steps: usize,
    log: &[i64],
    result: &mut [i64],
) -> Result<(), u8> {
    if steps > STEPS {
        return Err(2);
    }
    sizes.lengths(rows, relations, log.len() >= STEP * steps + 4 && result.len() >= RESULT)?;
    let masks = sizes.numbers(rows, relations)?;
    let (numbers, order) = log.split_at(STEP * steps);
    let store = Store { numbers: relations, count: sizes.count };
    let work = Work::new(rows_of_mut(rows), &masks, &sizes, store, ());
    let lowest = 4 * sizes.blocks() - 4;
    let mut replay = Replay { work, lowest };
    let ended = numbers.as_chunks().0.iter().try_for_each(|step| replay.step(step));
    let ended = ended.and_then(|()| replay.end(&order[..4], sizes.m));
    let mut work = replay.work;
    match ended {
        Ok(()) => {
            result[..RESULT].copy_from_slice(&work.numbers::<false>());
            work.put_in_order();
        }
        Err(_) => {
            let count = work.relations.count();
            clear(rows, relations, &sizes, count);
            result[..RESULT].fill(0);
        }
    }
    ended
}

struct Replay<'a> {
    work: Work<'a, Store<'a>, ()>,
    /// The first entry of block t.
    lowest: usize,
}

/// 13 where something does not hold.
fn right(holds: bool) -> Result<(), u8> {
    if holds {
        Ok(())
    } else {
        Err(13)
    }
}

fn all_zero(numbers: &[i64]) -> bool {
    numbers.iter().fold(0, |all, a| all | a) == 0
}

impl Replay<'_> {
    /// The form of a step, its condition, its limits (SCOPE 13.26).
    fn step(&mut self, step: &[i64; STEP]) -> Result<(), u8> {
        match step[0] {
            1 => {
                right(all_zero(&step[3..]))?;
                let (i, j) = self.two(step)?;
                self.work.exchange(i, j);
                Ok(())
            }
            2 => self.combination(step),
            3..=5 => {
                right(all_zero(&step[2..]))?;
                let i = self.present(step[1])?;
                self.one_row(step[0], i)
            }
            _ => Err(13),
        }
    }

    /// The row of a number, from 0, if it is present.
    fn present(&self, i: i64) -> Result<usize, u8> {
        let i = (i as usize).wrapping_sub(1);
        right(i < self.work.equations)?;
        Ok(i)
    }

    fn two(&self, step: &[i64; STEP]) -> Result<(usize, usize), u8> {
        right(step[1] != step[2])?;
        Ok((self.present(step[1])?, self.present(step[2])?))
    }

    /// Up, down or drop (SCOPE 13.23 to 13.25).
    fn one_row(&mut self, kind: i64, i: usize) -> Result<(), u8> {
        let mask = self.work.mask(i);
        match kind {
            3 => {
                right(mask & 15 == 0)?;
                self.work.shifts += 1;
                self.work.shift_row::<true>(i)
            }
            4 => {
                right(mask >> self.lowest & 15 == 0)?;
                self.work.shift_row::<false>(i)
            }
            _ => {
                right(mask == 0)?;
                self.work.drop_row(i);
                Ok(())
            }
        }
    }

    /// SCOPE 13.22, 13.27. What is not even comes before the limits: 9, 7, 8.
    fn combination(&mut self, step: &[i64; STEP]) -> Result<(), u8> {
        let integer = step[3];
        let faults = step[4..].iter().fold(0, |faults, &a| passed(faults, a, C));
        right(integer > 0 && faults >= 0)?;
        let (i, j) = self.two(step)?;
        let (g, h) = (multiplier(&step[4..20]), multiplier(&step[20..]));
        right(g.length > 0)?;
        let listed = self.work.list_row(i, &Listed::of(g.coefficients()));
        let (row, shape, other, pivot) = self.work.two_rows(i, j);
        let sum = combine(row, shape, other, pivot, Factors { g: &g, h: &h, integer });
        right(sum.rest == 0)?;
        let size = if integer == 1 { sum.size } else { divide_judged(row, shape, integer).ok_or(13)? };
        listed?;
        if sum.high != 0 {
            return Err(7);
        }
        if size > C as u64 {
            return Err(8);
        }
        Ok(())
    }

    /// The order and the leading block (SCOPE 13.31, 13.32).
    fn end(&mut self, order: &[i64], m: usize) -> Result<(), u8> {
        let w = self.work.equations;
        right(w <= m)?;
        let (used, unused) = order.split_at(w);
        right(all_zero(unused))?;
        let (mut columns, mut before) = ([0; 4], 0);
        for (i, &c) in used.iter().enumerate() {
            right((c as usize).wrapping_sub(1) < m)?;
            let (column, entries) = (c as u8 - 1, self.work.entries::<false>(i));
            right(entries & before == 0 && entries >> column & 1 == 1)?;
            columns[i] = column;
            before |= 1 << column;
        }
        self.work.settle(&columns[..w]);
        Ok(())
    }
}

fn multiplier(numbers: &[i64]) -> Multiplier {
    let numbers: Polynomial = numbers.try_into().expect("16 of them");
    Multiplier { numbers, length: length(&numbers) }
}
