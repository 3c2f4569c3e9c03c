//! `prepare` and `run_steps` on lent stores (02, U9).

use crate::fault::{is, Fault};
use crate::refusal::Refusal;
use crate::steps::{prepared, run_steps, Refused, State, Stop};
use crate::stores::{checked, order_numbers, row_store, store, zero_needed, Asked, RELATION_STORE, RESULT};
use crate::system::Sizes;
use crate::EQUATIONS;

/// Numbers of a state: m, equations, l, t, relations, settled rows, c(1) to c(4), shifts (SCOPE 11.12).
pub const STATE: usize = 11;
/// Numbers of the answer: the steps, whether the run is finished, and those of a whole run.
pub const STEPS: usize = 2 + RESULT;

/// Makes the checks of a run, the state's length among the lengths, and writes the state before the first step (SCOPE 11.16).
pub fn prepare_on_stores(rows: &[i64], relations: &[i64], asked: Asked, state: &mut [i64], fault: Option<Fault>) -> u8 {
    if state.len() < STATE && is(fault, Fault::PrepareStateFirst) {
        return Refusal::Short.number();
    }
    match checked(rows, relations, asked, &[(state.len(), STATE)], fault) {
        Ok(system) => {
            state[..STATE].copy_from_slice(&state_numbers(&prepared(system)));
            0
        }
        Err(refusal) => refusal.number(),
    }
}

/// At most so many steps of the run that the stores and the state hold, which hold it afterwards too. The answer is the steps, 1 or 0 for
/// a finished run, and its ten numbers or zeros. A refusal by a step makes everything zero but the steps (SCOPE 11.31 to 11.35).
pub fn run_steps_on_stores(
    rows: &mut [i64],
    relations: &mut [i64],
    state: &mut [i64],
    budget: usize,
    result: &mut [i64],
    fault: Option<Fault>,
) -> u8 {
    let before = match handed_in(rows, relations, state, result.len(), fault) {
        Ok(before) => before,
        Err(refusal) => return refusal.number(),
    };
    let need = row_store(before.system.rows.len());
    let mut numbers = [0; STEPS];
    // Only with the fault is such a state handed in; it is then refused as by a second step.
    let wrong = is(fault, Fault::FoundAfterStep) && budget > 0 && !before.is_triangular(fault);
    let stop =
        if wrong { Err(Refused { steps: 1, refusal: Refusal::State }) } else { run_steps(&before, budget, fault) };
    let number = match stop {
        Ok(mut stop) => {
            if is(fault, Fault::ShiftsAnew) {
                stop.state.shifts -= before.shifts;
            }
            store(&stop.state.system, rows, relations);
            // The places of dropped rows hold 0 (SCOPE 11.33).
            if !is(fault, Fault::FreedKept) {
                rows[row_store(stop.state.system.rows.len())..need].fill(0);
            }
            let equations = state[1];
            state[..STATE].copy_from_slice(&state_numbers(&stop.state));
            if is(fault, Fault::EquationsKept) {
                state[1] = equations;
            }
            numbers = stop_numbers(&stop, fault);
            0
        }
        Err(Refused { steps, refusal }) => {
            zero_needed(rows, need, fault);
            zero_needed(relations, RELATION_STORE, fault);
            if !is(fault, Fault::RefusedStateKept) {
                zero_needed(state, STATE, fault);
            }
            if is(fault, Fault::RefusedResultKept) {
                return refusal.number();
            }
            numbers[0] = steps as i64;
            refusal.number()
        }
    };
    result.iter_mut().zip(numbers).for_each(|(place, number)| *place = number);
    number
}

fn state_numbers(state: &State) -> [i64; STATE] {
    let (Sizes { m, l, t }, c) = (state.system.sizes, order_numbers(&state.columns));
    let (equations, relations) = (state.system.rows.len() as i64, state.system.relations.len() as i64);
    let (settled, shifts) = (state.columns.len() as i64, state.shifts as i64);
    [m as i64, equations, l, t, relations, settled, c[0], c[1], c[2], c[3], shifts]
}

fn stop_numbers(stop: &Stop, fault: Option<Fault>) -> [i64; STEPS] {
    let mut numbers = [0; STEPS];
    (numbers[0], numbers[1]) = (stop.steps as i64, stop.finished as i64);
    if stop.finished || is(fault, Fault::ResultBeforeEnd) {
        let state = &stop.state;
        let (c, (root, times)) = (order_numbers(&state.columns), state.report());
        let (relations, rank) = (state.system.relations.len() as i64, state.columns.len() as i64);
        let (any, root) = (root.is_some() as i64, root.unwrap_or(0) as i64);
        let run = [relations, state.shifts as i64, c[0], c[1], c[2], c[3], any, root, rank, times as i64];
        numbers[2..].copy_from_slice(&run);
    }
    numbers
}

/// The state that is handed in, if nothing is refused: one of fewer than eleven numbers is 1; then its sizes (11), the lengths (1), the
/// numbers in the stores (11), and the settled rows (11) (SCOPE 11.21).
fn handed_in(
    rows: &[i64],
    relations: &[i64],
    state: &[i64],
    result: usize,
    fault: Option<Fault>,
) -> Result<State, Refusal> {
    let result_need = if is(fault, Fault::StepsResultEleven) { STEPS - 1 } else { STEPS };
    let short_state = if is(fault, Fault::ShortStateEleven) { Refusal::State } else { Refusal::Short };
    let numbers = state.first_chunk().ok_or(short_state)?;
    let short = relations.len() < RELATION_STORE || result < result_need;
    if short && is(fault, Fault::StateLengthsFirst) {
        return Err(Refusal::Short);
    }
    let out_of_range = if is(fault, Fault::StateSizesTwo) { Refusal::Range } else { Refusal::State };
    let (asked, columns, shifts) = sizes_held(numbers, fault).ok_or(out_of_range)?;
    let system = checked(rows, relations, asked, &[(result, result_need)], fault).map_err(|refusal| match refusal {
        Refusal::Number if !is(fault, Fault::StateNumbersFive) => Refusal::State,
        other => other,
    })?;
    let state = State { system, columns, shifts };
    if state.is_triangular(fault) || is(fault, Fault::FoundAfterStep) {
        Ok(state)
    } else {
        Err(Refusal::State)
    }
}

/// The sizes, the settled columns and the shifts, where all of them are in their range (SCOPE 11.22).
fn sizes_held(numbers: &[i64; STATE], fault: Option<Fault>) -> Option<(Asked, Vec<usize>, usize)> {
    let &[m, equations, l, t, count, settled, ref columns @ .., shifts] = numbers;
    let least = if is(fault, Fault::NegativeCountZero) { 0 } else { i64::MIN };
    let size = |number: i64| usize::try_from(number.max(least)).ok();
    let asked = Asked { m: size(m)?, equations: size(equations)?, l, t, count: size(count)? };
    let d = asked.sizes(None).ok()?.d();
    let settled_most = if is(fault, Fault::SettledPastRows) { m } else { m.min(equations) };
    let settled = size(settled).filter(|_| settled <= settled_most)?;
    let (used, unused) = columns.split_at(settled);
    let columns_right = used.iter().all(|c| (1..=m).contains(c));
    let zeros_behind = unused.iter().all(|&c| c == 0) || is(fault, Fault::ColumnsPastSettled);
    let shifts_most = match fault {
        Some(Fault::ShiftsUnlimited) => i64::MAX,
        Some(Fault::ShiftsOfRowsLeft) => equations * d,
        _ => EQUATIONS as i64 * d,
    };
    if columns_right && zeros_behind && (0..=shifts_most).contains(&shifts.max(least)) {
        Some((asked, used.iter().map(|&c| c as usize).collect(), shifts.max(0) as usize))
    } else {
        None
    }
}
