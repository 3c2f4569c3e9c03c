//! The leading run by steps (02, U9).
//!
//! Whatever the budget, every state that a run comes to is written down, up to its end or its refusal; the budget then says
//! which of them is the answer.

use crate::common_roots::reduced;
use crate::fault::{is, Fault};
use crate::polynomial::{greatest_divisor, Polynomial};
use crate::refusal::Refusal;
use crate::roots::{integer_roots, occurrences};
use crate::row::Row;
use crate::system::{Relation, System};
use crate::{C, DEGREE, RELATIONS};

/// A run between two calls: the rows that are left and the relations, c(1)..c(w) of the settled rows, the shifts so far (SCOPE 11.11).
#[derive(Clone, Debug, PartialEq, Eq)]
pub struct State {
    pub system: System,
    pub columns: Vec<usize>,
    pub shifts: usize,
}

/// Where a run with a budget has come to.
#[derive(Clone, Debug, PartialEq, Eq)]
pub struct Stop {
    pub steps: usize,
    pub finished: bool,
    pub state: State,
}

/// A step that was refused, and how many came before it (SCOPE 11.3).
#[derive(Clone, Copy, Debug, PartialEq, Eq)]
pub struct Refused {
    pub steps: usize,
    pub refusal: Refusal,
}

/// The state before the first step: no settled row, no shift (SCOPE 11.15).
pub fn prepared(system: System) -> State {
    State { system, columns: Vec::new(), shifts: 0 }
}

/// At most so many steps from a state (SCOPE 11.1).
pub fn run_steps(state: &State, budget: usize, fault: Option<Fault>) -> Result<Stop, Refused> {
    let mut walk = Walk { now: state.clone(), states: vec![state.clone()], fault };
    let refusal = walk.finish().err();
    // The steps that can be taken, and those that are (SCOPE 11.3, 11.4).
    let most = walk.states.len() - 1;
    let budget = if is(fault, Fault::BudgetNoneSteps) { budget.max(1) } else { budget };
    let steps = budget.min(most);
    if let Some(refusal) = refusal {
        // The step that is refused has to be within the budget.
        if budget > most || budget == most && is(fault, Fault::RefusedPastBudget) {
            let steps = match fault {
                Some(Fault::RefusedStepCounted) => steps + 1,
                Some(Fault::RefusedStepsForgotten) => 0,
                _ => steps,
            };
            return Err(Refused { steps, refusal });
        }
    }
    let state = walk.states.swap_remove(steps);
    let finished = state.is_finished() && (budget > most || !is(fault, Fault::EndFoundByStep));
    let steps = match fault {
        Some(Fault::BudgetReported) => budget.min(252),
        Some(Fault::DoneCounted) => steps + (budget > most) as usize,
        _ => steps,
    };
    Ok(Stop { steps, finished, state })
}

impl State {
    /// Whether every row is settled (SCOPE 11.4).
    pub fn is_finished(&self) -> bool {
        self.columns.len() >= self.system.rows.len()
    }

    /// The entry of row i in block l at the column of the settled row j, both counted from 0.
    fn leading(&self, i: usize, j: usize) -> Polynomial {
        self.system.rows[i].entry(self.system.sizes.l, self.columns[j])
    }

    /// Whether each settled row is nonzero at its own column and zero at the earlier ones (SCOPE 11.24).
    pub fn is_triangular(&self, fault: Option<Fault>) -> bool {
        let settled = self.columns.len().min(self.system.rows.len());
        (0..settled).all(|j| {
            let lowest = self.system.rows[j].columns(self.system.sizes.l).next();
            let diagonal = !self.leading(j, j).is_zero() || is(fault, Fault::DiagonalZero);
            let earlier = (0..j).all(|k| self.leading(j, k).is_zero()) || is(fault, Fault::EarlierEntries);
            diagonal && earlier && (lowest == Some(self.columns[j]) || !is(fault, Fault::LowestColumns))
        })
    }

    /// The largest integer root of the diagonal polynomials, and how often it occurs in all of them together (SCOPE 2.81, 2.83).
    pub fn report(&self) -> (Option<i128>, usize) {
        let settled = 0..self.columns.len().min(self.system.rows.len());
        let diagonal: Vec<Polynomial> = settled.map(|j| self.leading(j, j)).filter(|p| !p.is_zero()).collect();
        let root = diagonal.iter().flat_map(integer_roots).max();
        let times = root.map_or(0, |r| diagonal.iter().map(|p| occurrences(p, r)).sum());
        (root, times)
    }
}

/// The states of a run, the first one too, and the one that is being changed.
struct Walk {
    now: State,
    states: Vec<State>,
    fault: Option<Fault>,
}

impl Walk {
    fn finish(&mut self) -> Result<(), Refusal> {
        while !self.now.is_finished() {
            self.turn()?;
        }
        Ok(())
    }

    /// What was done since the last state is one step.
    fn step(&mut self) {
        self.states.push(self.now.clone());
    }

    /// The same; with the fault it belongs to the step before.
    fn step_of_its_own(&mut self, fault: Fault) {
        if is(self.fault, fault) {
            self.states.pop();
        }
        self.step();
    }

    /// The turn of the row behind the settled ones, until it is settled or dropped (SCOPE 11.2).
    fn turn(&mut self) -> Result<(), Refusal> {
        let i = self.now.columns.len();
        inconsistent(&self.now.system.rows[i])?;
        if self.dropped(i) {
            self.step();
            return Ok(());
        }
        loop {
            for j in 0..i {
                if self.now.leading(i, j).is_zero() {
                    continue;
                }
                self.combine(i, j)?;
                self.step();
                if is(self.fault, Fault::InconsistentNextStep) {
                    inconsistent(&self.now.system.rows[i])?;
                }
                // A row that has become zero is dropped by the next step (SCOPE 2.45).
                if self.dropped(i) {
                    self.step_of_its_own(Fault::DroppedAtOnce);
                    return Ok(());
                }
            }
            let lowest = self.now.system.rows[i].columns(self.now.system.sizes.l).next();
            if let Some(column) = lowest {
                self.now.columns.push(column);
                self.step_of_its_own(Fault::SettlingNoStep);
                return Ok(());
            }
            self.shift(i)?;
            self.step_of_its_own(Fault::ShiftNoStep);
        }
    }

    /// Whether row i was zero on both sides, so that it is gone and the later ones have moved up (02, U6).
    fn dropped(&mut self, i: usize) -> bool {
        let rows = &mut self.now.system.rows;
        let zero = rows[i].is_zero();
        if zero {
            rows.remove(i);
        }
        zero
    }

    /// Rules 2 to 4 for row i and the settled row j, the exchange included; 9, 7, 8, 10 (SCOPE 2.47).
    fn combine(&mut self, i: usize, j: usize) -> Result<(), Refusal> {
        let l = self.now.system.sizes.l;
        let wider = self.now.system.rows[j].width(l) > self.now.system.rows[i].width(l);
        if wider {
            self.now.system.rows.swap(i, j);
            if is(self.fault, Fault::ExchangeStep) {
                self.step();
            }
        }
        let (g, h) = multipliers(self.now.leading(j, j), self.now.leading(i, j));
        let System { rows, relations, .. } = &mut self.now.system;
        relations.extend(integer_roots(&g).into_iter().map(|n0| Relation { n0, row: rows[i].clone() }));
        if relations.len() > RELATIONS {
            return Err(Refusal::Relations);
        }
        let combined = rows[i].combined(&g, &rows[j], &h);
        let content = combined.content().max(1);
        let row = combined.mapped(|s| s, |p| p.over(content));
        if row.degree() > DEGREE {
            return Err(Refusal::Degree);
        }
        if row.size() > C {
            return Err(Refusal::Coefficient);
        }
        if !is(self.fault, Fault::InconsistentNextStep) {
            inconsistent(&row)?;
        }
        rows[i] = row;
        Ok(())
    }

    /// Rule 6 (SCOPE 2.61, 2.63).
    fn shift(&mut self, i: usize) -> Result<(), Refusal> {
        let row = self.now.system.rows[i].shifted();
        if row.size() > C {
            return Err(Refusal::Coefficient);
        }
        self.now.system.rows[i] = row;
        self.now.shifts += 1;
        Ok(())
    }
}

/// g and h for a of row j and b of row i (SCOPE 2.24, 2.25, 2.27).
fn multipliers(a: Polynomial, b: Polynomial) -> (Polynomial, Polynomial) {
    let (a, b) = reduced((a, b));
    let d = greatest_divisor(a.content(), b.content());
    let d = if a.highest() < 0 { -d } else { d };
    (a.over(d), b.over(-d))
}

/// 10 for a row that is zero on the left alone (SCOPE 2.12, 2.48).
fn inconsistent(row: &Row) -> Result<(), Refusal> {
    if row.is_left_zero() && !row.is_zero() {
        return Err(Refusal::Inconsistent);
    }
    Ok(())
}
