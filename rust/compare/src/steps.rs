//! Runs by steps (02, U9): systems with budgets, states that are handed in, most of them made wrong, and what is said of a budget that is
//! divided over several calls.

use crate::cases::{asked_of, damage_number, lent, Answer, Stores};
use crate::random::Random;
use crate::subject::{Outside, Subject};
use crate::systems::system;
use outside::elimination::Side;
use outside::step_calls::{STATE, STEPS};
use outside::stores::{Asked, COEFFICIENTS, RELATION_STORE, RESULT, ROW};

/// A run never takes more steps (SCOPE 11.26).
pub const MOST_STEPS: i64 = 252;

// ---- calls ----

/// A run with each of the budgets, on what the one before it has left, after a refusal too.
pub fn in_parts(subject: &dyn Subject, stores: &Stores, state: &[i64], budgets: &[usize]) -> Vec<Answer> {
    let (mut stores, mut state) = (stores.clone(), state.to_vec());
    let mut answers = Vec::new();
    for &budget in budgets {
        let Stores { rows, relations, result } = &mut stores;
        let number = subject.run_steps(rows, relations, &mut state, budget, result);
        answers.push(Answer { number, stores: stores.clone(), bytes: Vec::new(), state: state.clone() });
    }
    answers
}

/// A prepared state; where it is not refused, the runs with the budgets, from the same state one run with all of them, and the whole run.
pub fn prepared_and_run(
    subject: &dyn Subject,
    stores: &Stores,
    asked: Asked,
    state: &[i64],
    budgets: &[usize],
) -> Vec<Answer> {
    let (mut whole, mut state) = (stores.clone(), state.to_vec());
    let number = subject.prepare(&whole.rows, &whole.relations, asked, &mut state);
    let mut answers = vec![Answer { number, stores: whole.clone(), bytes: Vec::new(), state: state.clone() }];
    if number == 0 {
        answers.extend(in_parts(subject, stores, &state, budgets));
        answers.extend(in_parts(subject, stores, &state, &[together(budgets)]));
        let number = subject.run(Side::Leading, &mut whole.rows, &mut whole.relations, asked, &mut whole.result);
        answers.push(Answer { number, stores: whole, bytes: Vec::new(), state: Vec::new() });
    }
    answers
}

/// The sum of budgets, or the largest number, with which every run comes to its end too.
fn together(budgets: &[usize]) -> usize {
    budgets.iter().fold(0, |sum, &budget| sum.saturating_add(budget))
}

// ---- cases ----

/// Budgets for successive calls: small ones, none, or more than any run needs.
pub fn budgets(random: &mut Random) -> Vec<usize> {
    let (count, most) = (1 + random.below(6), random.pick(&[1, 2, 4, 9]));
    let budget = |random: &mut Random| match random.below(12) {
        0 => random.pick(&[MOST_STEPS as usize, 300, 1 << 40, usize::MAX - 1, usize::MAX]),
        _ => random.below(most + 1),
    };
    (0..count).map(|_| budget(random)).collect()
}

/// A state store, of the needed length or longer, with junk in it; of every eighth one that is too short.
pub fn state_store(random: &mut Random) -> Vec<i64> {
    let short = random.pick(&[0, 1, STATE - 1, STATE - 1]);
    let length = if random.one_in(8) { short } else { STATE + random.pick(&[0, 0, 1, 5]) };
    (0..length).map(|_| random.junk()).collect()
}

/// A state that some steps have led to from a random system, with its stores: as it is, or with something in it made wrong, or made
/// another state that is right.
pub fn handed_in(random: &mut Random) -> (Stores, Vec<i64>) {
    let system = system(random);
    let mut stores = lent(random, &system, STEPS);
    let asked = asked_of(&system);
    let mut state = [0; STATE].to_vec();
    let number = Outside(None).prepare(&stores.rows, &stores.relations, asked, &mut state);
    assert_eq!(number, 0, "a system within the limits");
    let some = random.below(25);
    let budget = random.pick(&[0, 1, 2, 3, 5, 8, some, MOST_STEPS as usize]);
    (stores, state) = led(stores, state, budget);
    for _ in 0..random.pick(&[0, 1, 1, 1, 2]) {
        change(random, &mut stores, &mut state);
    }
    state.extend((0..random.pick(&[0, 0, 0, 1, 5])).map(|_| random.junk()));
    if random.one_in(10) {
        shorten(random, &mut stores, &mut state);
    }
    (stores, state)
}

/// Where at most so many steps lead; the last before a refusal.
fn led(stores: Stores, state: Vec<i64>, budget: usize) -> (Stores, Vec<i64>) {
    let result = stores.result.clone();
    let run = |budget| in_parts(&Outside(None), &stores, &state, &[budget]).remove(0);
    let mut answer = run(budget);
    if answer.number != 0 {
        answer = run(answer.stores.result[0] as usize);
    }
    (Stores { result, ..answer.stores }, answer.state)
}

/// The polynomial of a row in block l at a column, the row counted from 0 and the column from 1.
fn leading(rows: &mut [i64], row: usize, column: usize) -> Option<&mut [i64]> {
    let begin = row * ROW + column.checked_sub(1)? * COEFFICIENTS;
    rows.get_mut(begin..begin + COEFFICIENTS)
}

fn change(random: &mut Random, stores: &mut Stores, state: &mut [i64]) {
    let count = |number: i64, most: usize| usize::try_from(number).unwrap_or(0).min(most);
    let (m, equations, settled) = (count(state[0], 4), count(state[1], 6), count(state[5], 4));
    let (row, column) = (random.below(settled.max(1)), 1 + random.below(m.max(1)));
    let earlier = random.below(row + 1);
    let column_at = |place: usize| state[6 + place.min(3)] as usize;
    match random.below(10) {
        // A settled diagonal that is zero, or may be, where it had one number only.
        0 => {
            if let Some(entry) = leading(&mut stores.rows, row, column_at(row)) {
                entry.fill(0);
            }
        }
        // An entry at an earlier settled column, at the row's own or at another.
        1 | 2 => {
            let at = random.pick(&[column_at(earlier), column_at(earlier), column]);
            let power = random.pick(&[0, 1, 15]);
            if let Some(entry) = leading(&mut stores.rows, row, at) {
                entry[power] = random.pick(&[1, -1, 7, 0]);
            }
        }
        // One settled row more, at any of its columns.
        3 if settled < m.min(equations) => {
            (state[5], state[6 + settled]) = (settled as i64 + 1, column as i64);
            if random.one_in(2) {
                if let Some(entry) = leading(&mut stores.rows, settled, column) {
                    entry[0] = 1;
                }
            }
        }
        // One less.
        4 if settled > 0 => (state[5], state[5 + settled]) = (settled as i64 - 1, 0),
        // Another column, or one behind the settled ones.
        5 => state[6 + random.below(4)] = random.pick(&[0, column as i64, column as i64, 5, -1]),
        // Shifts about the most that there can be.
        6 => {
            let most = state[2].saturating_sub(state[3]).saturating_mul(6);
            state[10] = most.saturating_add(random.pick(&[0, 0, -1, 1]));
        }
        7 => damage_number(random, stores, asked_by(state)),
        // A row less, or more than there are.
        8 => state[1] += random.pick(&[-1, 1]),
        _ => {
            let place = random.below(STATE);
            let (more, less) = (state[place].saturating_add(1), state[place].saturating_sub(1));
            state[place] = random.pick(&[more, less, more, less, 0, 1, -1, 5, 7, 17, 64, 65, i64::MIN, i64::MAX]);
        }
    }
}

/// The sizes that a state says, as far as they are some.
fn asked_by(state: &[i64]) -> Asked {
    let [m, equations, count] = [0, 1, 4].map(|place| usize::try_from(state[place]).unwrap_or(0));
    Asked { m, equations, l: state[2], t: state[3], count }
}

fn shorten(random: &mut Random, stores: &mut Stores, state: &mut Vec<i64>) {
    let need = usize::try_from(state[1]).unwrap_or(0).min(6) * ROW;
    let (store, need) = match random.below(4) {
        0 => (&mut stores.rows, need),
        1 => (&mut stores.relations, RELATION_STORE),
        2 => (&mut stores.result, STEPS),
        _ => (state, STATE),
    };
    store.truncate(random.pick(&[0, need / 2, need.saturating_sub(1), need.saturating_sub(1), need]));
}

// ---- a budget that is divided ----

/// How the runs of divided budgets ended.
#[derive(Default)]
pub struct Divided {
    pub differences: Vec<String>,
    calls: usize,
    finished: usize,
    refused: usize,
    going: usize,
    /// The most steps of a run.
    longest: i64,
}

impl Divided {
    /// Of the subject alone: the runs with budgets, stopped at a first refusal, end as one run with their sum, the steps added up; a run to
    /// the end is the whole run; with budget 0 nothing moves; a refused step is not counted (SCOPE 11.3 to 11.6, 11.25).
    pub fn test(&mut self, k: usize, subject: &dyn Subject) {
        let mut random = Random::new((40 << 40) + k as u64);
        let system = system(&mut random);
        let stores = lent(&mut random, &system, STEPS);
        let (asked, mut state) = (asked_of(&system), [7; STATE].to_vec());
        let number = subject.prepare(&stores.rows, &stores.relations, asked, &mut state);
        if number != 0 {
            return self.differences.push(format!("case {k}: prepare answers {number}"));
        }
        let budgets = budgets(&mut random);
        if let Err(difference) = self.divided(subject, &stores, &state, &budgets) {
            self.differences.push(format!("case {k}, budgets {budgets:?}: {difference}"));
        }
        if let Err(difference) = self.run_through(&mut random, subject, &stores, &state, asked) {
            self.differences.push(format!("case {k}, to the end: {difference}"));
        }
    }

    fn divided(
        &mut self,
        subject: &dyn Subject,
        stores: &Stores,
        state: &[i64],
        budgets: &[usize],
    ) -> Result<(), String> {
        let mut parts = in_parts(subject, stores, state, budgets);
        let stop = parts.iter().position(|answer| answer.number != 0).map_or(parts.len(), |at| at + 1);
        parts.truncate(stop);
        self.calls += stop;
        let steps = parts.iter().map(|answer| answer.stores.result[0]).sum();
        let mut end = parts.pop().expect("a budget");
        end.stores.result[0] = steps;
        let once = in_parts(subject, stores, state, &[together(&budgets[..stop])]).remove(0);
        match (end.number, end.stores.result[1]) {
            (0, 1) => self.finished += 1,
            (0, _) => self.going += 1,
            _ => self.refused += 1,
        }
        same(&end, &once)?;
        if end.number == 0 {
            still(subject, &end)
        } else {
            // The step that is refused is the one behind those that are counted.
            let before = in_parts(subject, stores, state, &[steps as usize]).remove(0);
            (before.number == 0 && before.stores.result[0] == steps)
                .then_some(())
                .ok_or(format!("refused after {steps} steps, and {} with so many", before.number))
        }
    }

    fn run_through(
        &mut self,
        random: &mut Random,
        subject: &dyn Subject,
        stores: &Stores,
        state: &[i64],
        asked: Asked,
    ) -> Result<(), String> {
        let (most, mut now, mut steps) = (1 + random.below(9), (stores.clone(), state.to_vec()), 0);
        let mut end = loop {
            let answer = in_parts(subject, &now.0, &now.1, &[1 + random.below(most)]).remove(0);
            self.calls += 1;
            steps += answer.stores.result[0];
            if answer.number != 0 || answer.stores.result[1] == 1 {
                break answer;
            }
            if steps > MOST_STEPS {
                return Err(format!("{steps} steps and no end"));
            }
            now = (answer.stores, answer.state);
        };
        self.longest = self.longest.max(steps);
        let mut whole = stores.clone();
        let number = subject.run(Side::Leading, &mut whole.rows, &mut whole.relations, asked, &mut whole.result);
        end.stores.result[0] = steps;
        let ten = whole.result[..RESULT].to_vec();
        whole.result.clone_from(&stores.result);
        whole.result[..2].copy_from_slice(&[steps, (number == 0) as i64]);
        whole.result[2..STEPS].copy_from_slice(&ten);
        // The old call has no state.
        same(&end, &Answer { number, stores: whole, bytes: Vec::new(), state: end.state.clone() })?;
        if steps > MOST_STEPS {
            return Err(format!("{steps} steps"));
        }
        Ok(())
    }

    pub fn print(&self) {
        let Divided { calls, finished, refused, going, longest, .. } = self;
        println!("Divided budgets: {calls} calls; {finished} finished, {refused} refused, {going} going on; at most {longest} steps");
    }
}

/// Another call with budget 0 on what was left passes the checks and leaves everything.
fn still(subject: &dyn Subject, end: &Answer) -> Result<(), String> {
    let mut again = in_parts(subject, &end.stores, &end.state, &[0]).remove(0);
    if again.number == 0 && again.stores.result[0] != 0 {
        return Err(format!("{} steps of budget 0", again.stores.result[0]));
    }
    again.stores.result[0] = end.stores.result[0];
    same(&again, end)
}

fn same(found: &Answer, expected: &Answer) -> Result<(), String> {
    let stores = [
        ("row store", &found.stores.rows, &expected.stores.rows),
        ("relation store", &found.stores.relations, &expected.stores.relations),
        ("result", &found.stores.result, &expected.stores.result),
        ("state", &found.state, &expected.state),
    ];
    if found.number != expected.number {
        return Err(format!("answers {} and {}", found.number, expected.number));
    }
    match stores.into_iter().find(|(_, found, expected)| found != expected) {
        Some((name, found, expected)) => Err(format!("{name}: {found:?} and {expected:?}")),
        None => Ok(()),
    }
}

#[cfg(test)]
mod tests {
    use super::*;
    use outside::fault::Fault;

    fn tested(subject: &dyn Subject, cases: usize) -> Divided {
        let mut divided = Divided::default();
        (0..cases).for_each(|k| divided.test(k, subject));
        divided
    }

    #[test]
    fn right() {
        let divided = tested(&Outside(None), 600);
        assert_eq!(divided.differences, Vec::<String>::new());
        assert!(divided.finished > 100 && divided.refused > 30 && divided.going > 100 && divided.longest > 20);
    }

    /// Wrong versions whose parts do not make the whole.
    #[test]
    fn wrong() {
        use Fault::*;
        let steps = [RefusedStepCounted, DoneCounted, BudgetNoneSteps, BudgetReported, EndFoundByStep, ShiftsAnew];
        for fault in steps.into_iter().chain([EquationsKept, RefusedStateKept, ShiftsOfRowsLeft, LowestColumns]) {
            assert!(!tested(&Outside(Some(fault)), 600).differences.is_empty(), "{fault:?}");
        }
    }
}
