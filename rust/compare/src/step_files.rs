//! Cases of work by steps that were made elsewhere (02, U9): a file of sheets with budgets and what the runs come to, and a file of states
//! with the answers to them. As in `runs`, what is expected comes from the file alone, and every number of every store is judged.

use crate::cases::text;
use crate::runs::{held, is_short, lent, next_line, numbered, same, sheet_lines, sheet_of, unsaid};
use crate::runs::{Held, Judge, Judgement};
use crate::subject::Subject;
use outside::elimination::Side;
use outside::stores::Asked;
use wurgalm::{RELATION_STORE, ROW};

/// Numbers of a state.
const STATE: usize = 11;
/// Numbers of the result of a whole run.
const RUN: usize = 10;
/// Numbers of the result of a run by steps.
const STEPS: usize = 2 + RUN;

/// What a run comes to.
#[derive(Clone, Copy, Debug, PartialEq, Eq)]
pub enum End {
    Going,
    Done,
    Refused(u8),
}

/// A sheet with budgets: for each run its steps and its end, up to the first refusal; and where there is none, the shifts and the sheet of
/// the state that is left, with the settled columns as its order.
#[derive(Debug, PartialEq, Eq)]
pub struct Stepped {
    pub sheet: Vec<u8>,
    pub budgets: Vec<usize>,
    pub runs: Vec<(i64, End)>,
    pub left: Option<(i64, Vec<u8>)>,
}

/// A state with its stores, and the answer to a run with budget 0.
#[derive(Debug, PartialEq, Eq)]
pub struct Stated {
    pub state: Vec<i64>,
    pub rows: Vec<i64>,
    pub relations: Vec<i64>,
    pub answer: u8,
}

// ---- the files ----

/// The cases of a file of budgets: a line `sheet BYTES` and so many bytes, a line `budgets B1 B2 ..`, a line `steps T going`,
/// `steps T done` or `steps T refused N` for each run, and, if none is refused, a line `state SHIFTS` and a sheet.
pub fn steps_of(mut file: &[u8]) -> Result<Vec<Stepped>, String> {
    let mut cases = Vec::new();
    while !file.is_empty() {
        let sheet = sheet_of(&mut file)?;
        let line = next_line(&mut file)?;
        let budgets: Vec<usize> = words(line, "budgets").ok_or(format!("no budgets at {line:?}"))?;
        let mut runs: Vec<(i64, End)> = Vec::new();
        while runs.len() < budgets.len() && !matches!(runs.last(), Some((_, End::Refused(_)))) {
            let line = next_line(&mut file)?;
            runs.push(end_of(line).ok_or(format!("no run at {line:?}"))?);
        }
        let left = match runs.last() {
            Some((_, End::Refused(_))) => None,
            _ => {
                let line = next_line(&mut file)?;
                let shifts: Vec<i64> = words(line, "state").ok_or(format!("no state at {line:?}"))?;
                let [shifts] = shifts[..] else { return Err(format!("no shifts at {line:?}")) };
                Some((shifts, sheet_lines(&mut file)?))
            }
        };
        cases.push(Stepped { sheet, budgets, runs, left });
    }
    Ok(cases)
}

/// The numbers behind a word.
fn words<T: std::str::FromStr>(line: &str, word: &str) -> Option<Vec<T>> {
    let mut parts = line.split_ascii_whitespace();
    if parts.next() != Some(word) {
        return None;
    }
    parts.map(|number| number.parse().ok()).collect()
}

fn end_of(line: &str) -> Option<(i64, End)> {
    let words: Vec<&str> = line.split(' ').collect();
    let (steps, end) = match words[..] {
        ["steps", steps, "going"] => (steps, End::Going),
        ["steps", steps, "done"] => (steps, End::Done),
        ["steps", steps, "refused", number] => (steps, End::Refused(number.parse().ok()?)),
        _ => return None,
    };
    Some((steps.parse().ok()?, end))
}

/// The cases of a file of states, four lines each: `state` with eleven numbers, `rows LENGTH` and `relations LENGTH` with the numbers that
/// are not 0, each behind its position, and `answer A`.
pub fn states_of(mut file: &[u8]) -> Result<Vec<Stated>, String> {
    let mut cases = Vec::new();
    while !file.is_empty() {
        let line = next_line(&mut file)?;
        let state: Vec<i64> = words(line, "state").ok_or(format!("no state at {line:?}"))?;
        let (rows, relations) = (store_of(&mut file, "rows")?, store_of(&mut file, "relations")?);
        let line = next_line(&mut file)?;
        let answer: Vec<u8> = words(line, "answer").ok_or(format!("no answer at {line:?}"))?;
        let ([answer], STATE) = (&answer[..], state.len()) else { return Err(format!("no answer at {line:?}")) };
        cases.push(Stated { state, rows, relations, answer: *answer });
    }
    Ok(cases)
}

fn store_of(file: &mut &[u8], name: &str) -> Result<Vec<i64>, String> {
    let line = next_line(file)?;
    let wrong = || format!("no {name} at {line:?}");
    let numbers: Vec<i64> = words(line, name).ok_or_else(wrong)?;
    let (length, pairs) = numbers.split_first().ok_or_else(wrong)?;
    let mut store = vec![0; usize::try_from(*length).map_err(|_| wrong())?];
    for pair in pairs.chunks(2) {
        let [at, number] = pair else { return Err(wrong()) };
        *usize::try_from(*at).ok().and_then(|at| store.get_mut(at)).ok_or_else(wrong)? = *number;
    }
    Ok(store)
}

// ---- judging ----

/// How long each store is beside its need: rows, relations, state, result.
const LENGTHS: [[isize; 4]; 7] =
    [[0, 0, 0, 0], [3, 1, 2, 5], [ROW as isize, 0, 0, 1], [-1, 0, 0, 0], [0, -1, 0, 0], [0, 0, -1, 0], [0, 0, 0, -1]];

/// The four stores of a call.
type Four = [Vec<i64>; 4];

fn same_stores(when: &str, found: &Four, expected: &Four) -> Judgement {
    let names = ["row store", "relation store", "state", "result"];
    (0..4).try_for_each(|k| same(&format!("{} {when}", names[k]), &found[k], &expected[k]))
}

fn call(subject: &dyn Subject, stores: &mut Four, budget: usize) -> u8 {
    let [rows, relations, state, result] = stores;
    subject.run_steps(rows, relations, state, budget, result)
}

/// The eleven numbers of a state that a sheet and its shifts say: its rows are those that are left, its order is that of the settled ones.
fn state_numbers(held: &Held, shifts: i64) -> Vec<i64> {
    let (Asked { m, equations, l, t, count }, [a, b, c, d]) = (held.asked, held.order);
    let settled = held.order.iter().filter(|&&column| column != 0).count();
    vec![m as i64, equations as i64, l, t, count as i64, settled as i64, a, b, c, d, shifts]
}

impl Judge {
    /// A sheet is prepared and run with its budgets, in stores of several lengths, and once more with all of them in one call.
    pub fn stepped(&mut self, case: &Stepped, subject: &dyn Subject) -> Judgement {
        let input = held(&case.sheet);
        let judged = LENGTHS.iter().try_for_each(|more| self.stepped_in(case, &input, *more, subject));
        judged.map_err(|difference| format!("{difference}\n{}budgets {:?}", text(&case.sheet), case.budgets))
    }

    fn stepped_in(&mut self, case: &Stepped, input: &Held, more: [isize; 4], subject: &dyn Subject) -> Judgement {
        let prepared = state_numbers(&Held { order: [0; 4], ..input.clone() }, 0);
        let given = [input.rows.clone(), input.relations.clone(), unsaid(STATE), unsaid(STEPS)];
        let needs = [0, 1, 2, 3].map(|k| given[k].len());
        let mut stores = [0, 1, 2, 3].map(|k| lent(&given[k], more[k]));
        let mut expected = stores.clone();
        // The result is none of the stores of `prepare`.
        let short = is_short(&needs[..3], &more[..3]);
        if !short {
            expected[2] = lent(&prepared, more[2]);
        }
        let [rows, relations, state, _] = &mut stores;
        let number = subject.prepare(rows, relations, input.asked, state);
        self.calls += 1;
        numbered("preparing", number, short as u8)?;
        same_stores("after preparing", &stores, &expected)?;
        if is_short(&needs, &more) {
            let state = lent(&prepared, more[2]);
            stores[2].clone_from(&state);
            let expected = stores.clone();
            self.calls += 1;
            numbered("a run in a store too short", call(subject, &mut stores, case.budgets[0]), 1)?;
            return same_stores("of a run in a store too short", &stores, &expected);
        }
        let first = stores.clone();
        for (k, &run) in case.runs.iter().enumerate() {
            self.one_run(case.budgets[k], run, input, &mut stores, more, subject)?;
        }
        self.left(case, input, &stores, more)?;
        let mut once = first;
        let sum = case.budgets[..case.runs.len()].iter().fold(0, |sum: usize, &budget| sum.saturating_add(budget));
        let (mut parts, steps) = (stores.clone(), case.runs.iter().map(|(steps, _)| steps).sum());
        parts[3][0] = steps;
        self.calls += 1;
        let refusal = if let Some((_, End::Refused(number))) = case.runs.last() { *number } else { 0 };
        numbered("one run", call(subject, &mut once, sum), refusal)?;
        same_stores("of one run", &once, &parts)
    }

    /// The number and the result of one of the runs.
    fn one_run(
        &mut self,
        budget: usize,
        (steps, end): (i64, End),
        input: &Held,
        stores: &mut Four,
        more: [isize; 4],
        subject: &dyn Subject,
    ) -> Judgement {
        let found = call(subject, stores, budget);
        self.calls += 1;
        let mut result = [0; STEPS];
        (result[0], result[1]) = (steps, (end == End::Done) as i64);
        if end == End::Done {
            let (mut rows, mut relations) = (input.rows.clone(), input.relations.clone());
            let whole = subject.run(Side::Leading, &mut rows, &mut relations, input.asked, &mut result[2..]);
            self.calls += 1;
            numbered("the whole run", whole, 0)?;
        }
        let refusal = if let End::Refused(number) = end { number } else { 0 };
        numbered(&format!("a run with budget {budget}"), found, refusal)?;
        same("result of a run", &stores[3], &lent(&result, more[3]))
    }

    /// The stores after the last run: what the file says, or zeros on a refusal.
    fn left(&mut self, case: &Stepped, input: &Held, stores: &Four, more: [isize; 4]) -> Judgement {
        let needed = match &case.left {
            Some((shifts, sheet)) => {
                let mut output = held(sheet);
                let state = state_numbers(&output, *shifts);
                // The places of rows that were dropped are zero.
                output.rows.resize(input.rows.len(), 0);
                [output.rows, output.relations, state]
            }
            None => [vec![0; input.rows.len()], vec![0; RELATION_STORE], vec![0; STATE]],
        };
        let [rows, relations, state] = [0, 1, 2].map(|k| lent(&needed[k], more[k]));
        same_stores("after the last run", stores, &[rows, relations, state, stores[3].clone()])
    }

    /// A state is handed in with budget 0, and, where it is refused, with others: nothing moves.
    pub fn stated(&mut self, case: &Stated, subject: &dyn Subject) -> Judgement {
        let others = if case.answer == 0 { &[0][..] } else { &[0, 1, usize::MAX] };
        let judged = others.iter().try_for_each(|&budget| {
            [[0, 0], [2, 3], [-1, 0], [0, -1]].iter().try_for_each(|more| self.stated_in(case, budget, *more, subject))
        });
        judged.map_err(|difference| format!("{difference}\n{:?}, {} rows", case.state, case.rows.len() / ROW))
    }

    fn stated_in(
        &mut self,
        case: &Stated,
        budget: usize,
        [state_more, result_more]: [isize; 2],
        subject: &dyn Subject,
    ) -> Judgement {
        let (state, result) = (lent(&case.state, state_more), lent(&unsaid(STEPS), result_more));
        let mut stores = [case.rows.clone(), case.relations.clone(), state, result];
        let mut expected = stores.clone();
        let found = call(subject, &mut stores, budget);
        self.calls += 1;
        let number = match (state_more, result_more) {
            (-1, _) => 1,
            // The file does not say which of the checks it is: those of the sizes come before the lengths, the others after them.
            (_, -1) if case.answer == 11 && (found == 1 || found == 11) => found,
            (_, -1) => 1,
            _ => case.answer,
        };
        numbered(&format!("a run with budget {budget}"), found, number)?;
        if number == 0 {
            let numbers = resting(&case.state, &stores[3]);
            expected[3][..STEPS].copy_from_slice(&numbers);
        }
        same_stores("of a state", &stores, &expected)
    }
}

/// The result of a run that takes no step. Of a finished state the file does not tell the root and how often it occurs.
fn resting(state: &[i64], found: &[i64]) -> [i64; STEPS] {
    let mut numbers = [0; STEPS];
    if state[1] == state[5] {
        numbers[1..4].copy_from_slice(&[1, state[4], state[10]]);
        numbers[4..8].copy_from_slice(&state[6..10]);
        numbers[10] = state[5];
        if found[8] == 1 && found[11] > 0 {
            (numbers[8], numbers[9], numbers[11]) = (1, found[9], found[11]);
        }
    }
    numbers
}

#[cfg(test)]
mod tests {
    use super::*;
    use crate::cases::{Case, Kind};
    use crate::random::Random;
    use crate::sheets::whole_sheet;
    use crate::steps::{budgets, in_parts};
    use crate::subject::Outside;
    use outside::fault::Fault;
    use outside::sheet::{read, write, Sheet};
    use outside::steps::{prepared, run_steps};

    /// Sheets with budgets, as a file of them has both.
    fn stepped_cases() -> Vec<Stepped> {
        let mut random = Random::new(14);
        let mut file = Vec::new();
        for _ in 0..300 {
            let (sheet, budgets) = (whole_sheet(&mut random), budgets(&mut random));
            let listed: Vec<String> = budgets.iter().map(usize::to_string).collect();
            file.extend(format!("sheet {}\n", sheet.len()).bytes().chain(sheet.iter().copied()));
            file.extend(format!("budgets {}\n", listed.join(" ")).bytes());
            let mut state = Ok(prepared(read(&sheet, None).unwrap().system));
            for budget in budgets {
                state = state.and_then(|state| match run_steps(&state, budget, None) {
                    Ok(stop) => {
                        let end = if stop.finished { "done" } else { "going" };
                        file.extend(format!("steps {} {end}\n", stop.steps).bytes());
                        Ok(stop.state)
                    }
                    Err(refused) => {
                        file.extend(format!("steps {} refused {}\n", refused.steps, refused.refusal.number()).bytes());
                        Err(())
                    }
                });
            }
            if let Ok(state) = state {
                file.extend(format!("state {}\n", state.shifts).bytes());
                file.extend(write(&Sheet { system: state.system, order: state.columns }));
            }
        }
        steps_of(&file).unwrap()
    }

    #[test]
    fn budgets_of_sheets() {
        use Fault::*;
        let cases = stepped_cases();
        assert_eq!(cases.len(), 300);
        let mut judge = Judge::default();
        for case in &cases {
            judge.stepped(case, &Outside(None)).unwrap();
        }
        assert!(judge.calls > 5_000);
        let steps = [RefusedStepCounted, DoneCounted, BudgetNoneSteps, ExchangeStep, DroppedAtOnce, SettlingNoStep];
        let calls =
            [StepsResultEleven, RefusedStateKept, RefusedResultKept, EquationsKept, ResultBeforeEnd, ShiftsAnew];
        for fault in steps.into_iter().chain(calls) {
            let noticed = |case: &Stepped| Judge::default().stepped(case, &Outside(Some(fault))).is_err();
            assert!(cases.iter().any(noticed), "{fault:?}");
        }
        let sheet = "sheet 11\n3 1 0 0\n0\n0\n";
        for lines in ["0\nbudget 1\n", "0\nbudgets 1\nsteps 1 on\n", "0\nbudgets 1\nsteps 0 done\nstate\n"] {
            assert!(steps_of(format!("{sheet}{lines}").as_bytes()).is_err(), "{lines:?}");
        }
    }

    /// States that are handed in, as a file of them has them.
    fn stated_cases() -> Vec<Stated> {
        let mut file = String::new();
        for k in 0..1_500 {
            let Case::State { stores, mut state, .. } = Kind::State.case(k) else { unreachable!() };
            if state.len() < STATE || stores.result.len() < STEPS {
                continue;
            }
            state.truncate(STATE);
            let answer = in_parts(&Outside(None), &stores, &state, &[0]).remove(0).number;
            let numbers: Vec<String> = state.iter().map(i64::to_string).collect();
            file += &format!("state {}\n", numbers.join(" "));
            for (name, store) in [("rows", &stores.rows), ("relations", &stores.relations)] {
                file += &format!("{name} {}", store.len());
                for (at, number) in store.iter().enumerate().filter(|(_, &number)| number != 0) {
                    file += &format!(" {at} {number}");
                }
                file += "\n";
            }
            file += &format!("answer {answer}\n");
        }
        states_of(file.as_bytes()).unwrap()
    }

    #[test]
    fn states() {
        use Fault::*;
        let cases = stated_cases();
        assert!(cases.len() > 1_200);
        let mut judge = Judge::default();
        for case in &cases {
            judge.stated(case, &Outside(None)).unwrap();
        }
        let sizes = [SettledPastRows, ColumnsPastSettled, NegativeCountZero, ShiftsUnlimited, ShiftsOfRowsLeft];
        let places = [StateSizesTwo, StateNumbersFive, ShortStateEleven, StepsResultEleven, StateLengthsFirst];
        let rows = [DiagonalZero, EarlierEntries, LowestColumns, FoundAfterStep, ResultBeforeEnd];
        for fault in sizes.into_iter().chain(places).chain(rows) {
            let noticed = |case: &Stated| Judge::default().stated(case, &Outside(Some(fault))).is_err();
            assert!(cases.iter().any(noticed), "{fault:?}");
        }
        let state = "state 1 0 0 0 0 0 0 0 0 0 0\n";
        for lines in ["rows 0\nrelations 0\n", "rows\nrelations 0\nanswer 1\n", "rows 1 1 1\nrelations 0\nanswer 1\n"] {
            assert!(states_of(format!("{state}{lines}").as_bytes()).is_err(), "{lines:?}");
        }
    }
}
