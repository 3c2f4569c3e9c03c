//! Runs by steps (02, U9): by hand, against whole runs, and with every planted fault.

use outside::elimination::{run, Side};
use outside::fault::Fault;
use outside::refusal::Refusal;
use outside::sheet::read;
use outside::step_calls::{prepare_on_stores, run_steps_on_stores, STATE, STEPS};
use outside::steps::{prepared, run_steps, Refused, State, Stop};
use outside::stores::{row_store, run_on_stores, store, Asked, RELATION, RELATION_STORE, RESULT, ROW};
use outside::system::System;

fn system(sheet: &str) -> System {
    read(sheet.as_bytes(), None).expect("a whole sheet").system
}

/// n x(n+1) - y(n), x(n+1) - x(n)
const K2: &str = "3 2 1 0\n2\n2 1 1 2 0 1 0 2 1 -1\n2 1 1 1 1 0 1 1 -1\n0\n0\n";
/// x = 1 and x = 2
const TWICE: &str = "3 1 0 0\n2\n1 0 1 1 1\n1 0 1 1 1\n0\n0\n2\n1 1\n1 2\n";
/// x(n+1) + y(n) twice
const K5: &str = "3 2 1 0\n2\n2 1 1 1 1 0 2 1 1\n2 1 1 1 1 0 2 1 1\n0\n0\n";

/// The steps and the equations, settled rows, relations and shifts of the state that is come to.
fn stop(state: &State, budget: usize) -> Result<(usize, bool, [usize; 4]), Refused> {
    let Stop { steps, finished, state } = run_steps(state, budget, None)?;
    let System { rows, relations, .. } = &state.system;
    Ok((steps, finished, [rows.len(), state.columns.len(), relations.len(), state.shifts]))
}

/// The first row is settled; the second combined with it, with g = n, shifted, exchanged and combined, with g = n + 1, and settled.
#[test]
fn steps_of_a_run() {
    let first = prepared(system(K2));
    let states = [[2, 0, 0, 0], [2, 1, 0, 0], [2, 1, 1, 0], [2, 1, 1, 1], [2, 1, 2, 1], [2, 2, 2, 1]];
    for (steps, state) in states.into_iter().enumerate() {
        assert_eq!(stop(&first, steps), Ok((steps, steps == 5, state)));
    }
    assert_eq!(stop(&first, usize::MAX), Ok((5, true, [2, 2, 2, 1])));
}

/// A row that a combination makes zero is dropped by the next step.
#[test]
fn dropped_by_the_next_step() {
    let first = prepared(system(K5));
    assert_eq!(stop(&first, 2), Ok((2, false, [2, 1, 0, 0])));
    assert_eq!(stop(&first, 3), Ok((3, true, [1, 1, 0, 0])));
    assert_eq!(stop(&first, 4), Ok((3, true, [1, 1, 0, 0])));
    assert_eq!(stop(&prepared(system("3 1 0 0\n1\n0\n0\n0\n")), 5), Ok((1, true, [0; 4])));
}

/// The combination that leads to 10 is not counted, and nothing is refused before its step.
#[test]
fn refused() {
    let first = prepared(system(TWICE));
    assert_eq!(stop(&first, 1), Ok((1, false, [2, 1, 0, 0])));
    assert_eq!(stop(&first, 2), Err(Refused { steps: 1, refusal: Refusal::Inconsistent }));
    let alone = prepared(system("3 1 0 0\n1\n0\n0\n0\n1\n1 1\n"));
    assert_eq!(stop(&alone, 0), Ok((0, false, [1, 0, 0, 0])));
    assert_eq!(stop(&alone, 1), Err(Refused { steps: 0, refusal: Refusal::Inconsistent }));
}

// ---- many systems ----

struct Random(u64);

impl Random {
    /// A number below n.
    fn below(&mut self, n: usize) -> usize {
        self.0 ^= self.0 << 13;
        self.0 ^= self.0 >> 7;
        self.0 ^= self.0 << 17;
        (self.0 >> 20) as usize % n
    }

    fn of<T: Copy>(&mut self, values: &[T]) -> T {
        values[self.below(values.len())]
    }

    /// A small system as a sheet says it, with repeated equations, right sides, and now and then a large coefficient.
    fn system(&mut self) -> System {
        let (m, d, t) = (1 + self.below(3), self.below(3) as i64, self.below(5) as i64 - 2);
        let (large, sides) = (self.below(8) == 0, self.below(4) == 0);
        let mut equations: Vec<String> = Vec::new();
        let mut rights: Vec<String> = Vec::new();
        let (wanted, mut any) = (self.below(5), false);
        for _ in 0..wanted {
            let mut terms = Vec::new();
            for s in (t..=t + d).rev() {
                for c in 1..=m {
                    if self.below(2) == 0 {
                        let highest = self.of(&[1, 1, -1, 2, -3, if large { 200_000_001 } else { 1 }]);
                        let lowest = self.below(5) as i64 - 2;
                        let text =
                            if self.below(2) == 0 { format!("1 {highest}") } else { format!("2 {lowest} {highest}") };
                        terms.push(format!("{s} {c} {text}"));
                    }
                }
            }
            let mut equation = format!("{} {}", terms.len(), terms.join(" "));
            if !equations.is_empty() && self.below(4) == 0 {
                equation = equations[self.below(equations.len())].clone();
            }
            equations.push(equation.trim_end().to_string());
            let right = sides && self.below(2) == 0;
            any |= right;
            rights.push(if right { "1 3".to_string() } else { "0".to_string() });
        }
        let relation = self.below(3);
        let relations: Vec<String> = (0..relation).map(|k| format!("{k} 1 {t} 1 1 5")).collect();
        rights.extend(relations.iter().map(|_| "0".to_string()));
        let mut lines = vec![format!("3 {m} {} {t}", t + d), equations.len().to_string()];
        lines.extend(equations);
        lines.push(relations.len().to_string());
        lines.extend(relations);
        lines.push("0".to_string());
        if any {
            lines.push(rights.len().to_string());
            lines.extend(rights);
        }
        system(&(lines.join("\n") + "\n"))
    }
}

/// What a call is lent.
#[derive(Clone, Debug, PartialEq, Eq)]
struct Lent {
    rows: Vec<i64>,
    relations: Vec<i64>,
    state: Vec<i64>,
    result: Vec<i64>,
}

impl Lent {
    /// With 9 past what is needed, and in the state and the result.
    fn of(system: &System) -> Lent {
        let mut rows = vec![0; row_store(system.rows.len())];
        let mut relations = vec![0; RELATION_STORE];
        store(system, &mut rows, &mut relations);
        rows.extend([9; 3]);
        relations.extend([9; 3]);
        Lent { rows, relations, state: vec![9; STATE + 3], result: vec![9; STEPS + 3] }
    }

    fn prepare(&mut self, asked: Asked, fault: Option<Fault>) -> u8 {
        prepare_on_stores(&self.rows, &self.relations, asked, &mut self.state, fault)
    }

    fn steps(&mut self, budget: usize, fault: Option<Fault>) -> u8 {
        let Lent { rows, relations, state, result } = self;
        run_steps_on_stores(rows, relations, state, budget, result, fault)
    }

    fn tails(&self) -> [&[i64]; 3] {
        [&self.relations[RELATION_STORE..], &self.state[STATE..], &self.result[STEPS..]]
    }
}

fn asked(system: &System) -> Asked {
    let (sizes, equations, count) = (system.sizes, system.rows.len(), system.relations.len());
    Asked { m: sizes.m, equations, l: sizes.l, t: sizes.t, count }
}

/// A run to the end is the whole run, at once and in any parts; each state on the way passes the checks.
#[test]
fn parts_of_a_run() {
    let mut random = Random(0x9e37_79b9_7f4a_7c15);
    let (mut refusals, mut longest) = ([0; 16], 0);
    for _ in 0..500 {
        let system = random.system();
        let mut whole = Lent::of(&system);
        let (mut rows, mut relations, mut numbers) = (whole.rows.clone(), whole.relations.clone(), [7; RESULT]);
        let number = run_on_stores(Side::Leading, &mut rows, &mut relations, asked(&system), &mut numbers, None);
        assert_eq!(whole.prepare(asked(&system), None), 0);
        let first = whole.clone();
        assert_eq!(whole.steps(usize::MAX, None), number);
        assert_eq!((&whole.rows, &whole.relations), (&rows, &relations));
        assert_eq!(whole.result[1..STEPS], [&[(number == 0) as i64][..], &numbers].concat());
        assert_eq!(whole.tails(), [[9; 3]; 3]);
        let all = whole.result[0] as usize;
        assert_eq!(number == 0, run(&system, Side::Leading, None).is_ok());
        refusals[number as usize] += 1;
        longest = longest.max(all);
        let (mut parts, mut taken, most) = (first.clone(), 0, 1 + random.below(6));
        loop {
            let resting = parts.clone();
            assert_eq!(parts.steps(0, None), 0);
            assert_eq!(
                (&parts.rows, &parts.relations, &parts.state),
                (&resting.rows, &resting.relations, &resting.state)
            );
            assert_eq!(parts.result[0], 0);
            let budget = random.below(most + 1);
            let answer = parts.steps(budget, None);
            taken += parts.result[0] as usize;
            let mut at_once = first.clone();
            if answer != 0 {
                assert_eq!((answer, taken), (number, all));
                break;
            }
            assert_eq!(at_once.steps(taken, None), 0);
            assert_eq!(at_once.result[0] as usize, taken);
            at_once.result[0] = parts.result[0];
            assert_eq!(parts, at_once);
            if parts.result[1] == 1 {
                parts.result[0] = all as i64;
                assert_eq!((taken, &parts), (all, &whole));
                break;
            }
            assert!(parts.result[2..STEPS] == [0; RESULT] && parts.result[0] as usize == budget);
        }
    }
    println!("{refusals:?}, at most {longest} steps");
    assert!(refusals[0] > 300 && refusals[8] > 5 && refusals[10] > 5 && longest > 15);
}

/// K2 after two steps, changed: what a run with no budget answers.
#[test]
fn handed_in() {
    let mut after = Lent::of(&system(K2));
    assert_eq!(after.prepare(asked(&system(K2)), None), 0);
    assert_eq!(after.state[..STATE], [2, 2, 1, 0, 0, 0, 0, 0, 0, 0, 0]);
    assert_eq!(after.steps(2, None), 0);
    assert_eq!(after.state[..STATE], [2, 2, 1, 0, 1, 1, 1, 0, 0, 0, 0]);
    let answer = |change: &dyn Fn(&mut Lent)| {
        let mut lent = after.clone();
        change(&mut lent);
        let before = lent.clone();
        let number = lent.steps(0, None);
        lent.result.clone_from(&before.result);
        assert_eq!(lent, before);
        number
    };
    let number = |place: usize, number: i64| answer(&|lent| lent.state[place] = number);
    assert_eq!(answer(&|_| ()), 0);
    for (place, wrong) in
        [(0, 5), (0, 0), (0, -1), (1, 7), (1, -1), (1, 0), (2, 65), (2, i64::MAX), (3, 2), (3, -4), (4, 17)]
    {
        assert_eq!(number(place, wrong), 11);
    }
    for (place, wrong) in
        [(4, -1), (5, 3), (5, -1), (5, i64::MIN), (6, 0), (6, 3), (6, -1), (7, 1), (9, 2), (10, -1), (10, 7)]
    {
        assert_eq!(number(place, wrong), 11);
    }
    // Six shifts are the most where D is 1; the relation count 0 leaves numbers at an unused place; more rows than there is room for.
    assert_eq!([number(10, 6), number(4, 0), number(4, 2), number(1, 3)], [0, 11, 0, 1]);
    // Not the lowest column, but one with a diagonal; one without.
    assert_eq!(answer(&|lent| (lent.state[6], lent.rows[16]) = (2, 1)), 0);
    assert_eq!(number(6, 2), 11);
    assert_eq!(answer(&|lent| (lent.state[5], lent.state[7], lent.rows[ROW + 16]) = (2, 2, 1)), 0);
    assert_eq!(answer(&|lent| (lent.state[5], lent.state[7], lent.rows[ROW + 16], lent.rows[ROW]) = (2, 2, 1, 1)), 11);
    assert_eq!(answer(&|lent| lent.rows[0] = 268_435_456), 11);
    assert_eq!(answer(&|lent| lent.rows[32] = 1), 11);
    assert_eq!(answer(&|lent| lent.relations[RELATION] = 1), 11);
    // 1 for a short state before all, then sizes, lengths, numbers.
    assert_eq!(answer(&|lent| lent.state = vec![5; STATE - 1]), 1);
    assert_eq!(answer(&|lent| (lent.state[0], lent.result) = (5, vec![])), 11);
    assert_eq!(answer(&|lent| (lent.rows[0], lent.result) = (268_435_456, vec![9; STEPS - 1])), 1);
    assert_eq!(answer(&|lent| lent.rows.truncate(2 * ROW - 1)), 1);
    assert_eq!(answer(&|lent| lent.relations.truncate(RELATION_STORE - 1)), 1);
}

/// Preparing makes the checks of a run: sizes, lengths, numbers.
#[test]
fn prepared_or_not() {
    let whole = Lent::of(&system(K2));
    let sizes = asked(&system(K2));
    let answer = |asked, change: &dyn Fn(&mut Lent)| {
        let mut lent = whole.clone();
        change(&mut lent);
        let before = lent.clone();
        let number = lent.prepare(asked, None);
        assert_eq!(lent, before);
        number
    };
    assert_eq!(answer(Asked { m: 5, ..sizes }, &|lent| lent.state.clear()), 2);
    assert_eq!(answer(Asked { equations: 7, ..sizes }, &|lent| lent.rows.clear()), 2);
    assert_eq!(answer(sizes, &|lent| (lent.rows[0], lent.state) = (i64::MIN, vec![9; STATE - 1])), 1);
    assert_eq!(answer(Asked { equations: 3, ..sizes }, &|_| ()), 1);
    assert_eq!(answer(sizes, &|lent| lent.rows[0] = i64::MIN), 5);
    assert_eq!(answer(sizes, &|lent| lent.relations[0] = 1), 5);
}

// ---- faults ----

/// Calls of random lengths and budgets on a random system, sometimes with one thing changed between two of them; all that they leave.
fn calls(seed: u64, fault: Option<Fault>) -> Vec<(u8, Lent)> {
    let mut random = Random(0x2545_f491_4f6c_dd1d ^ seed.wrapping_mul(0x9e37_79b9_7f4a_7c15));
    let system = random.system();
    let mut lent = Lent::of(&system);
    let mut sizes = asked(&system);
    let mut left = Vec::new();
    if random.below(20) == 0 {
        sizes.m = random.of(&[sizes.m, 5]);
        lent.state.truncate(random.of(&[STATE - 1, STATE]));
    }
    left.push((lent.prepare(sizes, fault), lent.clone()));
    for _ in 0..6 {
        let budget = random.of(&[0, 1, 1, 2, 3, 5, 300]);
        left.push((lent.steps(budget, fault), lent.clone()));
        if random.below(3) == 0 {
            random.change(&mut lent);
        }
    }
    left
}

impl Random {
    fn change(&mut self, lent: &mut Lent) {
        if self.below(8) == 0 {
            lent.result.truncate(self.of(&[STEPS - 1, STEPS]));
        }
        if self.below(16) == 0 {
            lent.state.truncate(self.of(&[STATE - 1, STATE]));
        }
        match self.below(4) {
            0 if !lent.rows.is_empty() => {
                let row = self.below(1 + lent.rows.len() / ROW) * ROW;
                let place = row + 16 * self.below(4) + self.below(2);
                if let Some(number) = lent.rows.get_mut(place) {
                    *number = self.of(&[0, 1, 1, -2, 268_435_456]);
                }
            }
            1 => {
                let row = self.below(1 + lent.rows.len() / ROW) * ROW;
                if let Some(numbers) = lent.rows.get_mut(row..row + 16) {
                    numbers.fill(0);
                }
            }
            _ => {
                let place = self.below(STATE).min(lent.state.len() - 1);
                let more = lent.state[place] + self.of(&[1, -1]);
                lent.state[place] = self.of(&[0, more, more, 2, 5, 20]);
            }
        }
    }
}

/// The faults of work by steps, which stand together.
fn of_steps() -> &'static [Fault] {
    let place = |fault| Fault::ALL.iter().position(|&other| other == fault).expect("a fault of the list");
    &Fault::ALL[place(Fault::RefusedStepCounted)..=place(Fault::StepsResultEleven)]
}

#[test]
fn faults_found() {
    let right: Vec<Vec<(u8, Lent)>> = (0..400).map(|seed| calls(seed, None)).collect();
    let mut missed = Vec::new();
    for &fault in of_steps() {
        let found = right.iter().zip(0..).position(|(right, seed)| calls(seed, Some(fault)) != *right);
        println!("{fault:?} ({}): {found:?}", fault.says());
        if found.is_none() {
            missed.push(fault);
        }
    }
    assert_eq!(missed, []);
}
