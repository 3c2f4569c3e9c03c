//! Sequences with a first index (SCOPE 2.123 to 2.125; 02, U11): both sentences, of the stores of leading runs, on windows of n and by
//! exact arithmetic. A sequence is made at random that satisfies one side of a run at every n of the window, and the other side is worked
//! out at each n of which the sentence speaks. It has values at the indices k + t to last + l alone, so that nothing below is used.
//!
//! Values are fractions with one denominator, so what is tested is the sequence of the numerators where the right sides are multiplied by
//! the denominator; where that is 1, it is the sentence as it stands.

use crate::random::Random;
use crate::subject::Subject;
use crate::systems::system;
use outside::elimination::Side;
use outside::polynomial::greatest_divisor;
use outside::stores::{row_store, store, Asked, COEFFICIENTS, COLUMNS, ENTRIES, RELATION, RELATION_STORE, RESULT, ROW};
use outside::system::{Sizes, System};

/// Runs with more shifts are left out: their windows are long and the fractions large.
const MOST_SHIFTS: i128 = 8;
/// How many n a window has beyond the shifts.
const BEYOND: i128 = 4;
/// Sequences for each system and sentence.
const SEQUENCES: usize = 2;

// ---- what a store says at an n ----

/// The equations and relations that the stores of a call hold.
struct Held<'a> {
    sizes: Sizes,
    rows: Vec<&'a [i64]>,
    relations: Vec<&'a [i64]>,
}

/// The n from k to last.
#[derive(Clone, Copy)]
struct Window {
    k: i128,
    last: i128,
}

/// A linear form: in place 0 the factor of the denominator, behind it those of the values, by index and column from k + t on.
type Form = Vec<i128>;

/// Why there is no sequence.
enum Lacking {
    Unsolvable,
    /// A number has more than 128 bits.
    TooLarge,
}

impl<'a> Held<'a> {
    fn new(asked: Asked, [rows, relations]: &'a [Vec<i64>; 2]) -> Held<'a> {
        Held {
            sizes: Sizes { m: asked.m, l: asked.l, t: asked.t },
            rows: rows.chunks(ROW).take(asked.equations).collect(),
            relations: relations.chunks(RELATION).take(asked.count).collect(),
        }
    }

    /// How many values a window needs.
    fn values(&self, window: Window) -> usize {
        (window.last - window.k + 1) as usize * self.sizes.m + self.sizes.d() as usize * self.sizes.m
    }

    /// The sum of a row at n, less its right side.
    fn form(&self, row: &[i64], n: i128, window: Window) -> Option<Form> {
        let mut form = vec![0; 1 + self.values(window)];
        let (m, d) = (self.sizes.m, self.sizes.d() as usize);
        form[0] = -value(&row[ENTRIES..], n)?;
        for (place, p) in row[..ENTRIES].chunks(COEFFICIENTS).enumerate() {
            let (block, column) = (place / COLUMNS, place % COLUMNS);
            if block <= d && column < m {
                form[1 + ((n - window.k) as usize + d - block) * m + column] = value(p, n)?;
            }
        }
        Some(form)
    }

    /// The equations at each n from first to last.
    fn equations(&self, first: i128, last: i128, window: Window) -> Option<Vec<(i128, Form)>> {
        let each = (first..=last).flat_map(|n| self.rows.iter().map(move |row| (n, *row)));
        each.map(|(n, row)| Some((n, self.form(row, n, window)?))).collect()
    }

    /// The relations with n0 from k to last.
    fn inside(&self, last: i128, window: Window) -> impl Iterator<Item = &&'a [i64]> {
        self.relations.iter().filter(move |relation| (window.k..=last).contains(&(relation[0] as i128)))
    }

    /// The equations at each n from first to last, and the relations with n0 from k to last.
    fn said(&self, first: i128, last: i128, window: Window) -> Option<Vec<(i128, Form)>> {
        let mut forms = self.equations(first, last, window)?;
        for relation in self.inside(last, window) {
            let n0 = relation[0] as i128;
            forms.push((n0, self.form(&relation[1..], n0, window)?));
        }
        Some(forms)
    }

    /// What is said at the n of the window.
    fn all(&self, window: Window) -> Option<Vec<(i128, Form)>> {
        self.said(window.k, window.last, window)
    }
}

fn value(p: &[i64], n: i128) -> Option<i128> {
    p.iter().rev().try_fold(0i128, |sum, &a| sum.checked_mul(n)?.checked_add(a as i128))
}

fn sum_of(form: &[i128], values: &[i128]) -> Option<i128> {
    let terms = form.iter().zip(values).filter(|(a, _)| **a != 0);
    terms.into_iter().try_fold(0i128, |sum, (a, b)| sum.checked_add(a.checked_mul(*b)?))
}

// ---- sequences ----

/// The forms that have to vanish, each under the last place at which it is not zero.
struct Conditions(Vec<Option<Form>>);

impl Conditions {
    fn new(places: usize, forms: Vec<(i128, Form)>) -> Result<Conditions, Lacking> {
        let mut conditions = Conditions(vec![None; places]);
        forms.into_iter().try_for_each(|(_, form)| conditions.add(form))?;
        Ok(conditions)
    }

    fn add(&mut self, mut form: Form) -> Result<(), Lacking> {
        while let Some(last) = form.iter().rposition(|&a| a != 0) {
            if last == 0 {
                return Err(Lacking::Unsolvable);
            }
            let Some(other) = &self.0[last] else {
                self.0[last] = Some(form);
                return Ok(());
            };
            form = without_last(&form, other, last).ok_or(Lacking::TooLarge)?;
        }
        Ok(())
    }

    /// A sequence that satisfies them: small integers where they leave the choice. The denominator comes first.
    fn sequence(&self, random: &mut Random) -> Option<Vec<i128>> {
        let mut values = vec![1];
        for condition in &self.0[1..] {
            let Some(form) = condition else {
                values.push(random.between(-3, 3).checked_mul(values[0])?);
                continue;
            };
            let (sum, a) = (sum_of(form, &values)?, form[values.len()]);
            let factor = a.abs() / greatest_divisor(sum, a);
            values.iter_mut().try_for_each(|value| value.checked_mul(factor).map(|product| *value = product))?;
            values.push(sum.checked_mul(factor)?.checked_neg()? / a);
        }
        let content = values.iter().fold(0, |d, &a| greatest_divisor(d, a));
        Some(values.into_iter().map(|a| a / content).collect())
    }
}

/// The combination of two forms that is zero at a place, without its content.
fn without_last(form: &Form, other: &Form, place: usize) -> Option<Form> {
    let d = greatest_divisor(form[place], other[place]);
    let (g, h) = (other[place] / d, form[place] / d);
    let combined = |(a, b): (&i128, &i128)| a.checked_mul(g)?.checked_sub(b.checked_mul(h)?);
    let sum: Form = form.iter().zip(other).map(combined).collect::<Option<_>>()?;
    let content = sum.iter().fold(0, |d, &a| greatest_divisor(d, a)).max(1);
    Some(sum.into_iter().map(|a| a / content).collect())
}

// ---- the two sentences ----

/// What was tested.
#[derive(Debug, Default)]
pub struct Tested {
    pub systems: usize,
    pub accepted: usize,
    /// Systems of which a sequence was tested, and those among them whose run shifted, that have right sides, of which rows were dropped.
    pub used: usize,
    pub shifted: usize,
    pub with_sides: usize,
    pub dropped: usize,
    /// Sequences for each sentence, forward and backward.
    pub sequences: [usize; 2],
    /// Of those the ones with denominator 1.
    pub integer: usize,
    /// Backward: a listed relation took part; the input fails somewhere from k on; and it fails at k + S - 1.
    pub with_relations: usize,
    pub fails_below: usize,
    pub fails_just_below: usize,
    /// No sequence on the window, or numbers that are too large.
    pub unsolvable: usize,
    pub too_large: usize,
    pub differences: Vec<String>,
}

/// How many indices the backward sentence gives up: S as it is promised, or S - 1 as a planted fault.
#[derive(Clone, Copy, PartialEq, Eq)]
pub enum Lost {
    Shifts,
    OneLess,
}

impl Tested {
    /// The k-th system, run by a subject.
    pub fn test(&mut self, k: usize, lost: Lost, subject: &dyn Subject) {
        let mut random = Random::new((77 << 40) + k as u64);
        let system = system(&mut random);
        self.systems += 1;
        let Some(ran) = Ran::new(&system, subject) else { return };
        self.accepted += 1;
        if ran.shifts > MOST_SHIFTS {
            return;
        }
        let shifts = ran.shifts;
        let case = ran.on(window(&mut random, &ran));
        let before = self.sequences;
        let from = if lost == Lost::OneLess { (shifts - 1).max(0) } else { shifts };
        for tested in [self.forward(&case, &mut random), self.backward(&case, from, &mut random)] {
            match tested {
                Ok(()) => {}
                Err(Failed::Lacking(Lacking::Unsolvable)) => self.unsolvable += 1,
                Err(Failed::Lacking(Lacking::TooLarge)) => self.too_large += 1,
                Err(Failed::Sentence(says)) => {
                    self.differences.push(format!("system {k}, from {} on: {says}", case.window.k))
                }
            }
        }
        if self.sequences != before {
            self.used += 1;
            self.shifted += (shifts > 0) as usize;
            self.with_sides += system.rows.iter().any(|row| !row.right().is_zero()) as usize;
            self.dropped += (ran.left.equations < ran.asked.equations) as usize;
        }
    }

    /// What satisfies the input from k on satisfies the output from k on. An output row at n is made of input rows up to n + S, so that
    /// on a window the output is known up to last - S.
    fn forward(&mut self, case: &Case, random: &mut Random) -> Result<(), Failed> {
        let Case { input, output, window, shifts } = case;
        let conditions = Conditions::new(1 + input.values(*window), input.all(*window).ok_or(TOO_LARGE)?)?;
        let claimed = output.said(window.k, window.last - shifts, *window).ok_or(TOO_LARGE)?;
        for _ in 0..SEQUENCES {
            let values = conditions.sequence(random).ok_or(TOO_LARGE)?;
            holds("the output", &claimed, &values)?;
            self.sequences[0] += 1;
            self.integer += (values[0] == 1) as usize;
        }
        Ok(())
    }

    /// What satisfies the output from k on satisfies the input's equations from k + S on, and its relations with n0 from k on.
    fn backward(&mut self, case: &Case, from: i128, random: &mut Random) -> Result<(), Failed> {
        let Case { input, output, window, shifts } = case;
        let conditions = Conditions::new(1 + output.values(*window), output.all(*window).ok_or(TOO_LARGE)?)?;
        let claimed = input.said(window.k + from, window.last, *window).ok_or(TOO_LARGE)?;
        let just_below = window.k + shifts - 1;
        let below = input.equations(window.k, just_below, *window).ok_or(TOO_LARGE)?;
        let listed = output.inside(window.last, *window).count() > input.inside(window.last, *window).count();
        for _ in 0..SEQUENCES {
            let values = conditions.sequence(random).ok_or(TOO_LARGE)?;
            holds("the input", &claimed, &values)?;
            self.sequences[1] += 1;
            self.integer += (values[0] == 1) as usize;
            self.with_relations += listed as usize;
            let failing = below.iter().filter(|(_, form)| sum_of(form, &values).is_some_and(|sum| sum != 0));
            let latest = failing.map(|(n, _)| *n).max();
            self.fails_below += latest.is_some() as usize;
            self.fails_just_below += (latest == Some(just_below)) as usize;
        }
        Ok(())
    }

    pub fn print(&self) {
        let [forward, backward] = self.sequences;
        println!(
            "  {} systems, {} accepted, {} tested: {} with shifts, {} with right sides, {} with dropped rows",
            self.systems, self.accepted, self.used, self.shifted, self.with_sides, self.dropped
        );
        println!("  {forward} sequences forward, {backward} backward, {} of both without a denominator", self.integer);
        println!(
            "  backward: listed relations took part in {}, the input fails below k + S in {}",
            self.with_relations, self.fails_below
        );
        println!(
            "  and at k + S - 1 in {}; left out: {} without a sequence, {} too large",
            self.fails_just_below, self.unsolvable, self.too_large
        );
    }
}

/// A leading run that accepted: its stores before and after.
struct Ran {
    asked: Asked,
    left: Asked,
    shifts: i128,
    before: [Vec<i64>; 2],
    after: [Vec<i64>; 2],
}

impl Ran {
    fn new(system: &System, subject: &dyn Subject) -> Option<Ran> {
        let Sizes { m, l, t } = system.sizes;
        let asked = Asked { m, equations: system.rows.len(), l, t, count: system.relations.len() };
        let mut before = [vec![0; row_store(asked.equations)], vec![0; RELATION_STORE]];
        let [rows, relations] = &mut before;
        store(system, rows, relations);
        let mut after = before.clone();
        let [rows, relations] = &mut after;
        let mut result = [0; RESULT];
        if subject.run(Side::Leading, rows, relations, asked, &mut result) != 0 {
            return None;
        }
        let left = Asked { count: result[0] as usize, equations: result[8] as usize, ..asked };
        Some(Ran { asked, left, shifts: result[1] as i128, before, after })
    }

    fn on(&self, window: Window) -> Case<'_> {
        let (input, output) = (Held::new(self.asked, &self.before), Held::new(self.left, &self.after));
        Case { input, output, window, shifts: self.shifts }
    }
}

/// A run, and the window on which it is looked at.
struct Case<'a> {
    input: Held<'a>,
    output: Held<'a>,
    window: Window,
    shifts: i128,
}

enum Failed {
    Lacking(Lacking),
    Sentence(String),
}

const TOO_LARGE: Failed = Failed::Lacking(Lacking::TooLarge);

impl From<Lacking> for Failed {
    fn from(lacking: Lacking) -> Failed {
        Failed::Lacking(lacking)
    }
}

fn holds(what: &str, claimed: &[(i128, Form)], values: &[i128]) -> Result<(), Failed> {
    for (n, form) in claimed {
        let sum = sum_of(form, values).ok_or(TOO_LARGE)?;
        if sum != 0 {
            return Err(Failed::Sentence(format!("{what} fails at {n}: {sum} with denominator {}", values[0])));
        }
    }
    Ok(())
}

/// A first index near zero, or a little below the n0 of a relation, and as many n as the shifts need and some more.
fn window(random: &mut Random, ran: &Ran) -> Window {
    let n0s = ran.after[1].chunks(RELATION).take(ran.left.count).map(|relation| relation[0] as i128);
    let near: Vec<i128> = n0s.filter(|n0| n0.abs() < 1_000).collect();
    let k = if near.is_empty() || random.one_in(3) {
        random.between(-6, 6)
    } else {
        random.pick(&near) - random.between(0, 4)
    };
    Window { k, last: k + ran.shifts + BEYOND }
}

#[cfg(test)]
mod tests {
    use super::*;
    use crate::subject::Outside;
    use outside::fault::Fault;

    fn found(lost: Lost, fault: Option<Fault>) -> usize {
        let mut tested = Tested::default();
        (0..4_000).for_each(|k| tested.test(k, lost, &Outside(fault)));
        tested.differences.len()
    }

    /// At which n from k on the input and the output fail for a sequence that is 1 at some places, (index, column), and otherwise 0.
    fn failing(sheet: &str, k: i128, ones: &[(i128, usize)]) -> (i128, [Vec<i128>; 2]) {
        let system = outside::sheet::read(sheet.as_bytes(), None).map(|sheet| sheet.system).expect("a whole sheet");
        let ran = Ran::new(&system, &Outside(None)).expect("an accepted system");
        let Case { input, output, window, shifts } = ran.on(Window { k, last: k + 20 });
        let mut values = vec![0; 1 + input.values(window)];
        values[0] = 1;
        for &(index, column) in ones {
            values[(index - k - system.sizes.t as i128) as usize * system.sizes.m + column] = 1;
        }
        let fails = |held: &Held| {
            let forms = held.all(window).expect("small numbers").into_iter();
            forms.filter(|(_, form)| sum_of(form, &values) != Some(0)).map(|(n, _)| n).collect()
        };
        (shifts, [fails(&input), fails(&output)])
    }

    /// The examples of `docs/MATHEMATICS.md`.
    #[test]
    fn examples() {
        let k1 = "3 2 0 -3\n2\n2 0 1 2 -1 1 -3 2 1 -1\n2 0 1 1 -2 -1 2 2 -2 1\n0\n0\n";
        let twice = "3 2 2 0\n2\n2 2 1 1 1 1 1 1 -1\n3 2 1 1 1 1 1 1 -1 0 2 1 -1\n0\n0\n";
        let once_each = "3 2 1 0\n2\n1 0 1 1 1\n1 0 2 1 1\n0\n0\n";
        for k in [-4, 0, 1, 5] {
            assert_eq!(failing(k1, k, &[(k - 3, 2)]), (1, [vec![k], vec![]]));
            assert_eq!(failing(twice, k, &[(k, 2), (k + 1, 2)]), (2, [vec![k, k + 1], vec![]]));
            assert_eq!(failing(once_each, k, &[(k, 1), (k, 2)]), (2, [vec![k, k], vec![]]));
        }
    }

    #[test]
    fn both_sentences() {
        assert_eq!(found(Lost::Shifts, None), 0);
        assert!(found(Lost::OneLess, None) > 100);
    }

    /// Wrong eliminations are found by the sentences alone.
    #[test]
    fn wrong_runs() {
        let forward =
            [Fault::ShiftWithoutIncrement, Fault::PolynomialFactor, Fault::SideNotShifted, Fault::SideNotCombined];
        let backward = [Fault::NoNegativeRoots, Fault::NoPositiveRoots, Fault::NoRootZero, Fault::LeftZeroDropped];
        for fault in forward.into_iter().chain(backward) {
            assert!(found(Lost::Shifts, Some(fault)) > 0, "{fault:?}");
        }
    }
}
