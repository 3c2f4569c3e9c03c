//! `wurgalm series` on random systems, against the equations and relations of the input alone and by exact numbers of our own:
//! nothing of `rust/front/src/series` is used but the text that the command writes.
//!
//! *What is drawn.* The systems of [`crate::systems`] as they come, of 1 to 4 unknowns, D from 0 to 4 and 0 to 6 equations, with right
//! sides, relations, common roots and coefficients up to the limits; some of the largest; and the recurrences of random differential
//! sheets. An eighth has one relation more, which contradicts its equations or repeats them. Each is asked for two-sided sequences,
//! for those from an index on or for those with zeros below one, near an index at which it has a relation or near n = 0, and for some
//! terms. A system that a run refuses, or whose roots and relations are too far away for `series`, has no terms: it is counted and
//! another one is drawn.
//!
//! *What is tested.*
//! - All values are computed from random constants, twice, the second time with one constant changed. Every equation of the input at
//!   every n whose values are all shown, and every relation, holds exactly.
//! - [`Conditions`] has what the input says of a window that reaches further than the roots and relations do. What is called forced, or
//!   follows, is implied by it; what is called free is exactly what it leaves free, so that any numbers there have values before and
//!   after them with which the input holds in the window. A solution on the shown range is so the restriction of one on the window:
//!   what equations outside the range force is forced.
//! - Starting values are accepted or refused as they agree with it; one that cannot be is told with what it has to be, and is accepted
//!   with that.
//! - Where the ranks are the number of unknowns, the constants that are told are as many as the window leaves free.
//! - Where there is no such sequence, the window has none, and what the input says below the n that is told has one. What it says up to
//!   there has none either, or up to n + S, since a row of the leading run at n is made of the input's at n to n + S.
//!
//! Where numbers become longer than [`conditions`] works with, what it would settle is left out, and it is counted.

pub mod conditions;
pub mod text;
pub mod whole;

use crate::differentials::whole_differential;
use crate::random::Random;
use crate::systems::{fits, large_system, system};
use conditions::{Added, Conditions, Kind, Place, Sum, TooLarge};
use front::command::End;
use outside::elimination::{run, Run, Side};
use outside::polynomial::Polynomial;
use outside::row::Row;
use outside::sheet::{write, Sheet};
use outside::system::{Relation, System};
use std::collections::BTreeMap;
use text::{Fraction, Free};
use whole::Whole;

/// A window with more values is not solved.
const VALUES: i64 = 400;
/// Indices of a window beyond all that matters.
const MARGIN: i64 = 4;

/// What a subject writes for arguments and a sheet: the command, or a wrong one.
pub type Series<'a> = &'a dyn Fn(&[String], &[u8]) -> Result<String, Told>;

/// Why the command has written no terms.
#[derive(Clone, Debug, PartialEq, Eq)]
pub enum Told {
    /// A run refuses the system.
    Refused,
    /// The roots and relations are too far away.
    Far,
    /// There is no such sequence, or a starting value cannot be.
    Cannot(String),
    /// It was used wrongly.
    Misused(String),
}

/// The command itself.
pub fn command(words: &[String], sheet: &[u8]) -> Result<String, Told> {
    let written = front::series::of_sheet(words, sheet);
    written.map(|text| crate::cases::text(&text)).map_err(|end| match end {
        End::Refused(message) if message.contains("refused with ") => Told::Refused,
        End::Refused(message) if message.contains(", too far from ") => Told::Far,
        End::Refused(message) => Told::Cannot(message),
        End::Misused(message) | End::Failed(message) => Told::Misused(message),
        End::Closed => Told::Misused("nobody reads the answer".into()),
    })
}

// ---- cases ----

/// A system, and what is asked of it.
pub struct Case {
    pub system: System,
    pub kind: Kind,
    pub shown: (i64, i64),
}

impl Case {
    /// The k-th case.
    pub fn drawn(k: usize) -> (Case, Random) {
        let mut random = Random::new((78 << 40) + k as u64);
        let mut system = match random.below(40) {
            0 => large_system(&mut random),
            1..=8 => recurrence(&mut random),
            _ => system(&mut random),
        };
        let near: Vec<i128> = system.relations.iter().map(|relation| relation.n0).filter(|n0| n0.abs() < 99).collect();
        let n = if near.is_empty() || random.one_in(3) {
            random.between(-6, 6) as i64
        } else {
            random.pick(&near) as i64 - random.below(4) as i64
        };
        if random.one_in(8) {
            contradict(&mut random, &mut system, n);
        }
        let begin = n + system.sizes.t;
        let kind = random.pick(&[Kind::TwoSided, Kind::First(n), Kind::ZeroBelow(begin)]);
        // Behind the first terms are those that follow from D vectors, where the roots and relations are passed.
        let first = begin + random.pick(&[0, 0, 0, 2, 2, 14]);
        let last = first + random.below(system.sizes.d() as usize + 6) as i64 + random.pick(&[0, 0, 0, 0, 0, 12]);
        (Case { system, kind, shown: (first, last) }, random)
    }

    fn sheet(&self) -> Vec<u8> {
        write(&Sheet { system: self.system.clone(), order: Vec::new() })
    }

    fn words(&self, more: &[String]) -> Vec<String> {
        let (first, last) = self.shown;
        let kind = match self.kind {
            Kind::TwoSided => Vec::new(),
            Kind::First(k) => vec!["--first".into(), k.to_string()],
            Kind::ZeroBelow(index) => vec!["--zero-below".into(), index.to_string()],
        };
        let range = ["--from".into(), first.to_string(), "--terms".into(), (last - first + 1).to_string()];
        let names = ["--names".into(), text::NAMES.join(",")];
        [kind, range.to_vec(), names.to_vec(), more.to_vec()].concat()
    }

    fn places(&self) -> impl Iterator<Item = Place> + '_ {
        let ((first, last), m) = (self.shown, self.system.sizes.m);
        (first..=last).flat_map(move |index| (1..=m).map(move |column| (index, column)))
    }

    pub fn shown(&self) -> String {
        format!("{:?}, {:?}, sheet\n{}", self.kind, self.words(&[]).join(" "), crate::cases::text(&self.sheet()))
    }
}

/// A relation near n that has the left side of an equation, or of two together, and another right side.
fn contradict(random: &mut Random, system: &mut System, n: i64) {
    if system.rows.is_empty() || system.relations.len() == outside::RELATIONS {
        return;
    }
    let (one, number) = (Polynomial::new(vec![1]), |k| Polynomial::new(vec![k]));
    let mut row = random.pick(&system.rows);
    if random.one_in(2) {
        row = row.combined(&one, &random.pick(&system.rows), &number(random.between(-2, 2)));
    }
    row.set_right(row.right().plus(&number(random.between(-1, 1))));
    if fits(&row) {
        system.relations.push(Relation { n0: i128::from(n) + random.between(-1, 5), row });
    }
}

fn recurrence(random: &mut Random) -> System {
    let sheet = whole_differential(random);
    outside::differential::read(&sheet, None).expect("a whole sheet").recurrence(None)
}

/// Whether a relation says anything.
fn says(row: &Row) -> bool {
    !row.is_zero()
}

// ---- the window ----

/// Indices, each from the first to the last.
struct Window {
    /// Those that are looked at.
    all: (i64, i64),
    /// Those up to the last root of the leading run, down to the first one of the trailing run, and of every relation. Outside stand as
    /// many as there are shifts and some more.
    inner: (i64, i64),
    /// Those of the leading run.
    shifts: i64,
    /// Whether the rank is the number of unknowns on each side that matters, so that the sequences are settled by the inner indices.
    is_whole: bool,
}

/// What has to be looked at; none where that is too much.
fn window(case: &Case) -> Option<Window> {
    let (sizes, kind) = (case.system.sizes, case.kind);
    let leading = run(&case.system, Side::Leading, None).ok()?;
    let trailing = run(&case.system, Side::Trailing, None).ok();
    let relations = |system: &System| -> Vec<i128> {
        let counted = system.relations.iter().filter(|relation| kind.counts(relation.n0) && says(&relation.row));
        counted.map(|relation| relation.n0).collect()
    };
    let mut all = [relations(&case.system), relations(&leading.system)].concat();
    let beyond = |run: &Run| run.shifts as i64 + sizes.d() + MARGIN;
    let mut high = case.shown.1.max(leading.root.map_or(i64::MIN, |root| root as i64 + sizes.l));
    let mut low = case.shown.0;
    if let (Kind::TwoSided, Some(trailing)) = (kind, &trailing) {
        all.extend(relations(&trailing.system));
        low = low.min(trailing.root.map_or(i64::MAX, |root| root as i64 + sizes.t));
    }
    for n0 in all.into_iter().map(|n0| n0 as i64) {
        (low, high) = (low.min(n0 + sizes.t), high.max(n0 + sizes.l));
    }
    let first = match kind {
        Kind::TwoSided => low,
        Kind::First(k) => k + sizes.t,
        Kind::ZeroBelow(index) => index,
    };
    let last = high.max(first + sizes.d());
    let low = if kind == Kind::TwoSided { first - trailing.as_ref().map_or(0, beyond) } else { first };
    let high = last + beyond(&leading);
    let is_whole = leading.rank() == sizes.m && (kind != Kind::TwoSided || trailing?.rank() == sizes.m);
    let window = Window { all: (low, high), inner: (first, last), shifts: leading.shifts as i64, is_whole };
    ((high - low) * sizes.m as i64 <= VALUES).then_some(window)
}

impl Case {
    /// Every n of which something is said of a window, rising.
    fn ns(&self, (low, high): (i64, i64)) -> Vec<i64> {
        let sizes = self.system.sizes;
        let Kind::ZeroBelow(index) = self.kind else { return (low - sizes.t..=high - sizes.l).collect() };
        // All values are 0 below: a right side of degree 15 that is 0 at 16 places is 0 everywhere.
        let begin = index - sizes.l - 16;
        let n0s = self.system.relations.iter().map(|relation| relation.n0 as i64).filter(|&n0| n0 < begin);
        let mut ns: Vec<i64> = n0s.chain(begin..=high - sizes.l).collect();
        ns.sort_unstable();
        ns.dedup();
        ns
    }

    /// What the input says of a window; none where that contradicts itself.
    fn conditions(&self, window: (i64, i64), shown: (i64, i64)) -> Result<Option<Conditions>, TooLarge> {
        let (sizes, mut conditions) = (self.system.sizes, Conditions::new(self.system.sizes.m, window, shown));
        let (above, others): (Vec<i64>, Vec<i64>) = self.ns(window).into_iter().partition(|n| n + sizes.l > shown.1);
        let order: Vec<i64> = above.into_iter().rev().chain(others).collect();
        Ok(conditions.add_all(&self.system, self.kind, &order)?.is_none().then_some(conditions))
    }

    /// Whether the runs that are needed accept the system.
    fn is_run(&self) -> bool {
        let is_run = |side| run(&self.system, side, None).is_ok();
        is_run(Side::Leading) && (self.kind != Kind::TwoSided || is_run(Side::Trailing))
    }

    /// Whether equation `number` speaks at n of values that are 0 alone, and has a right side there.
    fn is_unloaded(&self, number: usize, n: i64) -> bool {
        let Some(row) = number.checked_sub(1).and_then(|at| self.system.rows.get(at)) else { return false };
        self.kind.is_zero(n + self.system.sizes.l) && !Sum::at(row, n, self.kind).right.is_zero()
    }

    /// The first n at which the input contradicts what it says below, if there is one in the window.
    fn contradiction(&self, window: (i64, i64)) -> Result<Option<i64>, TooLarge> {
        // With no index shown the unknowns go from the bottom up, as the n do.
        let mut conditions = Conditions::new(self.system.sizes.m, window, (window.1 + 1, window.1));
        conditions.add_all(&self.system, self.kind, &self.ns(window))
    }
}

// ---- what is tested ----

/// What was tested.
#[derive(Debug, Default)]
pub struct Tested {
    /// Systems that were drawn, and those of them that runs refused and whose roots or relations are too far away.
    pub drawn: usize,
    pub refused: usize,
    pub far: usize,
    /// Systems with an answer: terms, or that there is no such sequence.
    pub answered: usize,
    pub none: usize,
    /// Of those without a sequence, the ones that the window settles.
    pub contradictions: usize,
    /// Sums that were worked out of the terms.
    pub sums: usize,
    /// Systems whose verdicts were held against the conditions, and the values among them.
    pub solved: usize,
    pub free: usize,
    pub forced: usize,
    pub following: usize,
    /// Systems whose constants were counted.
    pub counted: usize,
    /// Starting values that were accepted and refused.
    pub accepted_starts: usize,
    pub refused_starts: usize,
    pub too_large: usize,
    pub differences: Vec<String>,
}

enum Fault {
    Difference(String),
    TooLarge,
}

impl From<TooLarge> for Fault {
    fn from(_: TooLarge) -> Fault {
        Fault::TooLarge
    }
}

fn difference<T>(says: impl Into<String>) -> Result<T, Fault> {
    Err(Fault::Difference(says.into()))
}

/// The sum of a row at n for values, times their denominators, less the right side.
fn sum_of(row: &Row, n: i64, kind: Kind, values: &BTreeMap<Place, Fraction>) -> Whole {
    let sum = Sum::at(row, n, kind);
    let (mut above, mut below) = (sum.right.negated(), Whole::from(1));
    for (place, factor) in &sum.factors {
        let value = &values[place];
        above = above.times(&value.denominator).plus(&factor.times(&value.numerator).times(&below));
        below = below.times(&value.denominator);
    }
    above
}

impl Tested {
    /// Draws systems until so many have an answer.
    pub fn test(&mut self, answers: usize, series: Series) {
        while self.answered < answers {
            let (case, mut random) = Case::drawn(self.drawn);
            self.drawn += 1;
            match self.judged(&case, &mut random, series) {
                Ok(()) => {}
                Err(Fault::TooLarge) => self.too_large += 1,
                Err(Fault::Difference(says)) => {
                    self.differences.push(format!("system {}, {says}\n{}", self.drawn - 1, case.shown()))
                }
            }
        }
    }

    fn judged(&mut self, case: &Case, random: &mut Random, series: Series) -> Result<(), Fault> {
        match series(&case.words(&["--free".into()]), &case.sheet()) {
            Ok(text) => {
                self.answered += 1;
                if !case.is_run() {
                    return difference("it is not refused");
                }
                let Some(free) = Free::read(&text) else { return difference(format!("no answer of --free: {text}")) };
                self.heading_holds(case, &free)?;
                self.terms_hold(case, &free, random, series)?;
                let Some(window) = window(case) else { return Err(Fault::TooLarge) };
                let conditions = |shown| case.conditions(window.all, shown);
                let Some(known) = conditions(case.shown)? else { return difference("there is no such sequence") };
                self.verdicts_hold(&free, &known)?;
                self.starts_hold(case, known, random, series)?;
                let inner = (window.inner.0.min(case.shown.0), window.inner.1.max(case.shown.1));
                let constants = conditions(inner)?.map_or(0, |known| known.free().len());
                if window.is_whole != free.constants().is_some() || free.constants().is_some_and(|all| all != constants)
                {
                    return difference(format!("there are {constants} constants, and it is told {:?}", free.heading));
                }
                self.counted += window.is_whole as usize;
                Ok(())
            }
            Err(Told::Cannot(message)) => {
                self.answered += 1;
                self.none += 1;
                let Some(n) = text::failing(&message) else {
                    return difference(format!("no index is told: {message}"));
                };
                if let Some(number) = text::unloaded(&message) {
                    return match case.is_unloaded(number, n) {
                        true => Ok(()),
                        false => difference(message),
                    };
                }
                let Some(window) = window(case) else { return Err(Fault::TooLarge) };
                self.contradictions += 1;
                match case.contradiction(window.all)? {
                    None => difference(format!("there is such a sequence: {message}")),
                    // A row of the leading run at n is made of the input's at n to n + S.
                    Some(found) if !(n..=n + window.shifts).contains(&found) => {
                        difference(format!("the input contradicts itself at {found}: {message}"))
                    }
                    Some(_) => Ok(()),
                }
            }
            Err(Told::Refused) => {
                self.refused += 1;
                match case.is_run() {
                    true => difference("it is refused"),
                    false => Ok(()),
                }
            }
            Err(Told::Far) => {
                self.far += 1;
                Ok(())
            }
            Err(Told::Misused(message)) => difference(message),
        }
    }

    /// The first lines: the free constants by name, and the naive count D × m.
    fn heading_holds(&self, case: &Case, free: &Free) -> Result<(), Fault> {
        let naive = format!("the naive recurrence takes {}, ", case.system.sizes.d() as usize * case.system.sizes.m);
        if !free.verdicts.keys().copied().eq(case.places()) {
            return difference("not every value has a verdict");
        }
        if free.listed() != Some(free.free()) || !free.heading.iter().any(|line| line.starts_with(&naive)) {
            return difference(format!("the first lines are {:?}", free.heading));
        }
        Ok(())
    }

    /// Values from constants: they are those that were given, and the input holds wherever all its values are shown.
    fn terms_hold(&mut self, case: &Case, free: &Free, random: &mut Random, series: Series) -> Result<(), Fault> {
        let mut constants: Vec<(Place, String)> = free.free().into_iter().map(|at| (at, fraction(random))).collect();
        for _ in 0..2 {
            let given = |(at, value): &(Place, String)| format!("{}={value}", text::named(*at));
            let start: Vec<String> = constants.iter().map(given).collect();
            let words = if start.is_empty() { Vec::new() } else { vec!["--start".into(), start.join(",")] };
            let text = match series(&case.words(&words), &case.sheet()) {
                Ok(text) => text,
                Err(told) => return difference(format!("with {start:?}: {told:?}")),
            };
            let Some(values) = text::terms(&text, case.system.sizes.m) else {
                return difference(format!("with {start:?} no table of numbers: {text}"));
            };
            let is_given =
                |(at, value): &(Place, String)| Fraction::read(value).is_some_and(|value| same(&values[at], &value));
            if !values.keys().copied().eq(case.places()) || !constants.iter().all(is_given) {
                return difference(format!("with {start:?} the table is {text}"));
            }
            self.input_holds(case, &values)?;
            if !constants.is_empty() {
                let at = random.below(constants.len());
                constants[at].1 = fraction(random);
            }
        }
        Ok(())
    }

    fn input_holds(&mut self, case: &Case, values: &BTreeMap<Place, Fraction>) -> Result<(), Fault> {
        let (sizes, kind, (first, last)) = (case.system.sizes, case.kind, case.shown);
        let is_shown = |index: i64| (first..=last).contains(&index) || kind.is_zero(index);
        let is_inside = |n: i64| (sizes.t..=sizes.l).all(|block| is_shown(n + block));
        let equations =
            (first - sizes.l..=last - sizes.t).flat_map(|n| case.system.rows.iter().map(move |row| (n, row)));
        let relations = case.system.relations.iter().map(|relation| (relation.n0 as i64, &relation.row));
        for (n, row) in equations.chain(relations).filter(|&(n, _)| is_inside(n) && kind.counts(n.into())) {
            if !sum_of(row, n, kind, values).is_zero() {
                return difference(format!("the input does not hold at n = {n}"));
            }
            self.sums += 1;
        }
        Ok(())
    }

    /// What is free, forced and follows, by the conditions.
    fn verdicts_hold(&mut self, free: &Free, conditions: &Conditions) -> Result<(), Fault> {
        for (&place, verdict) in &free.verdicts {
            let Some(sum) = verdict.sum(place) else { continue };
            if !conditions.implies(&sum)? {
                return difference(format!("{} is not {verdict:?}", text::named(place)));
            }
        }
        if conditions.free() != free.free() {
            return difference(format!("free are {:?} and not {:?}", conditions.free(), free.free()));
        }
        let forced = free.verdicts.values().filter(|verdict| verdict.is_forced()).count();
        self.solved += 1;
        self.free += free.free().len();
        self.forced += forced;
        self.following += free.verdicts.len() - forced - free.free().len();
        Ok(())
    }

    /// Random starting values, one behind another, until one cannot be.
    fn starts_hold(
        &mut self,
        case: &Case,
        mut known: Conditions,
        random: &mut Random,
        series: Series,
    ) -> Result<(), Fault> {
        let mut places: Vec<Place> = case.places().collect();
        let mut start: Vec<String> = Vec::new();
        for _ in 0..(1 + random.below(4)).min(places.len()) {
            let (place, value) = (places.swap_remove(random.below(places.len())), fraction(random));
            let given = Fraction::read(&value).expect("a fraction");
            start.push(format!("{}={value}", text::named(place)));
            let added = known.add(&Sum::single(place, given.numerator, given.denominator))?;
            let told = series(&case.words(&["--start".into(), start.join(",")]), &case.sheet());
            match (added, told) {
                (Added::Holds, Ok(_)) => self.accepted_starts += 1,
                (Added::Contradicts, Err(Told::Cannot(message))) => {
                    let told = || difference(format!("with {start:?} it is told: {message}"));
                    let Some((at, number)) = text::settled(&message) else { return told() };
                    let Some(is) = Fraction::read(&number).filter(|_| at == place) else { return told() };
                    let right = [&start[..start.len() - 1], &[format!("{}={number}", text::named(at))]].concat();
                    let taken = series(&case.words(&["--start".into(), right.join(",")]), &case.sheet()).is_ok();
                    if !taken || !known.implies(&Sum::single(at, is.numerator, is.denominator))? {
                        return told();
                    }
                    self.refused_starts += 1;
                    return Ok(());
                }
                (added, told) => return difference(format!("with {start:?}: {added:?}, and it is told {told:?}")),
            }
        }
        Ok(())
    }

    pub fn print(&self) {
        println!(
            "  {} systems drawn, {} refused by a run, {} with roots or relations too far away, {} answered",
            self.drawn, self.refused, self.far, self.answered
        );
        println!("  {} of those without a sequence, {} by several equations together", self.none, self.contradictions);
        println!(
            "  {} sums of the input at shown values; verdicts of {} systems, {} free, {} forced, {} that follow",
            self.sums, self.solved, self.free, self.forced, self.following
        );
        println!(
            "  the constants of {} counted; starting values: {} accepted, {} refused; left out: {} too large to be solved here",
            self.counted, self.accepted_starts, self.refused_starts, self.too_large
        );
    }
}

/// A small fraction.
fn fraction(random: &mut Random) -> String {
    let (above, below) = (random.between(-20, 20), random.pick(&[1, 1, 2, 3, 7]));
    if below == 1 {
        above.to_string()
    } else {
        format!("{above}/{below}")
    }
}

fn same(a: &Fraction, b: &Fraction) -> bool {
    a.numerator.times(&b.denominator) == b.numerator.times(&a.denominator)
}

#[cfg(test)]
mod tests {
    use super::*;

    /// The differences that are found of a command whose answers are changed.
    fn found(change: impl Fn(Result<String, Told>) -> Result<String, Told>) -> usize {
        let mut tested = Tested::default();
        tested.test(60, &|words, sheet| change(command(words, sheet)));
        tested.differences.len()
    }

    /// Every answer with some text in the place of other text.
    fn with(from: &str, to: &str) -> usize {
        found(|told| match told {
            Ok(text) => Ok(text.replace(from, to)),
            Err(Told::Cannot(message)) => Err(Told::Cannot(message.replace(from, to))),
            other => other,
        })
    }

    #[test]
    fn the_command() {
        let mut tested = Tested::default();
        tested.test(150, &command);
        assert_eq!(tested.differences, Vec::<String>::new());
        let counts = [tested.sums, tested.solved, tested.free, tested.forced, tested.following, tested.counted];
        assert!(counts.iter().all(|&count| count > 50), "{tested:?}");
        assert!(tested.contradictions > 5 && tested.refused_starts > 20 && tested.too_large < 10, "{tested:?}");
    }

    /// Ten times as many as the comparison takes, on request.
    #[test]
    #[ignore]
    fn many() {
        let mut tested = Tested::default();
        tested.test(10_000, &command);
        tested.print();
        assert_eq!(tested.differences, Vec::<String>::new());
    }

    #[test]
    fn wrong_answers() {
        let wrong = [
            ("is 0, forced", "is 1, forced"),
            ("is 0, forced", "is free"),
            (" is free", " is 0, forced"),
            ("follows: -", "follows: "),
            ("constants free", "constant free"),
            ("naive recurrence takes 4", "naive recurrence takes 3"),
            ("1 constant more", "2 constants more"),
            ("cannot hold at n = ", "cannot hold at n = 9"),
            ("cannot hold at n = -", "cannot hold at n = -9"),
            (") is 0 by", ") is 1 by"),
            ("/2", "/3"),
            ("-1/", "1/"),
        ];
        for (from, to) in wrong {
            assert!(with(from, to) > 0, "{from} {to}");
        }
    }

    /// A command that finds a sequence nowhere, and one that takes every starting value.
    #[test]
    fn wrong_refusals() {
        let never = "equation 1 of the input cannot hold at n = 0 beside what stands before it";
        assert!(found(|told| told.and(Err(Told::Cannot(never.into())))) > 30);
        assert!(found(|told| told.or_else(|_| Ok("0 constants free\nnaive\n\n".into()))) > 10);
    }
}
