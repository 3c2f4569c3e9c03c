//! A system with its runs, which sequences of it are meant, and how far its roots and relations reach.

use super::clock::Late;
use super::integers::Integer;
use std::fmt;
use wurgalm::{Equation, Refusal, Report, System};

/// Which sequences are meant.
#[derive(Clone, Copy, Debug, PartialEq, Eq)]
pub enum Kind {
    /// The equations hold at every n.
    TwoSided,
    /// The equations hold at every n from k on (SCOPE 1.25).
    First(i64),
    /// The equations hold at every n, and the values below an index are 0.
    ZeroBelow(i64),
}

impl Kind {
    /// Whether a relation at n0 counts.
    fn counts(self, n0: i64) -> bool {
        !matches!(self, Kind::First(k) if n0 < k)
    }

    /// Whether the values at an index are 0 from the start.
    pub fn is_zero(self, index: i64) -> bool {
        matches!(self, Kind::ZeroBelow(first) if index < first)
    }
}

/// How far a window may reach past its range.
const REACH: i64 = 512;

/// A system with its runs.
pub struct Model {
    pub input: System,
    pub leading: System,
    pub report: Report,
    trailing: Option<(System, Report)>,
}

/// Why there is no answer.
#[derive(Debug)]
pub enum Lacking {
    /// No sequence: the sentence says which equation cannot hold.
    None(String),
    /// The root or relation is too far away.
    Far(String),
    /// The limit is over.
    Late,
}

impl From<Late> for Lacking {
    fn from(_: Late) -> Lacking {
        Lacking::Late
    }
}

/// A run that was refused.
#[derive(Debug)]
pub enum Unrun {
    Leading(Refusal),
    Trailing(Refusal),
}

const RELATION: &str = "relation";

/// An equation or a relation as messages name it.
pub struct Named {
    what: &'static str,
    number: usize,
    of: &'static str,
}

impl fmt::Display for Named {
    fn fmt(&self, formatter: &mut fmt::Formatter) -> fmt::Result {
        write!(formatter, "{} {} of the {}", self.what, self.number, self.of)
    }
}

/// Whether an equation says something of some value at n.
fn ties(equation: &Equation, n: i64) -> bool {
    equation.terms().any(|(_, _, p)| !Integer::value(p, n).is_zero())
}

fn equations<'a>(of: &'static str, system: &'a System) -> impl Iterator<Item = (Named, Equation<'a>)> {
    system.equations().enumerate().map(move |(at, row)| (Named { what: "equation", number: at + 1, of }, row))
}

fn relations<'a>(of: &'static str, system: &'a System) -> impl Iterator<Item = (i64, Named, Equation<'a>)> {
    let named = move |number| Named { what: RELATION, number, of };
    system.relations().enumerate().map(move |(at, (n0, row))| (n0, named(at + 1), row))
}

impl Model {
    /// Runs the leading side, and for two-sided sequences the trailing side: without it nothing bounds the indices that
    /// matter.
    pub fn new(input: System, kind: Kind) -> Result<Model, Unrun> {
        let mut leading = input.clone();
        let report = leading.run_leading().map_err(Unrun::Leading)?;
        if kind != Kind::TwoSided {
            return Ok(Model { input, leading, report, trailing: None });
        }
        let mut trailing = input.clone();
        let below = trailing.run_trailing().map_err(Unrun::Trailing)?;
        Ok(Model { input, leading, report, trailing: Some((trailing, below)) })
    }

    /// The input and its runs, each with its name.
    fn systems(&self) -> impl Iterator<Item = (&'static str, &System)> {
        let runs = [("input", &self.input), ("leading run", &self.leading)].into_iter();
        runs.chain(self.trailing.as_ref().map(|(system, _)| ("trailing run", system)))
    }

    /// The relations that count, with the n of each.
    pub fn relations(&self, kind: Kind) -> impl Iterator<Item = (i64, Named, Equation<'_>)> {
        self.systems().flat_map(|(of, system)| relations(of, system)).filter(move |(n0, ..)| kind.counts(*n0))
    }

    /// The shifts of the leading and of the trailing run.
    fn shifts(&self) -> (i64, i64) {
        (self.report.shifts as i64, self.trailing.as_ref().map_or(0, |(_, report)| report.shifts as i64))
    }

    /// What has to hold at n, where all from `first` on are held: from the shifts of both runs on, the leading run's
    /// equations imply the others.
    pub fn needed_at(&self, n: i64, first: i64, kind: Kind) -> impl Iterator<Item = Equation<'_>> {
        let (up, down) = self.shifts();
        let is_first = n < first + up + down;
        let others = self.said_at(n, kind).filter(move |(named, _)| is_first || named.what == RELATION);
        others.map(|(_, row)| row).chain(self.leading.equations().filter(move |_| !is_first))
    }

    /// What is said at n: the equations, and the relations behind them.
    pub fn said_at(&self, n: i64, kind: Kind) -> impl Iterator<Item = (Named, Equation<'_>)> {
        let relations = self.relations(kind).filter(move |(n0, ..)| *n0 == n).map(|(_, named, row)| (named, row));
        self.systems().flat_map(|(of, system)| equations(of, system)).chain(relations)
    }

    /// Whether each unknown is given by a row, on each side that matters.
    pub fn is_settled(&self, kind: Kind) -> bool {
        let is_whole = |report: &Report| report.rank == self.input.sizes().m;
        let below = self.trailing.as_ref().is_some_and(|(_, report)| is_whole(report));
        is_whole(&self.report) && (kind != Kind::TwoSided || below)
    }

    /// The first index of a range where none is given.
    pub fn begin(&self, kind: Kind) -> i64 {
        match kind {
            Kind::TwoSided => 0,
            Kind::First(k) => k + self.input.sizes().t,
            Kind::ZeroBelow(index) => index,
        }
    }

    /// The lowest and the highest index that matter to a range: those of the roots and the relations, and so many more
    /// that nothing beyond them ties a value between them.
    pub fn reach(&self, kind: Kind, (first, last): (i64, i64)) -> Result<(i64, i64), Lacking> {
        let sizes = self.input.sizes();
        let span = sizes.l - sizes.t;
        let (mut low, mut high) = (first, self.report.root.map_or(i64::MIN, |root| root + sizes.l));
        for (n0, _, _) in self.relations(kind).filter(|(n0, _, row)| ties(row, *n0)) {
            (low, high) = (low.min(n0 + sizes.t), high.max(n0 + sizes.l));
        }
        let (up, down) = self.shifts();
        if let Some((_, report)) = &self.trailing {
            low = low.min(report.root.map_or(low, |root| root + sizes.t)) - down;
        }
        low = match kind {
            Kind::TwoSided => low - span - 1,
            Kind::First(k) => k + sizes.t,
            Kind::ZeroBelow(index) => index - span,
        };
        high = high.saturating_add(span + 1).max(low + span + down) + up;
        if first - low > REACH || high - last > REACH {
            let told =
                format!("the roots and relations reach from index {low} to {high}, too far from {first} to {last}");
            return Err(Lacking::Far(told));
        }
        Ok((low, high))
    }

    /// Where all values are 0, right sides have to be.
    pub fn below(&self, index: i64) -> Result<(), Lacking> {
        let last = index - self.input.sizes().l - 1;
        for (at, equation) in self.input.equations().enumerate() {
            let is_zero = |n: &i64| Integer::value(equation.right(), *n).is_zero();
            // A polynomial of degree 15 that is 0 at 16 places is 0.
            if let Some(n) = (0..16).map(|back| last - back).find(|n| !is_zero(n)) {
                let told = format!("equation {} cannot hold at n = {n}, where all its values are 0", at + 1);
                return Err(Lacking::None(told));
            }
        }
        Ok(())
    }
}
