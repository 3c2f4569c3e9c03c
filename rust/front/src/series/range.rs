//! Which values of a range of indices are free, and what the others are: the equations and relations of the input and
//! of its runs, at every n whose blocks lie in a window around the range, as exact linear equations.
//!
//! The unknowns outside the range are given first and the latest of the range next, so that what is left without a row
//! are the earliest values of the range that can be. The window reaches past the last root of the leading run, and on
//! the other side past the first root of the trailing one: there each vector follows from its neighbours (SCOPE 2.116,
//! 2.117) and nothing outside ties a value inside.
//!
//! Both sides of the range are worked towards it, and a vector outside is forgotten with the last equation that speaks
//! of it: what is left are the conditions on the D vectors beside it. Past all roots and relations the leading run
//! alone gives one vector after the other and changes none before it, so that those terms are there as they are found.

use super::clock::{Clock, Late};
use super::fractions::Fraction;
use super::integers::Integer;
use super::model::{Kind, Lacking, Model};
use super::solver::{Conditions, Row, Solver};
use std::ops::RangeInclusive;
use wurgalm::{Equation, Sizes};

/// The indices of a window, and how their values are numbered as unknowns.
#[derive(Clone, Copy)]
struct Places {
    sizes: Sizes,
    window: (i64, i64),
    shown: (i64, i64),
    kind: Kind,
}

impl Places {
    /// The unknown of a value: those above the range come first, then those below it, then the range from its end.
    fn unknown(&self, index: i64, column: usize) -> usize {
        let (m, (low, high), (first, last)) = (self.sizes.m, self.window, self.shown);
        let vectors = if index > last {
            high - index
        } else if index < first {
            high - last + index - low
        } else {
            high - last + first - low + last - index
        };
        vectors as usize * m + m - column
    }

    /// The index and the column of an unknown of the range.
    fn place(&self, unknown: usize) -> (i64, usize) {
        let (m, (low, high), (first, last)) = (self.sizes.m, self.window, self.shown);
        let at = unknown - (high - last + first - low) as usize * m;
        (last - (at / m) as i64, m - at % m)
    }

    /// An equation at n as a row.
    fn row(&self, equation: &Equation, n: i64) -> Row {
        let mut row = Row { right: Integer::value(equation.right(), n), ..Row::default() };
        for (s, c, p) in equation.terms().filter(|(s, ..)| !self.kind.is_zero(n + s)) {
            let factor = Integer::value(p, n);
            if !factor.is_zero() {
                row.add(self.unknown(n + s, c), &factor);
            }
        }
        row
    }

    /// Every n at which all is said of the window up to an index.
    fn ns(&self, high: i64) -> RangeInclusive<i64> {
        self.window.0 - self.sizes.t..=high - self.sizes.l
    }

    /// How far the work has come at n.
    fn told(&self, n: i64) -> String {
        format!("index {} of {} to {}", n + self.sizes.l, self.window.0, self.window.1)
    }

    /// Holds what is said at n.
    fn hold(&self, solver: &mut Solver, model: &Model, n: i64, clock: &Clock) -> Result<(), Stop> {
        for equation in model.needed_at(n, self.window.0 - self.sizes.t, self.kind) {
            solver.hold(self.row(&equation, n), clock)?;
        }
        Ok(())
    }

    /// Takes what is said at n into conditions, and forgets a vector with it; gives how many of its values nothing
    /// gives.
    fn pass(&self, by: &mut Conditions, model: &Model, (n, index): (i64, i64), clock: &Clock) -> Result<usize, Stop> {
        let mut solver = Solver::default();
        self.hold(&mut solver, model, n, clock)?;
        self.leave(by, solver, index, clock)
    }

    /// Forgets a vector, with what a solver says of it.
    fn leave(&self, by: &mut Conditions, solver: Solver, index: i64, clock: &Clock) -> Result<usize, Stop> {
        let free = by.pass(solver, (1..=self.sizes.m).map(|column| self.unknown(index, column)), clock)?;
        match free {
            None => Err(Stop::Contradiction),
            Some(_) if self.kind.is_zero(index) => Ok(0),
            Some(free) => Ok(free),
        }
    }

    /// Forgets a vector of which nothing more is said, and counts those of its values that nothing gives.
    fn forget(&self, solver: &mut Solver, index: i64) -> usize {
        let is_free = |column: &usize| solver.remove(self.unknown(index, *column)).is_none();
        let free = (1..=self.sizes.m).filter(is_free).count();
        if self.kind.is_zero(index) {
            0
        } else {
            free
        }
    }
}

/// What ends the work.
enum Stop {
    /// What is said contradicts itself.
    Contradiction,
    Late,
}

impl From<Late> for Stop {
    fn from(_: Late) -> Stop {
        Stop::Late
    }
}

impl Solver {
    fn hold(&mut self, row: Row, clock: &Clock) -> Result<(), Stop> {
        match self.add(row, clock)? {
            true => Ok(()),
            false => Err(Stop::Contradiction),
        }
    }
}

/// A range of indices with what is known of its values.
#[derive(Clone)]
pub struct Range {
    places: Places,
    solver: Solver,
    /// Values up to this index are worked out.
    worked: i64,
    /// How many constants are free that no value of the range depends on.
    pub elsewhere: usize,
}

/// A value of the range.
#[derive(Debug, PartialEq)]
pub enum Value {
    Free,
    /// A number, and free values of the range with their factors.
    Given(Fraction, Vec<((i64, usize), Fraction)>),
}

impl Range {
    /// What is known of the values at the indices of a range. Those that roots and relations matter to are worked out,
    /// and those up to the index `until`.
    pub fn new(model: &Model, kind: Kind, shown: (i64, i64), until: i64, clock: &Clock) -> Result<Range, Lacking> {
        let (sizes, (low, high)) = (model.input.sizes(), model.reach(kind, shown)?);
        if let Kind::ZeroBelow(index) = kind {
            model.below(index)?;
        }
        let places = Places { sizes, window: (low, high.max(shown.1)), shown, kind };
        // The vectors below the range are done with where D of the range are worked out.
        let worked = shown.1.min(until.max(high).max(shown.0 - 1 + sizes.l - sizes.t));
        let mut range = Range { places, solver: Solver::default(), worked, elsewhere: 0 };
        match range.work(model, high, clock) {
            Ok(()) => Ok(range),
            Err(Stop::Late) => Err(Lacking::Late),
            Err(Stop::Contradiction) => Err(contradiction(places, model, high, clock)?),
        }
    }

    /// Holds everything that is said of the window up to index `high`, and works the values out.
    fn work(&mut self, model: &Model, high: i64, clock: &Clock) -> Result<(), Stop> {
        let (places, sizes, ns) = (self.places, self.places.sizes, self.places.ns(high));
        // A relation elsewhere is of no value of the window.
        let is_unheld = |n0: i64, row: &Equation| !ns.contains(&n0) && !Integer::value(row.right(), n0).is_zero();
        if model.relations(places.kind).any(|(n0, _, row)| is_unheld(n0, &row)) {
            return Err(Stop::Contradiction);
        }
        let (below, kept) = self.from_below(model, clock)?;
        let above = self.from_above(model, high, clock)?;
        for row in below.into_rows() {
            self.solver.hold(row, clock)?;
        }
        for n in kept - sizes.t..=self.worked - sizes.l {
            clock.tell(|| places.told(n));
            places.hold(&mut self.solver, model, n, clock)?;
        }
        for row in above.into_rows() {
            self.solver.hold(row, clock)?;
        }
        for index in kept..places.shown.0 {
            self.elsewhere += places.forget(&mut self.solver, index);
        }
        Ok(())
    }

    /// The conditions on the range from what is said below it, worked upwards, and the first index that they speak of.
    fn from_below(&mut self, model: &Model, clock: &Clock) -> Result<(Conditions, i64), Stop> {
        let (places, sizes, (first, last)) = (self.places, self.places.sizes, self.places.shown);
        let (mut below, mut kept) = (Conditions::default(), places.window.0);
        // Of the last D vectors the equations above the range speak too.
        let most = first.min(last + 1 - (sizes.l - sizes.t));
        for n in places.ns(self.worked).take_while(|n| n + sizes.t < most) {
            clock.tell(|| places.told(n));
            self.elsewhere += places.pass(&mut below, model, (n, n + sizes.t), clock)?;
            kept = n + sizes.t + 1;
        }
        Ok((below, kept))
    }

    /// The conditions on the range from what is said above it, worked downwards from index `high`.
    fn from_above(&mut self, model: &Model, high: i64, clock: &Clock) -> Result<Conditions, Stop> {
        let (places, l, last) = (self.places, self.places.sizes.l, self.places.shown.1);
        let (ns, mut above, mut kept) = (places.ns(high), Conditions::default(), high);
        for n in ns.rev().take_while(|n| n + l > last) {
            clock.tell(|| places.told(n));
            self.elsewhere += places.pass(&mut above, model, (n, n + l), clock)?;
            kept = n + l - 1;
        }
        for index in (last + 1..=kept).rev() {
            self.elsewhere += places.leave(&mut above, Solver::default(), index, clock)?;
        }
        Ok(above)
    }

    /// Works the values out up to an index, each vector from those before it.
    pub fn go_on(&mut self, model: &Model, index: i64, clock: &Clock) -> Result<(), Lacking> {
        let (places, l) = (self.places, self.places.sizes.l);
        for index in self.worked + 1..=index {
            match places.hold(&mut self.solver, model, index - l, clock) {
                Ok(()) => self.worked = index,
                Err(Stop::Late) => return Err(Lacking::Late),
                Err(Stop::Contradiction) => {
                    return Err(Lacking::None(format!("no such sequence: it ends at index {index}")))
                }
            }
        }
        Ok(())
    }

    /// Forgets the values at an index of the range, if no vector has to be worked out from them any more.
    pub fn forget(&mut self, index: i64) {
        if index <= self.worked - (self.places.sizes.l - self.places.sizes.t) {
            self.places.forget(&mut self.solver, index);
        }
    }

    /// A value of the range, which is worked out.
    pub fn value(&self, index: i64, column: usize) -> Value {
        let unknown = self.places.unknown(index, column);
        let Some(row) = self.solver.given(unknown) else { return Value::Free };
        let below = &row.factors[&unknown];
        if row.factors.len() == 1 {
            // A row has no common divisor.
            return Value::Given(Fraction::lowest(row.right.clone(), below.clone()), Vec::new());
        }
        let over = |number: &Integer| Fraction::of(number.clone(), below.clone());
        let others = row.factors.iter().skip(1).rev();
        let others = others.map(|(&unknown, factor)| (self.places.place(unknown), over(factor).negated())).collect();
        Value::Given(over(&row.right), others)
    }

    /// Sets a value of the range, which is worked out; false, and nothing is set, where it cannot be that.
    pub fn set(&mut self, index: i64, column: usize, value: &Fraction, clock: &Clock) -> Result<bool, Late> {
        let mut row = Row { right: value.numerator().clone(), ..Row::default() };
        row.add(self.places.unknown(index, column), value.denominator());
        self.solver.add(row, clock)
    }

    /// The free values of the range, by index and column.
    pub fn free(&self, model: &Model, clock: &Clock) -> Result<Vec<(i64, usize)>, Late> {
        let (m, (first, last), mut free) = (self.places.sizes.m, self.places.shown, Vec::new());
        for index in first..=last {
            if index <= self.worked {
                let is_free = |column: &usize| self.solver.given(self.places.unknown(index, *column)).is_none();
                free.extend((1..=m).filter(is_free).map(|column| (index, column)));
            } else {
                free.extend(free_at(model, index, clock)?.map(|column| (index, column)));
            }
        }
        Ok(free)
    }
}

/// The columns that the leading run leaves free at an index past all roots: those that the numbers of its rows there
/// leave without a row.
fn free_at(model: &Model, index: i64, clock: &Clock) -> Result<impl Iterator<Item = usize>, Late> {
    let (sizes, mut solver) = (model.leading.sizes(), Solver::default());
    if model.report.rank < sizes.m {
        for equation in model.leading.equations() {
            let mut row = Row::default();
            for (_, c, p) in equation.terms().filter(|(s, ..)| *s == sizes.l) {
                row.add(sizes.m - c, &Integer::value(p, index - sizes.l));
            }
            solver.add(row, clock)?;
        }
    }
    let is_whole = model.report.rank == sizes.m;
    Ok((1..=sizes.m).filter(move |column| !is_whole && solver.given(sizes.m - column).is_none()))
}

/// The first of all that is said, from the lowest n on, that cannot hold beside what stands before it.
fn contradiction(places: Places, model: &Model, high: i64, clock: &Clock) -> Result<Lacking, Late> {
    let (low, kind, t) = (places.window.0, places.kind, places.sizes.t);
    // With no index shown the unknowns go from the bottom up, as the n do.
    let places = Places { window: (low, high), shown: (high + 1, high), ..places };
    let (ns, mut solver) = (places.ns(high), Solver::default());
    let (before, behind) = (*ns.start(), *ns.end());
    let said = |n: i64| model.said_at(n, kind).map(move |(named, row)| (n, named, row));
    let inside = ns.flat_map(said);
    let mut relations: Vec<_> = model.relations(kind).collect();
    relations.sort_by_key(|(n0, ..)| *n0);
    let above = relations.split_off(relations.partition_point(|(n0, ..)| *n0 <= behind));
    let below = relations.into_iter().filter(|(n0, ..)| *n0 < before);
    let mut forgotten = low;
    for (n, named, equation) in below.chain(inside).chain(above) {
        clock.tell(|| format!("n = {n} of {before} to {behind}"));
        for index in forgotten..(n + t).min(high) {
            places.forget(&mut solver, index);
            forgotten = index + 1;
        }
        if !solver.add(places.row(&equation, n), clock)? {
            let told = format!("no such sequence: {named} cannot hold at n = {n} beside what stands before it");
            return Ok(Lacking::None(told));
        }
    }
    Ok(Lacking::None("no such sequence".into()))
}
