//! Differential sheets: linear differential equations in a variable x, and the recurrence that they are for the coefficients of a
//! series (SCOPE 10; 02, U3).
//!
//! The recurrence is built as the request tells it, from two steps on rows and no formula: x times a series has at n what the series has
//! at n - 1, and the derivative has at n the (n + 1)-fold of what it has at n + 1 (SCOPE 10.22).

use crate::fault::{is, Fault};
use crate::polynomial::Polynomial;
use crate::refusal::Refusal;
use crate::row::Row;
use crate::sheet::{after, refused_if, write, Judgement, Reader, Separator, Sheet};
use crate::system::{equation_count_in_range, unknowns_in_range, Sizes, System};

/// No factor of a term is past ±1,048,576 (SCOPE 10.5).
pub const FACTOR: i128 = 1_048_576;
/// The highest derivative and the highest power of the variable that a sheet may announce (SCOPE 10.2).
pub const HIGHEST: i128 = 2;

/// a × (x to the power j) × (the k-th derivative of unknown c) (SCOPE 10.5).
#[derive(Clone, Copy, Debug, PartialEq, Eq)]
pub struct Term {
    pub derivative: i128,
    pub power: i128,
    pub column: i128,
    pub factor: i128,
}

/// The first line of a differential sheet: m, K and J (SCOPE 10.2).
#[derive(Clone, Copy, Debug, PartialEq, Eq)]
pub struct Limits {
    pub unknowns: i128,
    pub derivative: i128,
    pub power: i128,
}

impl Limits {
    /// The most terms of an equation: one for each derivative, power and unknown (SCOPE 10.4).
    pub fn terms(&self) -> i128 {
        self.unknowns * (self.derivative + 1) * (self.power + 1)
    }
}

/// A differential sheet. The number of its equations is that of the list.
#[derive(Clone, Debug, PartialEq, Eq)]
pub struct Differential {
    pub limits: Limits,
    pub equations: Vec<Vec<Term>>,
}

// ---- reading ----

/// The sheet that the bytes hold: two sections and nothing behind them (4; SCOPE 10.7, 10.14).
pub fn read(bytes: &[u8], fault: Option<Fault>) -> Result<Differential, Refusal> {
    read_by(&mut Reader { bytes, fault })
}

/// The first fault of a differential sheet, and where the token begins at which the reading ended, in bytes from 0.
pub fn fault_place(bytes: &[u8]) -> Option<(Refusal, usize)> {
    let mut reader = Reader { bytes, fault: None };
    let refusal = read_by(&mut reader).err()?;
    Some((refusal, bytes.len() - reader.bytes.len()))
}

fn read_by(reader: &mut Reader) -> Result<Differential, Refusal> {
    let fault = reader.fault;
    let limits = reader.limits()?;
    let equations = reader.differential_equations(limits)?;
    refused_if(!reader.bytes.is_empty() && !is(fault, Fault::DifferentialBytesAfter), Refusal::End)?;
    Ok(Differential { limits, equations })
}

impl Reader<'_> {
    /// 3, m, K and J on a line (SCOPE 10.2).
    fn limits(&mut self) -> Result<Limits, Refusal> {
        let refusal = if is(self.fault, Fault::LimitsForm) { Refusal::Form } else { Refusal::Range };
        let highest = |value| refused_if(!(0..=HIGHEST).contains(&value), refusal);
        self.within(Separator::Space, |count| count == 3)?;
        let unknowns = self.within(Separator::Space, unknowns_in_range)?;
        let derivative = self.number(|_| Separator::Space, highest)?;
        let power = self.number(|_| Separator::LineEnd, highest)?;
        Ok(Limits { unknowns, derivative, power })
    }

    /// The equation count, 0 to 6, and the equations (SCOPE 10.3; 02, U6).
    fn differential_equations(&mut self, limits: Limits) -> Result<Vec<Vec<Term>>, Refusal> {
        let count = self.within(Separator::LineEnd, equation_count_in_range)?;
        (0..count).map(|_| self.differential_equation(limits)).collect()
    }

    /// The number of terms and the terms (SCOPE 10.4); behind a 0 the line ends.
    fn differential_equation(&mut self, limits: Limits) -> Result<Vec<Term>, Refusal> {
        let most = limits.terms() + is(self.fault, Fault::TermTooMany) as i128;
        let separator = |count| if count == 0 { Separator::LineEnd } else { Separator::Space };
        let count = self.number(separator, |count| refused_if(!(0..=most).contains(&count), Refusal::Range))?;
        let mut terms: Vec<Term> = Vec::new();
        for place in 1..=count as usize {
            let term = self.differential_term(limits, terms.last().copied(), after(place, count as usize))?;
            terms.push(term);
        }
        Ok(terms)
    }

    /// k, j, c and a. The order among the terms is judged at the token that breaks it, behind its range (SCOPE 10.12, 10.13).
    fn differential_term(&mut self, limits: Limits, before: Option<Term>, line: Separator) -> Result<Term, Refusal> {
        let fault = self.fault;
        let rises = |k| before.is_some_and(|last| k > last.derivative);
        let derivative = self.placed(0..=limits.derivative, |k| rises(k) && !is(fault, Fault::DerivativesRise))?;
        let same = before.filter(|last| last.derivative == derivative);
        let falls = |j| same.is_some_and(|last| j < last.power);
        let power = self.placed(0..=limits.power, |j| falls(j) && !is(fault, Fault::PowersFall))?;
        let same = same.filter(|last| last.power == power);
        let stays = |c| same.is_some_and(|last| c < last.column || c == last.column && !is(fault, Fault::TermTwice));
        let column = self.placed(1..=limits.unknowns, |c| stays(c) && !is(fault, Fault::ColumnsFall))?;
        let factor = self.number(|_| line, |a| factor_right(a, fault))?;
        Ok(Term { derivative, power, column, factor })
    }

    /// A number of a term's place: 2 where it is out of its range, then 3 where it breaks the order.
    fn placed(
        &mut self,
        range: std::ops::RangeInclusive<i128>,
        breaks_order: impl Fn(i128) -> bool,
    ) -> Result<i128, Refusal> {
        let order_first = is(self.fault, Fault::PlaceOrderFirst);
        let judge = |value| {
            let in_range = refused_if(!range.contains(&value), Refusal::Range);
            let in_order = refused_if(breaks_order(value), Refusal::Form);
            if order_first {
                in_order.and(in_range)
            } else {
                in_range.and(in_order)
            }
        };
        self.number(|_| Separator::Space, judge)
    }
}

/// 5 for a factor past ±1,048,576, then 3 for 0 (SCOPE 10.12, 10.13).
fn factor_right(a: i128, fault: Option<Fault>) -> Judgement {
    let most = if is(fault, Fault::FactorLimit) { crate::C } else { FACTOR };
    let refusal = if is(fault, Fault::FactorIsSize) { Refusal::Range } else { Refusal::Number };
    refused_if(a.abs() > most, refusal)?;
    refused_if(a == 0 && !is(fault, Fault::FactorZero), Refusal::Form)
}

// ---- the recurrence ----

/// x times a series: at n what `row` says at n - 1 (SCOPE 10.22).
fn times_variable(row: &Row, fault: Option<Fault>) -> Row {
    if is(fault, Fault::VariableUp) {
        return row.shifted();
    }
    row.mapped(|s| s - 1, Polynomial::after_decrement)
}

/// The derivative of a series: at n the (n + 1)-fold of what `row` says at n + 1 (SCOPE 10.22).
fn derivative(row: &Row, fault: Option<Fault>) -> Row {
    let factor = Polynomial::linear(if is(fault, Fault::DerivativeFactor) { 0 } else { -1 });
    row.shifted().mapped(|s| s, |p| p.times(&factor))
}

impl Term {
    /// What the term is at n, in the coefficients of its unknown.
    fn row(&self, fault: Option<Fault>) -> Row {
        let mut row = Row::default();
        row.set(0, self.column as usize, Polynomial::new(vec![self.factor]));
        let differentiated = |row| (0..self.derivative).fold(row, |row, _| derivative(&row, fault));
        let multiplied = |row| (0..self.power).fold(row, |row, _| times_variable(&row, fault));
        if is(fault, Fault::VariableFirst) {
            differentiated(multiplied(row))
        } else {
            multiplied(differentiated(row))
        }
    }
}

impl Differential {
    /// The recurrence for the coefficients: l = K, t = -J, right sides zero, no relations (SCOPE 10.21).
    pub fn recurrence(&self, fault: Option<Fault>) -> System {
        let Limits { unknowns, derivative, power } = self.limits;
        let (l, t) = if is(fault, Fault::LimitsExchanged) { (power, derivative) } else { (derivative, power) };
        let sizes = Sizes { m: unknowns as usize, l: l as i64, t: -t as i64 };
        let rows = self.equations.iter().map(|terms| within(&equation(terms, fault), sizes)).collect();
        System { sizes, rows, relations: Vec::new() }
    }
}

/// The terms added up, also those that meet at one block and column (SCOPE 10.23).
fn equation(terms: &[Term], fault: Option<Fault>) -> Row {
    let mut sum = Row::default();
    for row in terms.iter().map(|term| term.row(fault)) {
        for (block, column, p) in row.entries() {
            let there = sum.entry(block, column);
            let there = if is(fault, Fault::TermsOverwrite) { Polynomial::default() } else { there };
            sum.set(block, column, there.plus(p));
        }
    }
    sum
}

/// The entries of a row in the blocks t to l: all of them, but for some of the planted faults.
fn within(row: &Row, sizes: Sizes) -> Row {
    let mut inside = Row::default();
    let entries = row.entries().filter(|(block, _, _)| (sizes.t..=sizes.l).contains(block));
    entries.for_each(|(block, column, p)| inside.set(block, column, p.clone()));
    inside
}

// ---- answers ----

/// The recurrence's sheet, which has no relations and no column order, for the bytes of a differential sheet.
pub fn answer(bytes: &[u8], fault: Option<Fault>) -> Result<Vec<u8>, Refusal> {
    let system = read(bytes, fault)?.recurrence(fault);
    Ok(write(&Sheet { system, order: Vec::new() }))
}

/// What the program `induce` writes: a line `0` and the recurrence's sheet, or the refusal alone on a line (SCOPE 10.51).
pub fn output(input: &[u8], fault: Option<Fault>) -> Vec<u8> {
    match answer(input, fault) {
        Ok(text) => [b"0\n", &text[..]].concat(),
        Err(refusal) => format!("{}\n", refusal.number()).into_bytes(),
    }
}
