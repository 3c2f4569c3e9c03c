//! What the trees of a text come to, and the rules on names and limits.

use super::syntax::{read, Letters, Statement, Text, Tree};
use super::wide::Wide;
use super::{Broken, Meaning, Powers, Row};
use std::collections::BTreeMap;

const FUNCTIONS: &str =
    "abs acos arccos arcsin arctan asin atan cos cosh cot derivative diff exp ln log sin sinh sqrt tan tanh";
const NEVER: [&str; 5] = ["at", "derivatives", "n", "none", "unknowns"];
/// The largest coefficient of a sheet (SCOPE 1.4), and of a differential one (SCOPE 10.5).
const LARGEST: [i64; 2] = [268_435_455, 1_048_576];

/// Coefficients that are not 0, by their power.
type Polynomial = BTreeMap<usize, Wide>;

/// A polynomial, and one for each unknown at an index or with so many primes.
#[derive(Clone, Default)]
struct Value {
    free: Polynomial,
    terms: BTreeMap<(i64, usize), Polynomial>,
}

/// What a text says, unless it breaks a rule.
pub fn meaning(text: &str, is_differential: bool) -> Result<(Meaning, bool), Broken> {
    let text = read(text, is_differential)?;
    let mut names = Names { unknowns: Vec::new(), text: &text };
    let mut whole = Meaning::default();
    let bounds = names.heading(&mut whole)?;
    let mut rows = Vec::new();
    for statement in &text.statements {
        rows.push((statement.n0, names.statement(statement)?));
    }
    whole.unknowns = names.unknowns.len();
    if whole.unknowns == 0 {
        return Err(Broken("no unknown"));
    }
    whole.bounds = if text.is_differential { of_derivatives(bounds, &rows)? } else { of_blocks(bounds, &rows)? };
    for (n0, value) in rows {
        let row = row(&value, text.is_differential)?;
        match n0 {
            Some(n0) => whole.relations.push((n0, row)),
            None => whole.equations.push(row),
        }
    }
    let is_right = whole.equations.len() <= 6 && whole.relations.len() <= 16;
    is_right.then_some((whole, text.is_differential)).ok_or(Broken("too many equations"))
}

/// The names that the text has as unknowns, in the order of their columns.
struct Names<'a> {
    unknowns: Vec<String>,
    text: &'a Text,
}

/// l and t, or derivatives and powers, where the first line has them.
type Bounds = (Option<i64>, Option<i64>);

impl Names<'_> {
    fn variable(&self) -> &'static str {
        if self.text.is_differential {
            "x"
        } else {
            "n"
        }
    }

    /// What the first line says.
    fn heading(&mut self, whole: &mut Meaning) -> Result<Bounds, Broken> {
        let mut bounds = (None, None);
        let Some(pieces) = &self.text.heading else { return Ok(bounds) };
        let mut has_order = false;
        for (number, piece) in pieces.iter().enumerate() {
            let letters: Vec<char> = piece.chars().collect();
            let mut letters = Letters::new(&letters, self.text.is_differential);
            let word = letters.name()?.ok_or(Broken("a part of the first line"))?;
            match (number, &word[..], self.text.is_differential) {
                (0, _, _) => {
                    let listed = list(&mut letters)?;
                    if !distinct(&listed) || listed.len() > 4 || listed.iter().any(|name| self.is_never(name)) {
                        return Err(Broken("the unknowns of the first line"));
                    }
                    self.unknowns = listed;
                }
                (_, "l", false) => once(&mut bounds.0, block(&mut letters)?)?,
                (_, "t", false) => once(&mut bounds.1, block(&mut letters)?)?,
                (_, "derivatives", true) => once(&mut bounds.0, within(letters.integer()?, 0, 2)?)?,
                (_, "powers", true) => once(&mut bounds.1, within(letters.integer()?, 0, 2)?)?,
                (_, "order", false) if !has_order => {
                    has_order = true;
                    whole.order = self.order(&list(&mut letters)?)?;
                }
                _ => return Err(Broken("a part of the first line")),
            }
            if letters.letter().is_some() {
                return Err(Broken("behind a part of the first line"));
            }
        }
        Ok(bounds)
    }

    fn order(&self, listed: &[String]) -> Result<Vec<usize>, Broken> {
        if listed == ["none"] {
            return Ok(Vec::new());
        }
        let column = |name: &String| self.unknowns.iter().position(|known| known == name).map(|at| at + 1);
        let order: Option<Vec<usize>> = listed.iter().map(column).collect();
        order.filter(|_| distinct(listed)).ok_or(Broken("the order"))
    }

    fn is_never(&self, name: &str) -> bool {
        NEVER.contains(&name) || name == self.variable()
    }

    /// The column of a name, which becomes an unknown where no first line forbids it and it has no other reading.
    fn column(&mut self, name: &str) -> Result<usize, Broken> {
        if let Some(at) = self.unknowns.iter().position(|known| known == name) {
            return Ok(at + 1);
        }
        let is_number = self.text.is_differential && matches!(name, "e" | "pi") && !self.text.marked.contains(name);
        let is_function = FUNCTIONS.split(' ').any(|function| function.eq_ignore_ascii_case(name));
        let is_closed = self.text.heading.is_some() || self.unknowns.len() == 4;
        if is_closed || self.is_never(name) || is_number || is_function || self.is_product(name) {
            return Err(Broken("a name"));
        }
        self.unknowns.push(name.into());
        Ok(self.unknowns.len())
    }

    /// Whether the variable, its powers without `^`, and other names of the text make up a name.
    fn is_product(&self, name: &str) -> bool {
        let is_numbered =
            name.strip_prefix(self.variable()).is_some_and(|tail| tail.chars().all(|c| c.is_ascii_digit()));
        if is_numbered && self.text.marked.contains(name) {
            return false;
        }
        // Which ends of the name are made up, and which of them may begin with digits.
        let mut is_made = vec![[false; 2]; name.len() + 1];
        is_made[name.len()] = [true; 2];
        for at in (0..name.len()).rev() {
            let tail = &name[at..];
            let digits = tail.chars().take_while(char::is_ascii_digit).count();
            let other = |word: &String| {
                let is_part = word != name && word != self.variable() && tail.starts_with(&word[..]);
                is_part && is_made[at + word.len()][0]
            };
            let by_variable = tail.starts_with(self.variable()) && is_made[at + 1][1];
            let by_name = by_variable || self.text.names.iter().any(other);
            is_made[at] = [by_name, by_name || digits > 0 && is_made[at + digits][0]];
        }
        is_made[0][0]
    }

    fn statement(&mut self, statement: &Statement) -> Result<Value, Broken> {
        if statement.n0.is_some_and(|n0| n0.abs() > LARGEST[0]) {
            return Err(Broken("the index of a relation"));
        }
        let left = self.value(&statement.left, statement.n0)?;
        let right = self.value(&statement.right, statement.n0)?;
        let value = sum(left, right, true)?;
        let has_unknown = statement.left.has_unknown() || statement.right.has_unknown();
        let is_right = if has_unknown { !value.terms.is_empty() } else { statement.is_zero_left };
        is_right.then_some(value).ok_or(Broken("no unknown in an equation"))
    }

    /// What a tree comes to, its parts from left to right.
    fn value(&mut self, tree: &Tree, n0: Option<i64>) -> Result<Value, Broken> {
        match tree {
            Tree::Number(number) => Ok(constant(*number)),
            Tree::Variable => Ok(Value { free: [(1, Wide::from(1))].into(), ..Value::default() }),
            Tree::Indexed(name, index) => {
                let column = self.column(name)?;
                let index = self.value(index, None)?;
                Ok(unknown(place(&index.free, n0)?, column))
            }
            Tree::Derivative(name, primes) => Ok(unknown(*primes, self.column(name)?)),
            Tree::Sum(parts) => {
                let mut whole = Value::default();
                for (is_minus, part) in parts {
                    whole = sum(whole, self.value(part, n0)?, *is_minus)?;
                }
                Ok(whole)
            }
            Tree::Product(factors) => {
                let mut whole = constant(1);
                for factor in factors {
                    whole = product(&whole, &self.value(factor, n0)?)?;
                }
                Ok(whole)
            }
            Tree::Power(base, power) => {
                let base = self.value(base, n0)?;
                (0..*power).try_fold(constant(1), |whole, _| product(&whole, &base))
            }
        }
    }
}

fn once(bound: &mut Option<i64>, number: i64) -> Result<(), Broken> {
    match bound.replace(number) {
        None => Ok(()),
        Some(_) => Err(Broken("a part of the first line twice")),
    }
}

fn block(letters: &mut Letters) -> Result<i64, Broken> {
    letters.sign('=')?;
    within(letters.integer()?, -64, 64)
}

fn within(number: i64, least: i64, most: i64) -> Result<i64, Broken> {
    (least..=most).contains(&number).then_some(number).ok_or(Broken("a number of the first line"))
}

fn list(letters: &mut Letters) -> Result<Vec<String>, Broken> {
    let mut listed = Vec::new();
    loop {
        listed.push(letters.name()?.ok_or(Broken("a name is missing"))?);
        if letters.sign(',').is_err() {
            return Ok(listed);
        }
    }
}

fn distinct(names: &[String]) -> bool {
    (1..names.len()).all(|at| !names[..at].contains(&names[at]))
}

fn constant(number: u64) -> Value {
    let mut value = Value::default();
    add(&mut value.free, 0, Wide::from(number));
    value
}

fn unknown(place: i64, column: usize) -> Value {
    Value { terms: [((place, column), [(0, Wide::from(1))].into())].into(), ..Value::default() }
}

/// The block of an index, n0 being the index of the relation where one is read.
fn place(index: &Polynomial, n0: Option<i64>) -> Result<i64, Broken> {
    let number = index.get(&0).cloned().unwrap_or_default();
    let rest: Vec<(&usize, &Wide)> = index.iter().filter(|(power, _)| **power > 0).collect();
    let block = match (&rest[..], n0) {
        ([(1, one)], _) if **one == Wide::from(1) => number,
        ([], Some(n0)) => {
            let size = Wide::from(n0.unsigned_abs());
            number.plus(&if n0 > 0 { size.negated() } else { size })
        }
        _ => return Err(Broken("an index")),
    };
    block.within(64).ok_or(Broken("an index far from n"))
}

fn add(to: &mut Polynomial, power: usize, number: Wide) {
    let sum = to.remove(&power).unwrap_or_default().plus(&number);
    if !sum.is_zero() {
        to.insert(power, sum);
    }
}

/// A value whose coefficients and powers are not too large, without the terms that have cancelled.
fn fitting(mut value: Value) -> Result<Value, Broken> {
    value.terms.retain(|_, p| !p.is_empty());
    let fits = |(power, number): (&usize, &Wide)| *power <= 64 && number.is_within_power(100);
    let is_right = value.terms.values().chain([&value.free]).all(|p| p.iter().all(fits));
    is_right.then_some(value).ok_or(Broken("too large"))
}

fn sum(mut a: Value, b: Value, is_minus: bool) -> Result<Value, Broken> {
    let signed = |number: Wide| if is_minus { number.negated() } else { number };
    for (power, number) in b.free {
        add(&mut a.free, power, signed(number));
    }
    for (key, p) in b.terms {
        let to = a.terms.entry(key).or_default();
        for (power, number) in p {
            add(to, power, signed(number));
        }
    }
    fitting(a)
}

fn multiplied(a: &Polynomial, b: &Polynomial) -> Polynomial {
    let mut product = Polynomial::new();
    for (i, x) in a {
        for (j, y) in b {
            add(&mut product, i + j, x.times(y));
        }
    }
    product
}

/// The product of two values, one of which has no terms.
fn product(a: &Value, b: &Value) -> Result<Value, Broken> {
    let mut whole = Value { free: multiplied(&a.free, &b.free), ..Value::default() };
    for (terms, factor) in [(&a.terms, &b.free), (&b.terms, &a.free)] {
        whole.terms.extend(terms.iter().map(|(key, p)| (*key, multiplied(p, factor))));
    }
    fitting(whole)
}

fn keys(rows: &[(Option<i64>, Value)]) -> impl Iterator<Item = i64> + '_ {
    rows.iter().flat_map(|(_, value)| value.terms.keys().map(|(key, _)| *key))
}

fn of_blocks(bounds: Bounds, rows: &[(Option<i64>, Value)]) -> Result<(i64, i64), Broken> {
    let highest = bounds.0.or(keys(rows).max());
    let lowest = bounds.1.or(keys(rows).min());
    let l = highest.or(lowest).unwrap_or(0);
    let t = lowest.unwrap_or(l);
    let is_right = t <= l && l - t <= 4 && keys(rows).all(|key| t <= key && key <= l);
    is_right.then_some((l, t)).ok_or(Broken("blocks"))
}

fn of_derivatives(bounds: Bounds, rows: &[(Option<i64>, Value)]) -> Result<(i64, i64), Broken> {
    let all = || rows.iter().flat_map(|(_, value)| value.terms.values());
    let powers = || all().flat_map(|p| p.keys().map(|power| *power as i64));
    let derivatives = bounds.0.or(keys(rows).max()).unwrap_or(0);
    let highest = bounds.1.or(powers().max()).unwrap_or(0);
    let has_sides = rows.iter().any(|(_, value)| !value.free.is_empty());
    let is_right = keys(rows).all(|key| key <= derivatives) && powers().all(|power| power <= highest);
    let is_right = is_right && derivatives <= 2 && highest <= 2 && !has_sides;
    is_right.then_some((derivatives, highest)).ok_or(Broken("derivatives and powers"))
}

fn numbers(p: &Polynomial, is_negated: bool, is_differential: bool) -> Result<Powers, Broken> {
    let mut powers = Powers::new();
    for (power, number) in p {
        let limit = LARGEST[usize::from(is_differential)];
        let number = number.within(limit).filter(|_| *power <= 15).ok_or(Broken("a coefficient"))?;
        powers.insert(*power, if is_negated { -number } else { number });
    }
    Ok(powers)
}

fn row(value: &Value, is_differential: bool) -> Result<Row, Broken> {
    let mut row = Row { right: numbers(&value.free, true, is_differential)?, ..Row::default() };
    for (key, p) in &value.terms {
        row.terms.insert(*key, numbers(p, false, is_differential)?);
    }
    Ok(row)
}
